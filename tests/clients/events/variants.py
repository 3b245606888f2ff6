"""Writes a capture of microseconds without tags anew, in nanoseconds and with the tag of VLAN 7 in each frame: variants.py CAPTURE > OTHER."""
import struct, sys

with open(sys.argv[1], 'rb') as file: capture = file.read()
place, parts = 24, [b'\x4d\x3c\xb2\xa1', capture[4:24]]
while place < len(capture):
    seconds, ticks, held, length = struct.unpack_from('<4I', capture, place)
    frame = capture[place + 16:place + 16 + held]
    parts += struct.pack('<4I', seconds, 1000 * ticks + 7, held + 4, length + 4), frame[:12], b'\x81\x00\x00\x07', frame[12:]
    place += 16 + held
sys.stdout.buffer.write(b''.join(parts))
