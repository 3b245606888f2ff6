"""Makes a capture of a dump that tests/capture.awk makes, with the TCP checksums of its frames filled where they are whole:

    awk -f tests/capture.awk SEGMENTS | python3 tests/tools/summed.py > CAPTURE

The sum is taken as the rest of one large number divided by 65,535 (RFC 1071: sums of 16 bits are such rests)."""
import sys

file = bytearray.fromhex(sys.stdin.read())
order = 'big' if file[0] == 0xa1 else 'little'
at = 24
while at < len(file):
    end = at + 16 + int.from_bytes(file[at + 8:at + 12], order)
    ip = at + 16 + (18 if file[at + 28:at + 30] == b'\x81\x00' else 14)
    after = ip + int.from_bytes(file[ip + 2:ip + 4], 'big')
    if file[ip - 2:ip] == b'\x08\x00' and file[ip + 9] == 6 and ip < after <= end:
        tcp = ip + 20
        length = after - tcp
        summed = file[ip + 12:tcp] + bytes([0, 6]) + length.to_bytes(2, 'big') + file[tcp:after] + bytes(length % 2)
        file[tcp + 16:tcp + 18] = (-int.from_bytes(summed, 'big') % 65535).to_bytes(2, 'big')
    at = end
sys.stdout.buffer.write(file)
