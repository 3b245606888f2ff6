"""Writes a capture of a session whose server answers one byte with 30 MB, more than sockets hold: much.py > CAPTURE."""
import struct, sys

PEERS = b'\x0a\x00\x00\x01', b'\x0a\x00\x00\x02'
PORTS = b'\x9c\x40', b'\x00\x50'


def record(microseconds, sender, seq, ack, flags, payload=b''):
    length = 40 + len(payload)
    ip = struct.pack('>2B5H', 0x45, 0, length, 0, 0x4000, 0x4006, 0) + PEERS[sender] + PEERS[1 - sender]
    tcp = PORTS[sender] + PORTS[1 - sender] + struct.pack('>2I2B3H', seq, ack, 0x50, flags, 0xffff, 0, 0)
    return struct.pack('<4I', 1, microseconds, 14 + length, 14 + length) + bytes(12) + b'\x08\x00' + ip + tcp + payload


parts = [bytes.fromhex('d4c3b2a1020004000000000000000000ffff000001000000'), record(0, 0, 1000, 0, 2), record(1, 1, 5000, 1001, 18)]
parts.append(record(2, 0, 1001, 5001, 24, b'?'))
for number in range(500): parts.append(record(3, 1, 5001 + 60000 * number, 1002, 24, b'!' * 60000))
sys.stdout.buffer.write(b''.join(parts))
