"""Captures for the tool's tests, made from a seed: sessions of a client and a server, interleaved, as two hosts would have them."""
import random
import struct

FIN, SYN, RST, PSH, ACK = 1, 2, 4, 8, 16
MSS, SACK, SCALE = b"\2\4\5\xb4", b"\4\2", b"\1\3\3\7"
STAMPS = b"\x08\x0a\0\0\0\1\0\0\0\0"


def sum_of(data):
    """The checksum of bytes (RFC 1071)."""
    data += bytes(len(data) % 2)
    total = sum(struct.unpack(f">{len(data) // 2}H", data))
    while total > 0xFFFF:
        total = (total & 0xFFFF) + (total >> 16)
    return total ^ 0xFFFF


class Host:
    """One end of a connection, and how its frames look."""

    def __init__(self, address, port, tag=b"", service=0, hops=64, name=0, window=500):
        self.address, self.port, self.tag, self.service, self.hops, self.name, self.window = address, port, tag, service, hops, name, window

    def frame(self, peer, seq, ack, flags, payload=b"", options=b""):
        """A frame of it."""
        size = 20 + len(options) + len(payload)
        ends = self.address + peer.address
        words = 5 + len(options) // 4 << 12 | flags
        tcp = struct.pack(">2H2I4H", self.port, peer.port, seq % 2**32, ack % 2**32, words, self.window, 0, 0) + options + payload
        total = sum_of(ends + struct.pack(">2H", 6, size) + tcp)
        ip = struct.pack(">2B5H", 0x45, self.service, 20 + size, self.name, 0x4000, self.hops << 8 | 6, 0) + ends
        self.name = self.name and (self.name + 1) % 2**16
        ethernet = b"\2\0" + peer.address + b"\2\0" + self.address + self.tag + b"\x08\0"
        return ethernet + ip[:10] + struct.pack(">H", sum_of(ip)) + ip[12:] + tcp[:16] + struct.pack(">H", total) + tcp[18:]


def session(draw, client, server, start, sizes, end):
    """The records (microsecond, frame) of a session: for each exchange the bytes of a request and of an answer; `end` is fin, reset, open, refused,
    silent (nobody answers) or late (a request, and nobody answers)."""
    x, y, time, found = draw.getrandbits(32), draw.getrandbits(32), start, []
    line = draw.randrange(100, 9000)

    def put(host, peer, seq, ack, flags, payload=b"", options=b""):
        found.append((time, host.frame(peer, seq, ack, flags, payload, options)))

    put(client, server, x, 0, SYN, options=MSS + SACK + STAMPS + SCALE)
    x += 1
    if end in ("silent", "refused"):
        time += 1_000_000 if end == "silent" else line
        if end == "silent": put(client, server, x - 1, 0, SYN, options=MSS + SACK + STAMPS + SCALE)
        else: put(server, client, 0, x, RST | ACK)
        return found
    time += line
    put(server, client, y, x, SYN | ACK, options=MSS + SACK + STAMPS + SCALE)
    y += 1
    time += 20
    put(client, server, x, y, ACK)
    for request, answer in sizes:
        time += draw.randrange(200, 5000)
        for side, size in ((0, request), (1, answer)):
            host, peer = (client, server) if side == 0 else (server, client)
            data, sent = draw.randbytes(size), []
            for at in range(0, size, 1448):
                piece = data[at:at + 1448]
                sent.append((host, peer, (x, y)[side] + at, (y, x)[side], PSH | ACK if at + 1448 >= size else ACK, piece))
            if len(sent) > 3 and draw.random() < 0.3:  # one comes late, one twice
                sent.insert(2, sent.pop(1))
                sent.append(sent[-1])
            for number, words in enumerate(sent):
                time += draw.choice((0, 1, 12, 12, 12, 400))
                put(*words)
                if number % 2: put(peer, host, words[3], words[2] + len(words[5]), ACK)
            if side == 0: x += size
            else: y += size
            time += line
    if end == "reset":
        host, peer, seq, ack = (client, server, x, y) if draw.random() < 0.5 else (server, client, y, x)
        put(host, peer, seq, ack, RST | ACK)
    elif end == "fin":
        put(server, client, y, x, FIN | ACK)
        time += line
        put(client, server, x, y + 1, FIN | ACK)
        time += 30
        put(server, client, y + 1, x + 1, ACK)
    return found


def capture(records, nanoseconds=False, order="<"):
    """The bytes of a capture of records (microsecond, frame)."""
    unit = 1000 if nanoseconds else 1
    magic = 0xA1B23C4D if nanoseconds else 0xA1B2C3D4
    file = [struct.pack(order + "I2H4I", magic, 2, 4, 0, 0, 262144, 1)]
    for time, frame in records:
        file += struct.pack(order + "4I", time // 10**6, time % 10**6 * unit, len(frame), len(frame)), frame
    return b"".join(file)


def in_order(records):
    """Records in order of time."""
    return sorted(records, key=lambda record: record[0])


def others(time):
    """An ARP request, a datagram of UDP, one of ICMP and one over IPv6, at this time and just after."""
    ethernet = bytes.fromhex("ffffffffffff02000a000001")
    ip = bytes.fromhex("4500001d00000000401166ce0a0000010a00000200350035000900007a")
    icmp = bytes.fromhex("4500001c00000000400166df0a0000010a0000020800f7ff00000000")
    arp = bytes.fromhex("0001080006040001") + bytes(20)
    frames = b"\x08\x06" + arp, b"\x08\0" + ip, b"\x08\0" + icmp, b"\x86\xdd\x60" + bytes(5) + b"\x3b\x40" + bytes(32)
    return [(time + 10 * number, ethernet + frame) for number, frame in enumerate(frames)]


def generated(seed, size):
    """A capture of about this number of bytes, and its connections' ends in order of their beginning."""
    draw = random.Random(seed)
    most, start, records, ends = draw.choice((1, 4, 40)), 1_700_000_000 * 10**6, [], []
    total = 0
    while total < size:
        number = len(ends)
        vlan = struct.pack(">2H", 0x8100, draw.choice((1, 7)) | draw.randrange(8) << 13) if seed % 3 == 0 and number % 2 else b""
        client = Host(bytes((10, 0, number >> 8, number & 255)), 20000 + number, vlan, draw.choice((0, 0x28, 0xB8)), 64, draw.getrandbits(16))
        server = Host(bytes((10, 9, 0, 1 + number % 3)), 80, vlan, 0, draw.choice((55, 128)), 0, draw.choice((229, 500, 0xFFFF)))
        sizes = [(draw.randrange(1, 5000), draw.randrange(1, 2 * size // most + 2)) for _ in range(draw.randrange(1, 5))]
        end = draw.choice(("fin", "fin", "fin", "reset", "open", "refused", "silent"))
        records += session(draw, client, server, start, sizes, end)
        total += sum(map(sum, sizes)) if end not in ("refused", "silent") else 0
        ends.append(end)
        start += draw.randrange(1, 30_000)
    records += others(records[0][0] + 5)
    return capture(in_order(records), seed % 2 == 1, "<>"[seed % 5 == 4]), ends
