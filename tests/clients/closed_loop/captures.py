"""Captures of sessions, written packet by packet; and captures and scenarios by chance."""
import json
import struct

FIN, SYN, RST, PSH, ACK = 1, 2, 4, 8, 16
SERVER = (bytes([10, 0, 0, 2]), 80)


class Talk:
    """A connection: what each side sends next has the numbers that follow. Side 0 is the client's."""

    def __init__(self, port=40000, seqs=(1000, 9000), vlan=None):
        self.ends, self.seqs, self.last = ((bytes([10, 0, 0, 1]), port), SERVER), list(seqs), [b"", b""]
        self.tag = b"" if vlan is None else struct.pack(">HH", 0x8100, vlan)

    def send(self, side, flags, data=b"", number=0):
        """A frame; its IPv4 identification is the number."""
        (sender, port), (receiver, other) = self.ends[side], self.ends[1 - side]
        seqs = self.seqs[side] % 2**32, self.seqs[1 - side] % 2**32 if flags & ACK else 0
        tcp = struct.pack(">HHIIBBHHH", port, other, *seqs, 0x50, flags, 65535, 0, 0) + data
        ip = struct.pack(">BBHHHBBH4s4s", 0x45, 0, 20 + len(tcp), number, 0, 64, 6, 0, sender, receiver)
        self.seqs[side] += len(data) + (flags & (FIN | SYN) != 0)
        self.last[side] = bytes(12) + self.tag + b"\x08\x00" + ip + tcp
        return self.last[side]


def pcap(records, order="<", second=10**6):
    """A capture of records, each (ticks, frame)."""
    head = struct.pack(order + "IHHIIII", 0xA1B2C3D4 if second == 10**6 else 0xA1B23C4D, 2, 4, 0, 0, 65535, 1)
    return head + b"".join(struct.pack(order + "4I", *divmod(ticks, second), len(frame), len(frame)) + frame for ticks, frame in records)


def scenario(toxics, ppm=1000000, **members):
    """The text of a scenario: one proxy, before the server, with these toxics, each (type, stream, attributes)."""
    fields = "type", "stream", "attributes"
    named = [dict(zip(fields, toxic), name=f"t{number}", toxicity_ppm=ppm) for number, toxic in enumerate(toxics)]
    return json.dumps([{"name": "p", "upstream": "10.0.0.2:80", "toxics": named, **members}]).encode()


def chance_session(chance, talk, ticks):
    """The records of a session: requests and answers, repeated packets, pauses of none, a few and many ticks, and one of several ends."""
    records = []

    def put(side, flags, data=b""):
        nonlocal ticks
        frame = talk.send(side, flags, data)
        records.append((ticks, frame))
        if chance.random() < 0.08:
            ticks += chance.choice([0, 1, 200000])
            records.append((ticks, frame))
        ticks += chance.choice([0, 0, 1, 5, 100, 1500, 40000])

    put(0, SYN)
    put(1, SYN | ACK)
    put(0, ACK)
    side = chance.randrange(2)
    for _ in range(chance.randrange(12)):
        side = 1 - side if chance.random() < 0.9 else side
        for _ in range(chance.choice([1, 1, 1, 2, 4])):
            put(side, PSH | ACK, bytes(chance.choices(b"abc", k=chance.choice([1, 10, 60, 300, 1460]))))
        if chance.random() < 0.5:
            put(1 - side, ACK)
    for side, flags, data in chance.choice([
        [], [(0, FIN | ACK, b""), (1, FIN | ACK, b"")], [(1, FIN | ACK, b""), (0, FIN | ACK, b"")],
        [(0, FIN | ACK, b""), (1, PSH | ACK, b"late"), (1, FIN | ACK, b"")], [(0, RST, b""), (1, PSH | ACK, b"after")], [(1, RST | ACK, b"")],
    ]):  # fmt: skip
        put(side, flags, data)
    return records


def chance_capture(chance):
    """A capture of some sessions, also on ports used again, with tags, numbers that wrap, records that are no segments, and stamps that fall back."""
    second, records = chance.choice([10**6, 10**9]), []
    for number in range(chance.randrange(1, 5)):
        seqs = [chance.choice([chance.randrange(2**32), 2**32 - chance.randrange(300)]) for _ in range(2)]
        talk = Talk(chance.choice([40000, 40001, 40002 + number]), seqs, chance.choice([None, None, 5, 0x2005]))
        records += chance_session(chance, talk, 1700000000 * second + number * chance.choice([0, 10, 100000, 3000000]))
    records.sort(key=lambda record: record[0])
    for _ in range(chance.choice([0, 0, 3])):
        place = chance.randrange(len(records))
        ticks, frame = records[place]
        torn = bytearray(frame)
        torn[chance.randrange(len(torn))] ^= 1 << chance.randrange(8)
        records[place : place + 1] = chance.choice([[], [(ticks, bytes(torn))], [(ticks - 100, frame)], [(ticks, b"no frame"), (ticks, frame)]])
    return pcap(records, chance.choice("<>"), second) + chance.choice([b"", b"rest"])


def chance_toxics(chance, kinds):
    """Some toxics of these kinds."""
    attributes = {
        "latency": {"latency": chance.choice([0, 1, 50, 300]), "jitter": chance.choice([0, 20])},
        "bandwidth": {"rate": chance.choice([1, 10, 100])},
        "slicer": {"average_size": chance.choice([2, 50, 500]), "size_variation": chance.choice([0, 1]), "delay": chance.choice([0, 1000, 50000])},
        "slow_close": {"delay": chance.choice([0, 100])},
        "limit_data": {"bytes": chance.choice([0, 5, 300, 1000])},
        "timeout": {"timeout": chance.choice([0, 10, 500])},
        "reset_peer": {"timeout": chance.choice([0, 10, 500])},
    }
    return [(kind, chance.choice(["upstream", "downstream"]), attributes[kind]) for kind in chance.choices(kinds, k=chance.randrange(1, 4))]
