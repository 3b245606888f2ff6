#!/usr/bin/env python3
"""How frames look that tools/for_sensors writes by a recording, against values that are told here, and how much memory it takes:

    looks.py PROGRAM FOLDER

It prints what differs."""
import json
import os
import pathlib
import random
import struct
import subprocess
import sys

TOP = pathlib.Path(__file__).resolve().parents[3]
sys.dont_write_bytecode = True
sys.path.insert(0, str(TOP / "clients/python"))
from toxicap import events
from made import ACK, FIN, MSS, PSH, RST, SACK, SCALE, STAMPS, SYN, Host, capture, in_order, others, session
from seen import seen

TOOL = TOP / "tools/for_sensors"
START = 1_700_000_000 * 10**6
CLIENT, SERVER = (bytes((10, 0, 0, 1)), 20000), (bytes((10, 9, 0, 1)), 80)
NOPS = b"\1" * 10


def told(what, found, expected):
    """Prints what differs."""
    if found != expected: print(f"  {what}: {found}, expected {expected}")


def made(program, folder, records, toxics, *words):
    """What the tool makes of records under toxics of the server."""
    folder.mkdir(parents=True, exist_ok=True)
    recording, scenario = folder / "recording.pcap", folder / "scenario.json"
    recording.write_bytes(capture(records))
    scenario.write_text(json.dumps([{"name": "server", "upstream": "10.9.0.1:80", "toxics": toxics}]))
    subprocess.run([program, "--capture", recording, "--scenario", scenario, "--out", folder], check=True)
    return seen(subprocess.run([TOOL, "--recording", recording, *words, folder / "0000.pcap"], check=True, stdout=subprocess.PIPE).stdout)


def exchange(client, server, options=(MSS + SACK + STAMPS + SCALE,) * 2, end=RST):
    """A handshake of 20 and 70 us, a request after 1 ms, an answer, and the server's end after 3 ms."""
    found = []

    def put(time, host, seq, ack, flags, payload=b"", options=b""):
        found.append((START + time, host.frame(server if host is client else client, seq, ack, flags, payload, options)))

    put(0, client, 1000, 0, SYN, options=options[0])
    put(20, server, 5000, 1001, SYN | ACK, options=options[1])
    put(90, client, 1001, 5001, ACK)
    client.window = 300
    put(1000, client, 1001, 5001, PSH | ACK, b"request")
    put(2000, server, 5001, 1008, PSH | ACK, b"answer" * 500)
    put(3000, server, 8001, 1008, end | ACK)
    return found


def looks(program, folder):
    """TTL, DSCP, tags, identification, windows, options and times of the handshake."""
    client = Host(*CLIENT, struct.pack(">2H", 0x8100, 0x6007), 0xB9, 63, 65534, 1000)
    server = Host(*SERVER, struct.pack(">2H", 0x8100, 0x2007), 0x28, 120, 0, 0)
    (connection,), _ = made(program, folder, exchange(client, server), [])
    told("the handshake", [time - START * 1000 for time in connection.handshake], [0, 20_000, 90_000])
    for side, expected in enumerate(((client.tag, 0xB8, 63), (server.tag, 0x28, 120))):
        told(f"tag, DSCP and TTL of side {side}", {(each.tag, each.service, each.hops) for each in connection.segments[side]}, {expected})
        told(f"options of side {side}", connection.syns[side].options, MSS + SACK + NOPS + SCALE)
    told("identification of the client", [each.name for each in connection.segments[0]][:4], [65534, 65535, 1, 2])
    told("identification of the server", {each.name for each in connection.segments[1]}, {0})
    told("windows of the client", [each.window for each in connection.segments[0]], [2920, 1000, 300, 300, 300])
    told("windows of the server", {each.window for each in connection.segments[1][1:]}, {23})
    told("resets", [sum(each.flags & RST > 0 for each in side) for side in connection.segments], [0, 1])


def options(program, folder):
    """Options of SYNs as they are recorded, and as they are written."""
    for number, (recorded, expected) in enumerate([
            (b"\2\4\2\x18" + SCALE, MSS + SCALE), (b"\2\4\x22\xc4" + SCALE, b"\2\4\x22\xc4" + SCALE), (SCALE, MSS + SCALE),
            (b"\x1e\x0c" + bytes(10) + MSS + SCALE, b"\1" * 12 + MSS + SCALE),
            (MSS + SCALE + b"\x13\x12" + bytes(16) + b"\1\1", MSS + SCALE + b"\1" * 20)]):
        (connection,), _ = made(program, folder / str(number), exchange(Host(*CLIENT), Host(*SERVER), (recorded, recorded), FIN), [])
        told(f"options {number}", connection.syns[0].options, expected)


def ends(program, folder):
    """A reset of a toxic is of both sides, and one that was recorded its sender's; what was refused and what nobody answers; other frames."""
    (connection,), _ = made(program, folder / "toxic", exchange(Host(*CLIENT), Host(*SERVER)), [{"type": "reset_peer", "attributes": {"timeout": 2}}])
    told("a toxic's resets", [sum(each.flags & RST > 0 for each in side) for side in connection.segments], [1, 1])
    for end, expected in (("refused", [1, 1]), ("silent", [2, 0])):
        records = session(random.Random(1), Host(*CLIENT), Host(*SERVER), START, [(5, 5)], end)
        (connection,), _ = made(program, folder / end, records, [])
        told(end, ([len(side) for side in connection.segments], connection.refused), (expected, end == "refused"))
    frames = others(START + 10)
    twice = frames[0][1][:12] + b"\x88\xa8\0\7\x08\0" + bytes(40)
    records = in_order(frames + [(START + 5, twice)] + exchange(Host(*CLIENT), Host(*SERVER)))
    told("other frames", made(program, folder / "others", records, [], "--other-frames")[1], [(time * 1000, frame) for time, frame in frames])
    told("no other frames", made(program, folder / "others", records, [])[1], [])


def vantages(program, folder):
    """A request that comes 10 ms late, and an answer that comes 20 ms late: what each side sees."""
    toxics = [{"type": "latency", "stream": stream, "attributes": {"latency": late}} for stream, late in (("upstream", 10), ("downstream", 20))]
    for vantage, expected in (("both", [11, 22]), ("client", [1, 22]), ("server", [11, 2])):
        (connection,), _ = made(program, folder / vantage, exchange(Host(*CLIENT), Host(*SERVER), end=FIN), toxics, "--vantage", vantage)
        told(f"times at {vantage}", [chunks[0][0] // 10**6 for chunks in connection.chunks], expected)


def copies(program, folder):
    """What a client sends in segments that come late, over one another and at times that fall back: the first copy of a byte counts."""
    client, server = Host(*CLIENT), Host(*SERVER)
    records = exchange(client, server)[:3]
    for time, at, text in ((3000, 4, b"4567"), (2000, 2, b"abcd"), (4000, 5, b"---8"), (3500, 0, b"ABC"), (5000, 3, b"------9")):
        records.append((START + time, client.frame(server, 1001 + at, 5001, PSH | ACK, text)))
    (connection,), _ = made(program, folder, records, [], "--vantage", "client")
    told("copies", connection.chunks[0], [(4_000_000, b"ABab45678"), (5_000_000, b"9")])
    (expected,) = events((folder / "0000.pcap").read_bytes())
    told("copies in the output", [(time, what) for time, way, what in expected], connection.chunks[0])


def memory(program, folder):
    """40 sessions of 1 MB, one after the other: less memory than 40 MB of them."""
    folder.mkdir(parents=True)
    (folder / "one.pcap").write_bytes(capture(session(random.Random(1), Host(*CLIENT), Host(*SERVER), START, [(10, 10**6)], "fin")))
    subprocess.run([program, "--capture", folder / "one.pcap", "--out", folder], check=True)
    one = (folder / "0000.pcap").read_bytes()
    with open(folder / "all.pcap", "wb") as file:
        file.write(one[:24])
        for number in range(40):
            at = 24
            while at < len(one):
                seconds, size = struct.unpack_from("<I4xI", one, at)
                file.write(struct.pack("<I", seconds + 100 * number) + one[at + 4:at + 16 + size])
                at += 16 + size
    with open(os.devnull, "wb") as nothing:
        ended = os.wait4(subprocess.Popen([TOOL, folder / "all.pcap"], stdout=nothing).pid, 0)
    told("status", ended[1], 0)
    if ended[2].ru_maxrss > 30_000: print(f"  it takes {ended[2].ru_maxrss} KB")


def overlaps(program, folder):
    """800 segments of 40 KB over 20,000 pieces, all behind a gap: time for each piece and segment, not for each pair of them."""
    client, server = Host(*CLIENT), Host(*SERVER)
    records = exchange(client, server)[:3]
    records += [(START + 100, server.frame(client, 5002 + 2 * at, 1001, PSH | ACK, b"b")) for at in range(20_000)]
    records += [(START + 200, server.frame(client, 5002, 1001, PSH | ACK, b"a" * 40_000))] * 800
    records.append((START + 300, server.frame(client, 5001, 1001, PSH | ACK, b"c")))
    folder.mkdir()
    (folder / "recording.pcap").write_bytes(capture(records))
    subprocess.run([program, "--capture", folder / "recording.pcap", "--out", folder], check=True)
    with open(folder / "seen.pcap", "wb") as file:
        words = [TOOL, "--recording", folder / "recording.pcap", "--vantage", "server", folder / "0000.pcap"]
        ended = os.wait4(subprocess.Popen(words, stdout=file).pid, 0)
    told("status", ended[1], 0)
    told("bytes", seen((folder / "seen.pcap").read_bytes())[0][0].chunks[1], [(300_000, b"c" + b"ba" * 20_000)])
    if ended[2].ru_utime > 6: print(f"  it takes {ended[2].ru_utime} seconds")


for part in (looks, options, ends, vantages, copies, memory, overlaps): part(sys.argv[1], pathlib.Path(sys.argv[2]) / part.__name__)
