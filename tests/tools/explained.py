#!/usr/bin/env python3
"""Compares what the library says of toxics with rehearsals in which each is switched off, and with the words that docs/use/rules.md has a toxic draw:

    tests/tools/explained.py COUNT SEED CAPTURE..

Each of the captures, and as many random ones as make COUNT, is rehearsed under random scenarios. Counted are the connections that meet each proxy, draw
each toxic, and have another line of the report or other records without it. Where connections have the same peers, it is only told whether some have.
Each fault is a line; the last line counts. It takes the package clients/python."""
import collections
import copy
import pathlib
import random
import struct
import sys

import toxicap

HEADER = bytes.fromhex("d4c3b2a1 0200 0400 00000000 00000000 ffff0000 01000000")
CLIENT, SERVERS = bytes([10, 0, 0, 1]), [(bytes([10, 0, 0, 2]), 80), (bytes([10, 0, 0, 3]), 6379)]
SYN, ACK, PSH, FIN, RST = 2, 16, 8, 1, 4
told = collections.Counter()


# ---- random captures and scenarios


def record(time, sender, receiver, flags, sequence, acknowledged, payload=b""):
    tcp = struct.pack(">HHIIBBHI", sender[1], receiver[1], sequence % 2**32, acknowledged % 2**32, 0x50, flags, 65535, 0) + payload
    frame = bytes(12) + b"\x08\0E\0" + struct.pack(">H", 20 + len(tcp)) + bytes.fromhex("0000400040060000") + sender[0] + receiver[0] + tcp
    return time, struct.pack("<IIII", *divmod(time, 10**6), len(frame), len(frame)) + frame


def session(rng, client, server):
    """The records of a session, each with its time; sometimes one of them lacks."""
    time, ends = rng.randrange(10**6), {True: (client, server), False: (server, client)}
    following = {True: rng.choice([1000, 2**32 - 3]), False: 5000}
    found = [record(time, client, server, SYN, following[True], 0)]
    following[True] += 1
    found.append(record(time + 100, server, client, SYN | ACK, following[False], following[True]))
    following[False] += 1
    for _ in range(rng.randrange(6)):
        time, side, payload = time + rng.choice([0, 300, 5000, 200000]), rng.random() < 0.4, bytes(rng.choice([1, 5, 100, 1460]))
        found.append(record(time + 200, *ends[side], PSH | ACK, following[side], following[not side], payload))
        following[side] += len(payload)
    for side in rng.sample([True, False], rng.randrange(3)):
        found.append(record(time + rng.randrange(300, 9000), *ends[side], rng.choice([FIN, FIN, FIN, RST]) | ACK, following[side], following[not side]))
    if rng.random() < 0.2:
        found.pop(rng.randrange(1, len(found)))
    return found


def any_capture(rng):
    ports = [40000 + rng.randrange(2 if rng.random() < 0.2 else 10**4) for _ in range(rng.randrange(1, 6))]
    records = [each for port in ports for each in session(rng, (CLIENT, port), rng.choice(SERVERS))]
    return HEADER + b"".join(each for _, each in sorted(records))


def any_toxic(number, rng):
    few, some = (lambda: rng.choice([0, 0, 1, 2, 5, 50, 300, 2000])), (lambda: rng.choice([1, 7, 100, 216, 1000, 1460, 3000, 20000, 10**6]))
    size, kind = some(), rng.choice("latency bandwidth slow_close timeout reset_peer slicer limit_data".split())
    attributes = {
        "latency": lambda: {"latency": few(), "jitter": few()}, "bandwidth": lambda: {"rate": rng.choice([1, 10, 1000, 10**6])},
        "slow_close": lambda: {"delay": few()}, "timeout": lambda: {"timeout": few()}, "reset_peer": lambda: {"timeout": few()},
        "slicer": lambda: {"average_size": size, "size_variation": rng.randrange(size) if rng.random() < 0.5 else 0, "delay": few()},
        "limit_data": lambda: {"bytes": rng.choice([0, some(), some()])},
    }[kind]()
    toxic = {"type": kind, "name": f"n{number}", "attributes": attributes}
    if rng.random() < 0.6:
        toxic["stream"] = rng.choice(["upstream", "downstream"])
    if rng.random() < 0.4:
        toxic["toxicity_ppm"] = rng.choice([0, 1, 300000, 500000, 900000, 10**6])
    elif rng.random() < 0.1:
        toxic["toxicity"] = rng.choice([0, 1])
    return toxic


def any_scenario(servers, rng):
    """Proxies before servers of the capture, and sometimes before others; some of the same server, some disabled."""
    return [
        {"name": f"p{number}", "upstream": rng.choice(servers * 8 + ["10.9.9.9:9"]), "enabled": rng.random() < 0.93,
         "toxics": [any_toxic(toxic, rng) for toxic in range(rng.choice([0, 1, 1, 2, 2, 3, 4]))]}
        for number in range(rng.choice([1, 1, 1, 1, 2, 3]))
    ]


# ---- what each toxic does, by rehearsals


def connections_of(output):
    """Of each connection its line and its records. Connections of the same peers and VLAN have each other's records."""
    records, capture, at = collections.defaultdict(list), output.capture, 24
    while at < len(capture):
        one = capture[at : at + 16 + int.from_bytes(capture[at + 8 : at + 12], "little")]
        ip = 34 if one[28:30] == b"\x81\x00" else 30
        records[one[28:ip], frozenset([one[ip + 12 : ip + 16] + one[ip + 20 : ip + 22], one[ip + 16 : ip + 20] + one[ip + 22 : ip + 24]])].append(one)
        at += len(one)
    found = []
    for line in output.report.decode().splitlines()[2:]:
        words = line.split()
        tag = b"\x81\x00" + int(words[5]).to_bytes(2, "big") + b"\x08\x00" if words[4] == "vlan" else b"\x08\x00"
        ends = (end.rsplit(":", 1) for end in (words[1], words[3]))
        found.append((line, records[tag, frozenset(bytes(map(int, address.split("."))) + int(port).to_bytes(2, "big") for address, port in ends)]))
    return found


def word_of(seed, scenario, connection, direction, toxic):
    """Word 0 of a toxic, by docs/use/rules.md."""
    increment, factor = 2 * (scenario * 2**30 + connection * 16 + direction * 8 + toxic) + 1, 6364136223846793005
    state = ((seed + increment) * factor + increment) % 2**64
    folded, turns = ((state >> 18 ^ state) >> 27) % 2**32, state >> 59
    return (folded >> turns | folded << (32 - turns)) % 2**32


def is_upstream(toxic):
    return toxic.get("stream") == "upstream"


def faults_of(capture, rng):
    """What is at fault with what the library says under random scenarios."""
    [recorded] = toxicap.rehearse(capture, [[]])
    servers = sorted({one.server for one in recorded.parsed.connections}) or ["10.9.9.9:9"]
    files, seed = [any_scenario(servers, rng) for _ in range(rng.choice([1, 1, 1, 2]))], rng.randrange(2**64)
    outputs, found = toxicap.rehearse(capture, files, seed=seed), toxicap.effects(capture, files, seed=seed)
    for s, (file, output) in enumerate(zip(files, outputs)):
        connections, own = output.parsed.connections, connections_of(output)
        are_apart = len({(one.client, one.server, one.vlan) for one in connections}) == len(connections)
        for p, proxy in enumerate(file):
            met = [one.connection for one in connections if one.proxy == p]
            if found[s][p].met != len(met):
                yield f"scenario {s} proxy {p}: {found[s][p].met} connections, not {len(met)}"
            for t, toxic in enumerate(proxy["toxics"]):
                place, ppm = sum(is_upstream(other) == is_upstream(toxic) for other in proxy["toxics"][:t]), toxic.get("toxicity_ppm", toxic.get("toxicity", 1) * 10**6)
                drawn = sum(word_of(seed, s, one, 1 - is_upstream(toxic), place) % 10**6 < ppm for one in met)
                without = copy.deepcopy(files)
                without[s][p]["toxics"][t]["toxicity_ppm"] = 0
                changed = sum(one != other for one, other in zip(own, connections_of(toxicap.rehearse(capture, without, seed=seed)[s])))
                said = found[s][p].toxics[t]
                if said.drawn != drawn or (said.changed != changed if are_apart else (said.changed > 0) != (changed > 0)):
                    yield f"scenario {s} proxy {p} toxic {t}: {said}, not {drawn} and {changed}: {toxic}"
                told.update({"toxics": 1, "drawn": drawn, "with an effect": said.changed, "of peers apart": are_apart})


def main(count, seed, *paths):
    captures, faulty = [pathlib.Path(path).read_bytes() for path in paths], 0
    for number in range(int(count)):
        rng = random.Random(f"{seed} {number}")
        capture = captures[number] if number < len(captures) else any_capture(rng)
        for fault in faults_of(capture, rng):
            faulty += 1
            print(f"{number}: {fault}")
    print(f"{count} captures, {faulty} faults;", ", ".join(f"{much} {what}" for what, much in sorted(told.items())))


if __name__ == "__main__":
    main(*sys.argv[1:])
