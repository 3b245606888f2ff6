#!/usr/bin/env python3
"""Compares what tools/redact writes of random captures with the program: no secret is in a stream that it delivers of the redacted capture, under
the scenario [] and under one that cuts streams, nor in a payload; both captures have the same report, and nothing but payloads and checksums differs.

    tests/tools/redacted.py PROGRAM REDACT COUNT SEED

A capture is a session whose segments are repeated, with other bytes too, put in another order, and joined by further SYNs, SYN ACKs and resets. Some
are in one file, each with a client of its own. Each fault is a line; the last line counts captures, those that deliver a secret before, and leaks."""
import json
import pathlib
import random
import re
import struct
import subprocess
import sys
import tempfile

PROGRAM, REDACT, COUNT, SEED = sys.argv[1], sys.argv[2], int(sys.argv[3]), sys.argv[4]
TOGETHER = 100  # captures of a file
WORDS = ['--text', 'secret', '--regex', 'k=[abc]{3}', '--text', 'abcab']
SECRETS = [re.compile(b'secret'), re.compile(b'k=[abc]{3}'), re.compile(b'abcab')]
FIN, SYN, RST, PSH, ACK = 1, 2, 4, 8, 16
SERVER = bytes([10, 0, 0, 2]), 80


def any_text(rng):
    """Bytes with secrets among them, and parts of some."""
    parts = [b'secret', b'abcab', b'k=abc', b'k=cb', b'sec', b'ret', b'ab', b'c', b'x', b'.', b'k', b'=']
    return b''.join(rng.choice(parts) for _ in range(rng.randrange(12)))


def any_number(rng):
    return rng.choice([rng.randrange(1 << 32), (1 << 32) - rng.randrange(40), rng.randrange(40)])


def frame(rng, tag, client, is_up, flags, sequence, acknowledged, payload):
    """A frame of a session, a few of them cut, with a total length of 0, or padded."""
    (source, port), (target, target_port) = (client, SERVER) if is_up else (SERVER, client)
    kind = rng.random()
    length = 0 if kind < 0.01 else 40 + len(payload)
    tcp = struct.pack('>HHIIBBHHH', port, target_port, sequence % (1 << 32), acknowledged % (1 << 32), 0x50, flags, 65535, 0, 0)
    whole = tag + b'\x08\x00' + struct.pack('>BBHHHBBH', 0x45, 0, length, 0, 0x4000, 64, 6, 0) + source + target + tcp + payload
    if 0.01 < kind < 0.03 and payload: whole = whole[:-1]
    return b'\x02' * 12 + whole + rng.choice([bytes(6), b'secret', b'ret', b'abc=c']) * (kind > 0.95)


def pieces(rng, text):
    """A text in segments: (place, bytes)."""
    place = 0
    while place < len(text):
        size = rng.randrange(1, 9)
        yield place, text[place:place + size]
        place += size


def any_session(rng, client):
    """The frames of a session, in the order in which they are recorded."""
    tag = rng.choice([b'', b'', struct.pack('>HH', 0x8100, rng.choice([0, 7, 0x2007]))])
    bases = {True: any_number(rng), False: any_number(rng)}
    found = [(True, SYN, bases[True], b''), (False, SYN | ACK, bases[False], b''), (True, ACK, bases[True] + 1, b'')]
    if rng.random() < 0.1: found[0] = True, SYN, bases[True] - 3, b'abc'
    for is_up, base in bases.items():
        texts = [any_text(rng) for _ in range(rng.choice([1, 1, 2, 3]))]
        sent = [(is_up, PSH | ACK, base + 1 + place, data) for place, data in pieces(rng, texts[0])]
        for text in texts: sent += [(is_up, ACK, base + 1 + place, data) for place, data in pieces(rng, text) if rng.random() < 0.3]
        if rng.random() < 0.5: sent.append((is_up, FIN | ACK, base + 1 + len(texts[0]), b''))
        found += sent
    near = lambda is_up: rng.choice([any_number(rng), bases[is_up] + rng.randrange(-9, 9)])
    for chance, is_up, flags, data in [(0.2, False, SYN | ACK, b''), (0.2, True, SYN, b''), (0.1, False, SYN, b''), (0.1, True, SYN | ACK, b''),
                                       (0.05, True, RST, b''), (0.05, False, RST | ACK, b''), (0.1, True, SYN, any_text(rng))]:
        if rng.random() < chance: found.insert(rng.randrange(1, len(found) + 1), (is_up, flags, near(is_up), data))
    order = rng.random()
    if order < 0.3: rng.shuffle(found)
    elif order < 0.6: found[1:] = rng.sample(found[1:], len(found) - 1)
    elif order < 0.9:
        for _ in range(4):
            place = rng.randrange(len(found))
            found.insert(rng.randrange(len(found)), found.pop(place))
    return [frame(rng, tag, client, is_up, flags, sequence, 0, data) for is_up, flags, sequence, data in found]


def records(data):
    """The frames of a capture."""
    at = 24
    while at < len(data):
        held = struct.unpack_from('<I', data, at + 8)[0]
        yield data[at + 16:at + 16 + held]
        at += 16 + held


def parts(whole):
    """The peers, flags and payload of a frame: with a total length of 0 all that is there."""
    ip = 18 if whole[12:14] == b'\x81\x00' else 14
    length = struct.unpack_from('>H', whole, ip + 2)[0] or len(whole)
    sender, receiver = whole[ip + 12:ip + 16] + whole[ip + 20:ip + 22], whole[ip + 16:ip + 20] + whole[ip + 22:ip + 24]
    return sender, receiver, whole[ip + 33], whole[ip + 40:ip + length]


def delivered(data):
    """The streams of an output capture, each with the address of its client. Where connections of the same peers follow one another, each is done before
    the next begins."""
    streams, clients = [], {}
    for whole in records(data):
        sender, receiver, flags, payload = parts(whole)
        pair = frozenset([sender, receiver])
        if flags == SYN:
            clients[pair] = {sender: bytearray(), receiver: bytearray()}
            streams += [(client_of(pair), stream) for stream in clients[pair].values()]
        clients[pair][sender] += payload
    return streams


def client_of(peers):
    return next(peer[:4] for peer in peers if peer[:4] != SERVER[0])


def rehearse(capture, folder, work):
    """Rehearses a capture into a new folder: its report, and the streams of both scenarios."""
    out = work / folder
    out.mkdir()
    words = [word for name in ('untouched', 'cut') for word in ('--scenario', str(work / f'{name}.json'))]
    subprocess.run([PROGRAM, '--capture', str(capture), '--out', str(out), *words], check=True)
    return (out / '0000.txt').read_text(), [stream for number in '01' for stream in delivered((out / f'000{number}.pcap').read_bytes())]


def has_secret(data):
    return any(match.group().strip(b'x') for secret in SECRETS for match in secret.finditer(data))


def without_payload(whole):
    """A frame without payload and TCP checksum, and with zeros after the total length."""
    ip = 18 if whole[12:14] == b'\x81\x00' else 14
    return whole[:ip + 36] + whole[ip + 38:ip + 40] + bytes(len(whole) - ip - 40 - len(parts(whole)[3]))


def file_faults(number, work):
    """What is at fault with a file of captures, and the clients that have a secret delivered before."""
    rng = random.Random(f'{SEED} {number}')
    (work / 'cut.json').write_text(json.dumps([{'name': 'cut', 'upstream': '10.0.0.2:80', 'toxics': [
        {'type': 'limit_data', 'stream': stream, 'attributes': {'bytes': rng.randrange(1, 20)}} for stream in ('upstream', 'downstream')]}]))
    frames = []
    for client in range(min(TOGETHER, COUNT - number * TOGETHER)): frames += any_session(rng, (bytes([10, 1, 0, client]), rng.choice([80, 40000])))
    data = bytes.fromhex('d4c3b2a1 0200 0400 00000000 00000000 ffff0000 01000000')
    data += b''.join(struct.pack('<IIII', 1, time, len(whole), len(whole)) + whole for time, whole in enumerate(frames))
    (work / 'capture').write_bytes(data)
    ended = subprocess.run([REDACT, *WORDS], input=data, capture_output=True)
    (work / 'redacted').write_bytes(ended.stdout)
    if ended.returncode not in (0, 1): return [f'status {ended.returncode}: {ended.stderr.decode()}'], set(), set()
    (before, streams), (after, others) = rehearse(work / 'capture', 'before', work), rehearse(work / 'redacted', 'after', work)
    faults, redacted = [], list(records(ended.stdout))
    if before != after: faults.append('the reports differ')
    if list(map(without_payload, frames)) != list(map(without_payload, redacted)): faults.append('more than payloads differ')
    leaks = {client.hex(): bytes(stream) for client, stream in others if has_secret(stream)}
    for whole in redacted:
        text = whole[whole.index(b'\x08\x00', 12) + 42:]
        if has_secret(text): leaks[client_of(parts(whole)[:2]).hex()] = text
    return faults + [f'{client}: {text}' for client, text in leaks.items()], {client for client, stream in streams if has_secret(stream)}, set(leaks)


def main():
    faulty, delivering, leaking = 0, 0, 0
    for number in range((COUNT + TOGETHER - 1) // TOGETHER):
        with tempfile.TemporaryDirectory() as folder:
            work = pathlib.Path(folder)
            (work / 'untouched.json').write_text('[]')
            faults, clients, leaks = file_faults(number, work)
        faulty += len(faults)
        delivering += len(clients)
        leaking += len(leaks)
        for fault in faults: print(f'file {number}: {fault}')
    print(f'{COUNT} captures, {delivering} deliver a secret, {leaking} leak one, {faulty} faults')


main()
