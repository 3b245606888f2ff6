#!/usr/bin/env python3
"""Compares what toxicap_lines gives of random captures under random scenarios with what tests/rows/expected.py makes of them, apart from the program:
connections, bytes, chunks and ends; with the outputs of the same inputs, as `delivered` reads them; and refusals with those of toxicap_reports.

    tests/clients/lines.py COUNT SEED

Ports are used again, openings come twice, and segments twice, late, in another order or not at all; stamps fall back. TOXICAP_LIBRARY names the library.
Each fault is a line; the last line counts."""
import collections, json, pathlib, random, struct, sys

sys.path[:0] = [str(pathlib.Path(__file__).resolve().parents[1] / 'rows')]
import expected
import toxicap
from toxicap._in_process import inputs_of
from toxicap._lines import laid_lines

SERVERS = [(bytes((10, 0, 1, 2)), 80), (bytes((10, 0, 1, 2)), 81), (bytes((10, 0, 1, 3)), 80)]
told = collections.Counter()


def session(rng, at):
    """The segments of a connection, each with its time in ticks: opened at `at`, between few peers."""
    vlan, bases = rng.choice([None, None, 7]), [rng.choice([0, 2**32 - 30, rng.randrange(2**32)]) for _ in 'cs']
    conn = {'first': dict(mac_from=b'client', mac_to=b'server', frm=(bytes((10, 0, 2, 1)), 40000 + rng.randrange(2)), to=rng.choice(SERVERS), vlan=vlan)}
    sent, found = [0, 0], []

    def send(side, flags, place, data=b''):
        nonlocal at
        at += rng.choice([0, 0, 1, 1000, 20000, 300000])
        if rng.random() < 0.96: found.append((at, expected.frame(conn, side == 0, bases[side] + place, 0, flags, data)))

    send(0, expected.SYN, 0)
    if rng.random() < 0.1: send(0, expected.SYN, 0)
    send(1, rng.choice([expected.SYN | expected.ACK] * 9 + [expected.RST | expected.ACK]), 0)
    send(0, expected.ACK, 1)
    for _ in range(rng.randrange(10)):
        side, data = rng.randrange(2), rng.randbytes(rng.choice([0, 1, 2, 9, 40, 100] * 5 + [1460]))
        place = 1 + sent[side] + rng.choice([0] * 12 + [1, -1, -5])
        send(side, expected.ACK | expected.PSH, max(1, place), data)
        sent[side] = max(sent[side], place - 1 + len(data))
        if rng.random() < 0.1: send(side, expected.ACK, max(1, place), rng.choice([data, rng.randbytes(len(data) + 3)]))
    for side in rng.sample([0, 1], 2):
        kind = rng.choice([expected.FIN, expected.FIN, expected.RST, 0])
        if kind: send(side, kind | expected.ACK, 1 + sent[side], rng.randbytes(rng.choice([0, 0, 4])))
    return found


def capture_of(rng):
    second = rng.choice([10**6, 10**9])
    start, found = rng.choice([0, 1700000000 * second, (2**32 - 1) * second]), []
    for _ in range(rng.choice([0, 1, 2, 3, 5])): found += session(rng, start + rng.randrange(2000000))
    found.sort(key=lambda it: it[0])
    for place in range(len(found) - 1):
        if rng.random() < 0.05: found[place:place + 2] = found[place + 1], found[place]
    order, magic, out = rng.choice('<>'), {10**6: 0xa1b2c3d4, 10**9: 0xa1b23c4d}[second], b''
    for at, frame in found:
        seconds = min(at // second, 2**32 - 1) # what is over stands in the ticks, up to the horizon and past it
        out += struct.pack(order + 'IIII', seconds, at - seconds * second, len(frame), len(frame)) + frame
    return struct.pack(order + 'IHHIIII', magic, 2, 4, 0, 0, 65535, 1) + out


def toxic_of(rng, number):
    few, size = lambda: rng.choice([0, 0, 1, 5, 50, 2000]), rng.choice([1, 7, 40, 1000, 3000])
    kind, attributes = rng.choice([
        ('latency', {'latency': few(), 'jitter': few()}), ('bandwidth', {'rate': rng.choice([1, 10, 1000])}), ('slow_close', {'delay': few()}),
        ('timeout', {'timeout': few()}), ('reset_peer', {'timeout': few()}), ('limit_data', {'bytes': rng.choice([0, size])}),
        ('slicer', {'average_size': size, 'size_variation': rng.randrange(size), 'delay': few()})])
    toxic = {'name': f'n{number}', 'type': kind, 'stream': rng.choice(['upstream', 'downstream']), 'attributes': attributes}
    if rng.random() < 0.4: toxic['toxicity_ppm'] = rng.choice([0, 300000, 900000])
    return toxic


def scenario_of(rng):
    return [{'name': f'p{number}', 'upstream': rng.choice(['web:80', '10.0.1.2:81', '10.0.1.3:80', '10.9.9.9:9']), 'enabled': rng.random() < 0.9,
             'toxics': [toxic_of(rng, toxic) for toxic in range(rng.choice([0, 1, 1, 2, 3]))]} for number in range(rng.choice([0, 1, 2, 3]))]


def as_told(laid, count):
    """What was laid, as expected.py prints it."""
    data, chunks, connections = laid
    at, number, each = 0, 0, len(connections) // max(1, count)
    for place, (opened, *ways, client, server, client_port, server_port, vlan) in enumerate(connections):
        yield '%d %d %d %08x:%d > %08x:%d vlan %d' % (*divmod(place, each), opened, client, client_port, server, server_port, vlan)
        for size, held, time, end in (ways[:4], ways[4:]):
            words, start = ['%d %d %d' % (size, end, time)], 0
            for stop, came in chunks[number:number + held]:
                words.append('%d:%s' % (came, data[at + start:at + stop].hex()))
                start = stop
            at, number = at + size, number + held
            told['chunks'] += held
            told['end %d' % end] += 1
            yield ' '.join(words)
    if (at, number) != (len(data), len(chunks)): yield 'the directions do not add up'


def refusal_of(call, *inputs):
    try: call(*inputs)
    except toxicap.Refusal as refusal: return str(refusal)
    return None


def fault_in(capture, scenarios, hosts, seed):
    texts = [json.dumps(scenario).encode() for scenario in scenarios]
    if refusal_of(toxicap.reports, capture, texts, hosts, seed) is not None: return 'a refusal'
    found = list(as_told(laid_lines(inputs_of(capture, texts, hosts, seed)), len(texts)))
    wanted = list(expected.flat_lines(capture, scenarios, seed, hosts))
    if found != wanted: return 'other lines: ' + str(next((pair for pair in zip(found, wanted) if pair[0] != pair[1]), (len(found), len(wanted))))
    read = [toxicap.delivered(output.capture) for output in toxicap.rehearse(capture, texts, hosts, seed)]
    # of a connection that was opened at the horizon no segment is written
    if all(at < expected.HORIZON for at, _ in expected.read(capture)[0]) and read != toxicap.lines(capture, texts, hosts, seed): return 'other lines than in outputs'
    return None


def main():
    count, rng = int(sys.argv[1]), random.Random(int(sys.argv[2]))
    faults = 0
    for turn in range(count):
        capture, scenarios, seed = capture_of(rng), [scenario_of(rng) for _ in range(rng.choice([1, 1, 2, 3]))], rng.choice([0, 7, 2**64 - 1])
        hosts = {'web': '10.0.1.2'}
        fault = fault_in(capture, scenarios, hosts, seed)
        broken = [capture[:20], b'abc', b'\0' + capture[1:], capture][turn % 4], [b'[]', b'[', b'{}', b'[{"upstream": "x:1"}]'][turn // 4 % 4]
        one, other = (refusal_of(call, broken[0], [b'[]', broken[1]]) for call in (toxicap.reports, toxicap.lines))
        if one != other: fault = f'refused as {other}, and reports as {one}'
        told['refusals'] += one is not None
        if fault:
            faults += 1
            print(f'  input {turn}: {fault}')
    print(f'{count} inputs, {faults} faults, ' + ', '.join(f'{value} {name}' for name, value in sorted(told.items())))
    sys.exit(faults > 0)


main()
