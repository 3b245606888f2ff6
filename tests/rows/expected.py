#!/usr/bin/env python3
"""The expected report and captures of a row, worked out apart from the program: docs/use/rules.md said again, byte by byte and without care
for time. It was written from those rules alone and shares nothing with the program's text.

    tests/rows/expected.py FOLDER   writes FOLDER/report and FOLDER/0000.hex, 0001.hex ..; of those above 4,000 bytes their sums, as
                                    report.sha256 and 0000.sha256
    tests/rows/expected.py --stored FOLDER CAPTURE SCENARIO..
                                    writes FOLDER/0000.pcap, 0000.txt and on, what --out has to store of a capture under scenario files
    tests/rows/expected.py --lines --capture FILE ARGUMENT..
                                    prints the delivered lines of a capture, or of a dump of one, under the program's arguments: of each scenario and
                                    connection both numbers, the opening, peers and VLAN; then of each direction how many bytes it has, its end's
                                    number and time, and the time and bytes of its chunks

The first reads FOLDER/segments (through tests/capture.awk), FOLDER/segments.awk or FOLDER/dump, FOLDER/arguments and the scenario files that these
name. It refuses nothing: a row that is refused has its line written by hand."""
import hashlib, json, pathlib, struct, subprocess, sys

MILLION, M32, M64 = 10**6, 2**32, 2**64
FIN, SYN, RST, PSH, ACK = 1, 2, 4, 8, 16
TAG = b'\x81\x00'
CLASSES = 'segment short notipv4 badipv4 fragment nottcp cut badtcp sameends'.split()
ENDS = 'open fin close reset'.split()


def classify(p):
    """Its class and, of a segment, its fields. A frame with a tag is read as the frame without these four bytes."""
    vlan = None
    if p[12:14] == TAG: vlan, p = int.from_bytes(p[14:16], 'big') % 4096 or None, p[:12] + p[16:]
    if len(p) < 14: return 'short', None
    if p[12:14] != b'\x08\x00': return 'notipv4', None
    ihl, total = (4 * (p[14] & 15), int.from_bytes(p[16:18], 'big')) if len(p) >= 34 else (0, 0)
    if len(p) < 34 or p[14] >> 4 != 4 or ihl < 20 or total < ihl: return 'badipv4', None
    if int.from_bytes(p[20:22], 'big') & 0x3fff: return 'fragment', None
    if p[23] != 6: return 'nottcp', None
    if total > len(p) - 14: return 'cut', None
    t = p[14 + ihl:14 + total]
    if len(t) < 20 or not 20 <= 4 * (t[12] >> 4) <= len(t): return 'badtcp', None
    sport, dport, seq, ack = struct.unpack('>HHII', t[:12])
    frm, to = (p[26:30], sport), (p[30:34], dport)
    if frm == to: return 'sameends', None
    return 'segment', dict(mac_from=p[6:12], mac_to=p[:6], vlan=vlan, frm=frm, to=to, seq=seq, flags=t[13], payload=t[4 * (t[12] >> 4):])


def read(b):
    """Records with their stamps, and the rest. The magic number tells how many ticks a second has, here and for all that follows."""
    global SECOND, HORIZON
    e = '<' if b[3:4] == b'\xa1' else '>'
    SECOND = {0xa1b2c3d4: 10**6, 0xa1b23c4d: 10**9}[struct.unpack(e + 'I', b[:4])[0]]
    HORIZON = 2**32 * SECOND
    records, at = [], 24
    while at + 16 <= len(b):
        sec, over, n, _ = struct.unpack(e + 'IIII', b[at:at + 16])
        if at + 16 + n > len(b): break
        records.append((min(sec * SECOND + over, HORIZON), b[at + 16:at + 16 + n]))
        at += 16 + n
    return records, len(b) - at


def connections(segments):
    """Connections with their members, and how many segments are of none."""
    last, conns, open_now, unopened = {}, [], {}, 0
    for s in segments:
        pair = s['vlan'], frozenset((s['frm'], s['to']))
        if s['flags'] & (SYN | ACK | RST) == SYN:
            opening = (s['frm'], s['seq'])
            if last.get(pair) != opening:
                open_now[pair] = dict(number=len(conns), client=s['frm'], server=s['to'], first=s, opened=s['at'], members=[])
                conns.append(open_now[pair])
            last[pair] = opening
        if pair in open_now: open_now[pair]['members'].append(s)
        else: unopened += 1
    return conns, unopened


def recorded(conn, sender, base, members, reset):
    """A side's line: (bytes as (instant, byte, starts), end), and how many bytes are lost. An end is None or (kind, instant)."""
    value, fins = {}, []
    if base is not None:
        for s in members:
            if s['frm'] != sender: continue
            start = (s['seq'] + bool(s['flags'] & SYN) - base - 1 + 2**31) % M32 - 2**31
            for i, byte in enumerate(s['payload']):
                if start + i >= 0: value.setdefault(start + i, (byte, s['at']))
            if s['flags'] & FIN and start + len(s['payload']) >= 0: fins.append((start + len(s['payload']), s['at']))
    n = 0
    while n in value: n += 1
    if fins: n = min(n, fins[0][0])
    line, now = [], None
    for x in range(n):
        byte, at = value[x]
        instant = max(now, at) if now is not None else at
        line.append((instant, byte, instant != now))
        now = instant
    end = ('reset', reset) if reset is not None else None
    if fins and fins[0][0] == n: end = ('fin', max(fins[0][1], now) if line else fins[0][1])
    return (line, end), sum(1 for x in value if x >= n)


def word(seed, stream, k):
    inc = (2 * stream + 1) % M64
    state = ((seed + inc) * 6364136223846793005 + inc) % M64
    for _ in range(k): state = (state * 6364136223846793005 + inc) % M64
    folded, turn = ((state >> 18 ^ state) >> 27) % M32, state >> 59
    return (folded >> turn | folded << (32 - turn)) % M32


def later(at, ticks): return min(at + ticks, HORIZON)


def milliseconds(n): return n * SECOND // 1000
def microseconds(n): return n * SECOND // 10**6


def chunks(line):
    found = []
    for instant, byte, starts in line:
        if starts: found.append((instant, []))
        found[-1][1].append(byte)
    return found


def joined(pieces): return [(at, byte, i == 0) for at, data in pieces for i, byte in enumerate(data)]


def through(toxic, line, end, opened, draw):
    """A line through a toxic that applies. `draw` gives the words."""
    a = lambda name: (toxic.get('attributes') or {}).get(name, 0)
    kind = toxic['type']
    if kind == 'latency':
        now, out = 0, []
        for j, (at, data) in enumerate(chunks(line)):
            delay = max(0, a('latency') - a('jitter') + draw(1 + j) % (2 * a('jitter') + 1))
            now = max(now, later(at, milliseconds(delay)))
            out.append((now, data))
        line = joined(out)
    elif kind == 'bandwidth':
        rate, ends, place, now = a('rate'), [], 0, 0
        for at, data in chunks(line):
            for i in range(0, len(data), 100 * rate):
                piece = data[i:i + 100 * rate]
                place += len(piece)
                e = place - 1
                instant = max(later(line[y][0], -(-milliseconds(e - y + 1) // rate)) for y in range(e + 1))
                ends.append((instant, piece))
        line = joined(ends)
    elif kind == 'slicer':
        slices, k = [], 0
        for at, data in chunks(line):
            while data:
                size = a('average_size') - a('size_variation') + draw(1 + k) % (2 * a('size_variation') + 1)
                slices.append((at, data[:size]))
                data = data[size:]
                k += 1
        line = joined([(max(later(slices[j][0], (k - j) * microseconds(a('delay'))) for j in range(k + 1)), data) for k, (_, data) in enumerate(slices)])
    elif kind == 'limit_data':
        if len(line) > a('bytes'): line, end = line[:a('bytes')], ('close', line[a('bytes')][0])
    elif kind == 'timeout':
        line, end = [], ('close', later(opened, milliseconds(a('timeout')))) if a('timeout') else None
    elif kind == 'reset_peer':
        c = later(opened, milliseconds(a('timeout')))
        line = [b for b in line if b[0] < c]
        if not (end and end[1] < c): end = ('reset', c)
    elif kind == 'slow_close':
        if end and end[0] in ('fin', 'close'): end = (end[0], later(end[1], milliseconds(a('delay'))))
    if end and line and end[1] < line[-1][0]: end = (end[0], line[-1][0])
    return line, end


def cut(lines):
    ends = [end for _, end in lines if end and end[0] in ('close', 'reset')]
    out = []
    if ends:
        c = min(at for _, at in ends)
        kind = next(kind for kind, at in ends if at == c)
        lines = [([b for b in line if b[0] <= c], end if end and end[1] <= c else (kind, c)) for line, end in lines]
    for line, end in lines:
        out.append(([b for b in line if b[0] < HORIZON], end if end and end[1] < HORIZON else None))
    return out


def sum16(b):
    total = sum(struct.unpack('>%dH' % ((len(b) + 1) // 2), b + b'\0' * (len(b) % 2)))
    return 65535 - (total and (total - 1) % 65535 + 1)


def frame(conn, client, seq, ack, flags, data=b''):
    f = conn['first']
    ends = (f['mac_from'], f['mac_to'], f['frm'], f['to']) if client else (f['mac_to'], f['mac_from'], f['to'], f['frm'])
    mac_from, mac_to, frm, to = ends
    ip = struct.pack('>HHHHBBH', 0x4500, 40 + len(data), 0, 0x4000, 64, 6, 0) + frm[0] + to[0]
    ip = ip[:10] + struct.pack('>H', sum16(ip)) + ip[12:]
    tcp = struct.pack('>HHIIBBHHH', frm[1], to[1], seq % M32, ack % M32, 0x50, flags, 65535, 0, 0) + bytes(data)
    seen = frm[0] + to[0] + struct.pack('>BBH', 0, 6, len(tcp))
    tcp = tcp[:16] + struct.pack('>H', sum16(seen + tcp)) + tcp[18:]
    tag = TAG + struct.pack('>H', f['vlan']) if f['vlan'] else b''
    return mac_to + mac_from + tag + b'\x08\x00' + ip + tcp


def written(conn, x, y, delivered, refused):
    """The segments of a connection: (key, frame)."""
    o, c = conn['opened'], conn['number']
    if o >= HORIZON: return []
    out = [((o, c, 0, 0), frame(conn, True, x, 0, SYN))]
    if refused: return out + [((o, c, 0, 1), frame(conn, False, 0, x + 1, RST | ACK))]
    out += [((o, c, 0, 1), frame(conn, False, y, x + 1, SYN | ACK)), ((o, c, 0, 2), frame(conn, True, x + 1, y + 1, ACK))]
    for turn, mine, its in ((1, 0, 1), (2, 1, 0)):
        base, peer = ((x, y), (y, x))[mine]
        line, end = delivered[mine]
        heard_line, heard_end = delivered[its]
        def ack(at):
            got = sum(1 for b in heard_line if b[0] < at)
            return peer + 1 + got + bool(heard_end and heard_end[0] in ('fin', 'close') and heard_end[1] < at)
        place = sent = 0
        for at, data in chunks(line):
            for i in range(0, len(data), 1460):
                piece = data[i:i + 1460]
                flags = ACK | (PSH if i + 1460 >= len(data) else 0)
                out.append(((at, c, turn, place), frame(conn, turn == 1, base + 1 + sent, ack(at), flags, bytes(piece))))
                place, sent = place + 1, sent + len(piece)
        if end:
            flags = RST | ACK if end[0] == 'reset' else FIN | ACK
            out.append(((end[1], c, turn, place), frame(conn, turn == 1, base + 1 + sent, ack(end[1]), flags)))
    return out


def told(line, before, lost, opened, refused):
    (bytes_now, end), (bytes_before, _) = line, before
    what = 'refused' if refused else 'open' if not end else '%s+%d' % (end[0], end[1] - opened)
    late = max([a[0] - b[0] for a, b in zip(bytes_now, bytes_before)], default=0)
    return '%d/%d/%d %s max %d' % (len(bytes_now), len(bytes_before), lost, what, late)


def vlan_of(conn): return ' vlan %d' % conn['first']['vlan'] if conn['first']['vlan'] else ''


def peer(end): return '%d.%d.%d.%d:%d' % (*end[0], end[1])


def seen(records):
    """How many records each class has, the connections, and how many segments are of none."""
    counts, segments, now = dict.fromkeys(CLASSES, 0), [], 0
    for stamp, packet in records:
        now = max(now, stamp)
        kind, fields = classify(packet)
        counts[kind] += 1
        if fields: segments.append(dict(fields, at=now))
    return (counts, *connections(segments))


def recordings(conn):
    """The bases of a connection, and both recorded sides."""
    members, reset = [], None
    for s in conn['members']:
        if s['flags'] & RST:
            reset = s['at']
            break
        members.append(s)
    x = conn['first']['seq']
    y = next((s['seq'] for s in members if s['frm'] == conn['server'] and s['flags'] & (SYN | ACK) == SYN | ACK), None)
    return x, y, [recorded(conn, conn['client'], x, members, reset), recorded(conn, conn['server'], y, members, reset)]


def delivered(conn, sides, scenario, number, seed, hosts):
    """What a scenario delivers of the recorded sides of a connection: the number of the proxy that it meets, whether that refuses it, both lines."""
    met = next((i for i, p in enumerate(scenario) if upstream(p, hosts) == peer(conn['server'])), None)
    refused = met is not None and scenario[met].get('enabled') is False
    lines = [line for line, _ in sides]
    if met is not None:
        for d, name in enumerate(('upstream', 'downstream')):
            toxics = [t for t in scenario[met].get('toxics') or [] if (t.get('stream') or 'downstream') == name]
            for t, toxic in enumerate(toxics):
                draw = lambda k: word(seed, number * 2**30 + conn['number'] * 16 + d * 8 + t, k)
                ppm = toxic.get('toxicity_ppm', MILLION * toxic.get('toxicity', 1))
                if draw(0) % MILLION < ppm: lines[d] = through(toxic, *lines[d], conn['opened'], draw)
    return met, refused, [([], None), ([], None)] if refused else cut(lines)


def flat_lines(b, scenarios, seed, hosts):
    """The delivered lines of a capture, or of a dump of one, under scenarios."""
    try: b = bytes.fromhex(b.decode())
    except ValueError: pass
    _, conns, _ = seen(read(b)[0])
    unit = 10**9 // SECOND
    for number, scenario in enumerate(scenarios):
        for conn in conns:
            o = conn['opened']
            _, refused, lines = delivered(conn, recordings(conn)[2], scenario, number, seed, hosts)
            peers = ['%s:%d' % (end[0].hex(), end[1]) for end in (conn['client'], conn['server'])]
            yield '%d %d %d %s > %s vlan %d' % (number, conn['number'], o * unit, *peers, conn['first']['vlan'] or 0)
            for line, end in lines:
                kind, at = (ENDS.index(end[0]), end[1] - o) if end else (4 * refused, 0)
                yield ' '.join(['%d %d %d' % (len(line), kind, at * unit)] + ['%d:%s' % ((at - o) * unit, bytes(data).hex()) for at, data in chunks(line)])


def rehearse(b, scenario, number, seed, hosts):
    """The report and the capture of a scenario."""
    records, rest = read(b)
    counts, conns, unopened = seen(records)
    report = ['scenario %d records %d rest %d ' % (number, len(records), rest) + ' '.join('%s %d' % (k, counts[k]) for k in CLASSES)]
    report.append('connections %d unopened %d' % (len(conns), unopened))
    everything = []
    for conn in conns:
        c, o = conn['number'], conn['opened']
        x, y, sides = recordings(conn)
        met, refused, lines = delivered(conn, sides, scenario, number, seed, hosts)
        everything += written(conn, x, y or 0, lines, refused)
        both = [told(lines[d], sides[d][0], sides[d][1], o, refused) for d in (0, 1)]
        ends = peer(conn['client']), peer(conn['server']), vlan_of(conn)
        report.append('%d %s > %s%s proxy %s up %s down %s' % (c, *ends, '-' if met is None else met, *both))
    out = struct.pack('<I', 0xa1b2c3d4 if SECOND == 10**6 else 0xa1b23c4d) + bytes.fromhex('020004000000000000000000ffff000001000000')
    for key, f in sorted(everything):
        if key[0] < HORIZON: out += struct.pack('<IIII', *divmod(key[0], SECOND), len(f), len(f)) + f
    return '\n'.join(report) + '\n', out


def upstream(proxy, hosts):
    host, port = proxy['upstream'].rsplit(':', 1)
    return '%s:%d' % (hosts.get(host, host), int(port))


def stored(folder, capture, names):
    folder = pathlib.Path(folder)
    for number, name in enumerate(names):
        report, out = rehearse(pathlib.Path(capture).read_bytes(), json.loads(pathlib.Path(name).read_text()), number, 0, {})
        (folder / f'{number:04}.pcap').write_bytes(out)
        (folder / f'{number:04}.txt').write_text(report)


def asked(folder, arguments):
    """The scenarios, which lie in a folder, the seed and the hosts of a command line."""
    options = [(arguments[i], arguments[i + 1]) for i in range(0, len(arguments), 2)]
    scenarios = [json.loads((folder / value).read_text()) for name, value in options if name == '--scenario'] or [[]]
    return scenarios, int(dict(options).get('--seed', 0)), dict(value.split('=') for name, value in options if name == '--host')


def main():
    if sys.argv[1] == '--stored': return stored(sys.argv[2], sys.argv[3], sys.argv[4:])
    if sys.argv[1] == '--lines':
        for line in flat_lines(pathlib.Path(sys.argv[3]).read_bytes(), *asked(pathlib.Path(), sys.argv[4:])): print(line)
        return
    row = pathlib.Path(sys.argv[1])
    tests = pathlib.Path(__file__).resolve().parent.parent
    if (row / 'dump').exists(): text = (row / 'dump').read_text()
    else:
        segments = (row / 'segments').read_bytes() if (row / 'segments').exists() else subprocess.run(['awk', '-f', row / 'segments.awk'], input=b'', capture_output=True, check=True).stdout
        text = subprocess.run(['awk', '-f', tests / 'capture.awk'], input=segments, capture_output=True, check=True).stdout.decode()
    capture = bytes.fromhex(''.join(text.split()))
    arguments = (row / 'arguments').read_text().split() if (row / 'arguments').exists() else []
    scenarios, seed, hosts = asked(row, arguments)
    reports = ''
    for number, scenario in enumerate(scenarios):
        report, out = rehearse(capture, scenario, number, seed, hosts)
        reports += report
        if len(out) > 4000: (row / f'{number:04}.sha256').write_text(hashlib.sha256(out).hexdigest() + '\n')
        else:
            records, at = [out[:24].hex(' ', 4)], 24
            while at < len(out):
                n = int.from_bytes(out[at + 8:at + 12], 'little')
                headers = 58 if out[at + 28:at + 30] == TAG else 54
                f = out[at + 16:at + 16 + n]
                records.append(' '.join((out[at:at + 16].hex(' ', 4), f[:headers].hex(), f[headers:].hex())).strip())
                at += 16 + n
            (row / f'{number:04}.hex').write_text('\n'.join(records) + '\n')
    if len(reports) > 4000: (row / 'report.sha256').write_text(hashlib.sha256(reports.encode()).hexdigest() + '\n')
    else: (row / 'report').write_text(reports)


if __name__ == '__main__': main()
