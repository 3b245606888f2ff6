"""Compares the events of output captures, as dump.py printed them, with what tshark and the reports tell: compare.py [--reports] DUMP. The report of a
capture stands beside it. Of each connection tshark tells the bytes that it follows, and each byte's instant; the report how many bytes were delivered,
and the ends. With --reports tshark is left out. Prints what differs, and how many connections were compared on standard error."""
import collections, decimal, pathlib, subprocess, sys

COLUMNS = 'tcp.stream', 'tcp.srcport', 'tcp.time_relative', 'tcp.len'
compared = 0


def dumps(path):
    """Of each capture of a dump: its path, its events by connection, and its lines of what was delivered."""
    found = []
    for line in pathlib.Path(path).read_text().splitlines():
        words = line.split()
        if words[0] == '==': found.append((pathlib.Path(words[1]), collections.defaultdict(list), {}))
        elif words[1] == 'delivered': found[-1][2][int(words[0]), words[2]] = words[3]
        else: found[-1][1][int(words[0])].append((int(words[1]), words[2], words[3]))
    return found


def told(path):
    """What the report tells of each connection: the server's port, and for each direction the bytes delivered and the end, as `how+nanoseconds`."""
    unit = 1 if path.read_bytes()[:1] == b'\x4d' else 1000
    for line in path.with_suffix('.txt').read_text().splitlines()[2:]:
        words, ways = line.split(), {}
        for way in 'up', 'down':
            place = words.index(way)
            how, _, time = words[place + 2].partition('+')
            how = {'close': 'fin'}.get(how, how)
            ways[way] = int(words[place + 1].split('/')[0]), f'{how}+{int(time or 0) * unit}' if how != 'open' else how
        yield words[3].split(':')[1], ways


def seen(path, count):
    """What tshark tells of connections: for each the bytes of both directions, as it follows them, and a list of instants, one for each byte."""
    fields = [word for column in COLUMNS for word in ('-e', column)]
    follows = [word for number in range(count) for word in ('-z', f'follow,tcp,raw,{number}')]
    command = ['tshark', '-n', '-r', str(path), '-o', 'tcp.relative_sequence_numbers:FALSE', '-T', 'fields', *fields, *follows]
    lines = subprocess.run(command, capture_output=True, text=True, check=True, timeout=600).stdout.splitlines()
    bytes_of, instants, number = collections.defaultdict(str), collections.defaultdict(list), None
    for line in lines:
        if line.startswith('Filter: tcp.stream eq '): number = int(line.split()[-1])
        elif number is None and line.count('\t') == 3:
            stream, port, time, length = line.split('\t')
            instants[int(stream), port] += [int(decimal.Decimal(time).scaleb(9))] * int(length)
        elif number is not None and line.strip() and not line.startswith(('=', 'Follow', 'Node')):
            bytes_of[number, 'down' if line[0] == '\t' else 'up'] += line.strip()
    return bytes_of, instants


def differ(what, expected, found):
    if expected != found: print(f'  {what}\n    expected: {str(expected)[:200]}\n    found:    {str(found)[:200]}')


def compare(path, events, ends, by_tshark):
    global compared
    report = list(told(path))
    differ(f'{path}: connections', sorted(range(len(report))), sorted({number for number, _ in ends}))
    bytes_of, instants = seen(path, len(report)) if by_tshark else ({}, {})
    for number, (port, ways) in enumerate(report):
        for way, (length, end) in ways.items():
            chunks = [(time, what) for time, side, what in events[number] if side == way and what not in ('fin', 'reset', 'refused')]
            last = [f'{what}+{time}' for time, side, what in events[number] if side == way and what in ('fin', 'reset', 'refused')]
            name = f'{path}, connection {number} {way}'
            differ(f'{name}: bytes delivered', length, sum(len(what) for _, what in chunks) // 2)
            differ(f'{name}: end', end, ' '.join(last) or 'open')
            differ(f'{name}: end of delivered', end, ends[number, way])
            if not by_tshark: continue
            differ(f'{name}: bytes', bytes_of[number, way], ''.join(what for _, what in chunks))
            times = [time for key, found in instants.items() if key[0] == number and (key[1] == port) == (way == 'down') for time in found]
            differ(f'{name}: instants', times, [time for time, what in chunks for _ in range(len(what) // 2)])
        differ(f'{path}, connection {number}: order', sorted(time for time, _, _ in events[number]), [time for time, _, _ in events[number]])
        compared += 1


for capture in dumps(sys.argv[-1]): compare(*capture, '--reports' not in sys.argv)
print(compared, file=sys.stderr)
