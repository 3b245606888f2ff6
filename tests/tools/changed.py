#!/usr/bin/env python3
"""Compares the program, examples/scenario.schema.json and tools/explain over scenario files: those of the examples, files with one value at its
borders, next to them, or of another kind, and COUNT files that are made of the examples by changes.

    tests/tools/changed.py PROGRAM COUNT FOLDER

FOLDER gets the files, and for each comparison a file of its name with what is at fault. The schema is left out where Python's `jsonschema` is not
here."""
import collections, concurrent.futures, copy, json, pathlib, random, re, subprocess, sys

try: import jsonschema
except ImportError: jsonschema = None

PROGRAM, COUNT, FOLDER = sys.argv[1], int(sys.argv[2]), pathlib.Path(sys.argv[3])
TOP = pathlib.Path(__file__).resolve().parents[2]
EXAMPLES = TOP / 'examples'
sys.path.append(str(TOP / 'clients/python'))
sys.dont_write_bytecode = True
from toxicap._known import unknown_fields
PROXY = 'name listen upstream enabled toxics'.split()
TOXIC = 'name type stream toxicity toxicity_ppm attributes'.split()
ATTRIBUTES = {'latency': ['latency', 'jitter'], 'bandwidth': ['rate'], 'slow_close': ['delay'], 'timeout': ['timeout'], 'reset_peer': ['timeout'],
              'slicer': ['average_size', 'size_variation', 'delay'], 'limit_data': ['bytes']}

# ---- files as they are written: an object is a list of pairs, so that a member may stand twice, and a number is its text


class Members(list): pass
class Number(str): pass


def read(text): return json.loads(text, object_pairs_hook=Members, parse_int=Number, parse_float=Number)


def written(value):
    if isinstance(value, Number): return value
    if isinstance(value, Members): return '{' + ', '.join(json.dumps(name) + ': ' + written(v) for name, v in value) + '}'
    if isinstance(value, list): return '[' + ', '.join(map(written, value)) + ']'
    return json.dumps(value)


def children(value): return [v for _, v in value] if isinstance(value, Members) else value if isinstance(value, list) else []
def containers(value): return [value] * isinstance(value, list) + sum(map(containers, children(value)), [])


# ---- values, and files with one of them

BORDERS = [0, 1, 2, 8, 10**6, 10**9, 10**12, 2**32, 2**63, 2**64]
NUMBERS = [Number(border + step) for border in BORDERS for step in (-1, 0, 1)] + [Number(text) for text in '1.0 0.5 1e3 -0 1E-9 1e400 01'.split()]
PORTS = ['', ':', ':0', ':1', ':80', ':65535', ':65536', ':99999', ':00080', ':000080', ':00000', ':-1', ':+80', ':8e1', ':http', ':80\n', ':80 ', ':\u0661']
HOSTS = ['', ' 10.77.0.2', '[::1]', 'a:b', '256.0.0.1', '10.77.0', 'redis', 'Redis', 're_d-i.s', 'db', 'r\u00e9dis', 'redis ', '\ud800']
UPSTREAMS = ['10.77.0.2' + port for port in PORTS] + [host + ':80' for host in HOSTS]
TEXTS = ['', 'x', 'upstream', 'downstream', 'Upstream', 'down', *ATTRIBUTES, 'Latency', 'latency ', 'latency_downstream']
OTHERS = [None, True, False, Members(), []]


def toxic(kind, name, stream, attributes=()):
    """A toxic that nothing refuses but what it is told; without a stream where that is `absent`."""
    expected = {'bandwidth': [('rate', Number(1))], 'slicer': [('average_size', Number(10**9))]}
    members = [('type', kind), ('name', name), ('stream', stream), ('attributes', Members([*expected.get(kind, []), *attributes]))]
    return Members(member for member in members if member[1] != 'absent')


def proxy(members=(), toxics=()): return Members([('name', 'web'), ('upstream', '10.77.0.2:80'), ('toxics', list(toxics)), *members])


def files_of_one():
    for value in NUMBERS + TEXTS + UPSTREAMS + OTHERS:
        for name in PROXY: yield [proxy([(name, value)])]
        for name in TOXIC: yield [proxy([], [Members([*toxic('latency', None, None), (name, value)])])]
    for kind in ATTRIBUTES:
        for attributes in [[], *([('attributes', value)] for value in OTHERS)]: yield [proxy([], [Members([('type', kind), *attributes])])]
    for value in NUMBERS + OTHERS:
        for kind, names in ATTRIBUTES.items():
            for name in names: yield [proxy([], [toxic(kind, None, None, [(name, value)])])]
    for stream in 'downstream', '', None, 'absent':
        for up, down in (8, 8), (9, 0), (0, 9): yield [proxy([], [toxic('timeout', str(n), 'upstream' if n < up else stream) for n in range(up + down)])]
    for count in range(63, 66): yield [proxy([('name', str(n))]) for n in range(count)]


# ---- changes of the examples


def any_value(): return copy.copy(random.choice(random.choice([NUMBERS, UPSTREAMS, TEXTS, OTHERS])))
def any_name(): return random.choice(random.choice([PROXY, TOXIC, *ATTRIBUTES.values()]))


def any_toxic(name):
    kind = random.choice(list(ATTRIBUTES))
    attributes = [(attribute, random.choice(NUMBERS[:15])) for attribute in ATTRIBUTES[kind] if random.random() < 0.5]
    return toxic(kind, name, random.choice(['upstream', 'downstream', '', None]), attributes)


def misspelt(name):
    at = random.randrange(len(name))
    return random.choice([name.capitalize(), name.upper(), name + name[-1], name[:-1], name[:at] + name[at + 1:], name + ' ', name.replace('_', '-')])


def change_member(members):
    at = random.randrange(len(members))
    name, value = members[at]
    other = random.choice(NUMBERS) if isinstance(value, Number) and random.random() < 0.8 else any_value()
    members[at:at + 1] = random.choice([
        [], [(name, other)], [(name, other)], [(misspelt(name or 'x'), value)], [(any_name(), value)], [(name, value), (any_name(), any_value())],
        [(name, value), (misspelt(any_name()), any_value())], [(name, other), (name, value)], [(name, value), (name, None)]])


def change_items(items):
    at = random.randrange(len(items))
    if random.random() < 0.2: items[at:at + 1] = random.choice([[], [any_value()], [items[at], copy.deepcopy(items[at])]])
    elif isinstance(items[at], Members) and 'upstream' in dict(items[at]): items.insert(at, proxy([('name', str(random.random()))]))
    else: items[at:at] = [any_toxic(str(n)) for n in range(random.choice([1, 1, 1, 1, 2, 6, 7, 8]))]


def changed(text):
    file = read(text)
    for _ in range(random.choice([1, 1, 1, 2, 3])):
        here = random.choice(containers(file) or [[]])
        if not here: here.append((any_name(), any_value()) if isinstance(here, Members) else any_value())
        elif isinstance(here, Members): change_member(here)
        else: change_items(here)
    text = written(file)
    return text if random.random() < 0.98 else random.choice([text[:-1], '\ufeff' + text, text + ',', '{"proxies": ' + text + '}', 'null', '7'])


# ---- what the program, the schema and tools/explain print of a file


def refusal(path):
    """The number of the program's refusal, 0 where it takes the file, and -1 where it does neither."""
    run = subprocess.run([PROGRAM, '--capture', FOLDER / 'empty.pcap', '--host', 'redis=10.77.0.3', '--scenario', path],
                         stdin=subprocess.DEVNULL, stdout=subprocess.DEVNULL, stderr=subprocess.PIPE)
    told = re.fullmatch(rb'refused ([0-9]+) \w+ scenario 0.*\n', run.stderr)
    return 0 if run.returncode == 0 and not run.stderr else int(told[1]) if run.returncode == 1 and told else -1


def others(value, known): return [name for name in value if name not in known] if isinstance(value, dict) else []
def items(value): return enumerate(value if isinstance(value, list) else [])


def unknown(file):
    """The members that the program does not know, each with its place."""
    for p, proxy in items(file):
        yield from ((f'proxy {p}', name) for name in others(proxy, PROXY))
        for t, toxic in items(proxy.get('toxics') if isinstance(proxy, dict) else None):
            yield from ((f'proxy {p} toxic {t}', name) for name in others(toxic, TOXIC))
            kind = toxic.get('type') if isinstance(toxic, dict) else None
            if isinstance(kind, str) and kind in ATTRIBUTES:
                yield from ((f'proxy {p} toxic {t} attributes', name) for name in others(toxic.get('attributes'), ATTRIBUTES[kind]))


def told_unknown(errors):
    """The same by the schema's errors, of which each is of members too many."""
    for error in errors:
        path = list(error.absolute_path)
        place = f'proxy {path[0]}' + ''.join(f' toxic {t}' for t in path[2:3]) + ''.join(' attributes' for _ in path[3:])
        yield from ((place, name) for name in others(error.instance, error.schema['properties']))


def is_beyond_schemas(number, file, text):
    """Whether no schema can tell such a refusal: names that occur twice, hosts that are not known, numbers that are written with a point or an exponent,
    slices that vary by more than their size."""
    without_texts = re.sub(r'"(\\.|[^"\\])*"', '', text)
    slices = [toxic['attributes'] for _, proxy in items(file) for _, toxic in items(proxy.get('toxics')) if toxic['type'] == 'slicer']
    varied = any(1 <= a['average_size'] <= (a.get('size_variation') or 0) < 10**9 for a in slices)
    return number in (13, 15, 18) or number in (19, 21) and (varied or re.search(r'[0-9][.eE]|-0', without_texts) is not None)


def judged(path):
    """What is at fault with a file, for each comparison: its refusal, and pairs of a comparison and a line."""
    number, text, faults = refusal(path), path.read_text(), []
    try: file = json.loads(text)
    except ValueError: return number, [] if number == 10 else [('python-reads-what-is-taken', text)]
    if number == 10 or not jsonschema: return number, []
    errors = list(VALIDATOR.iter_errors(file))
    beside = [error for error in errors if error.validator != 'additionalProperties']
    if number == 0 and beside: faults.append(('what-is-taken-is-valid', f'{beside[0].message}: {text}'))
    if number == 0 and not beside and sorted(told_unknown(errors)) != sorted(unknown(file)):
        faults.append(('the-schema-tells-each-unknown-member-and-no-other', f'{sorted(told_unknown(errors))}: {text}'))
    if number != 0 and not beside and not is_beyond_schemas(number, file, text):
        faults.append(('the-schema-tells-each-refusal-that-a-schema-can', f'refused {number}: {text}'))
    return number, faults


def explained(paths):
    """The files whose unknown fields are not those of `unknown` for tools/explain."""
    files = [(path, json.loads(path.read_text())) for path in paths]
    return [str(path) for path, file in files if sorted(found[:2] for found in unknown_fields(file)) != sorted(unknown(file))]


random.seed(1)
VALIDATOR = jsonschema and jsonschema.Draft202012Validator(json.loads((EXAMPLES / 'scenario.schema.json').read_text()))
(FOLDER / 'empty.pcap').write_bytes(bytes.fromhex('d4c3b2a1 0200 0400 00000000 00000000 ffff0000 01000000'))
examples = [text for text in (path.read_text() for path in sorted(EXAMPLES.glob('*.json'))) if text.startswith('[')]
texts = examples + list(map(written, files_of_one())) + [changed(random.choice(examples)) for _ in range(COUNT)]
paths = [FOLDER / f'{number}.json' for number in range(len(texts))]
for path, text in zip(paths, texts): path.write_text(text)
with concurrent.futures.ProcessPoolExecutor() as pool: judgements = list(pool.map(judged, paths, chunksize=50))

counts = collections.Counter(number for number, _ in judgements)
print(f'{len(paths)} files: {counts[0]} taken, refused:', ', '.join(f'{counts[number]} by {number}' for number in range(10, 22)))
comparisons = {'each-answer-comes-five-times': [f'{number}: {counts[number]} times' for number in [0, *range(10, 22)] if counts[number] < 5],
               'each-file-is-taken-or-refused': [path.read_text() for path, (number, _) in zip(paths, judgements) if number < 0],
               'python-reads-what-is-taken': []}
if jsonschema:
    for name in 'what-is-taken-is-valid', 'the-schema-tells-each-unknown-member-and-no-other', 'the-schema-tells-each-refusal-that-a-schema-can':
        comparisons[name] = []
for _, faults in judgements:
    for name, line in faults: comparisons[name].append(line)
readable = [path for path, (number, _) in zip(paths, judgements) if number != 10]
comparisons['explain-prints-each-unknown-field-and-no-other'] = explained(readable)
for name, lines in comparisons.items(): (FOLDER / name).write_text(''.join(f'  {line}\n' for line in lines))
