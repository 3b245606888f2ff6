#!/usr/bin/env python3
"""Each number in the code of the product, and the tests on both sides of it.

A number other than 0, 1 and 2 is that of a constant, or one of FORMATS. docs/internals/constants.tsv has a row for each constant: its file, name,
value and comment, which tests/tree/made.py writes, and by hand tests of a value below it, of the value itself, and of one above it. Each cell of these has
tests, with semicolons between, or says in brackets why there is none:
    P file::test      a test of a crate, by the letter that docs/internals/evidence.md has for the crate
    row NAME          a folder of tests/rows
    NAME.sh: WORDS    a line of a script in tests that has all these words; of sides.sh the constant and a size, which is below it, at it or above it
An argument is the folder of another copy of the repository. The last line is `N passed, M failed`."""
import pathlib, re, sys

TREE = pathlib.Path(__file__).resolve().parents[2]
TABLE, SIDES = 'docs/internals/constants.tsv', ('below', 'at', 'above')
HEAD = ['file', 'constant', 'value', 'what', *SIDES]
NOT_PRODUCT = ('part_tests', 'worker_tests', 'rehearsal_tests', 'worked_sessions', 'library_example', 'loop_example')
CRATES = {'R': 'rehearsal_tests', 'P': 'part_tests', 'W': 'worker_tests'}

# Numbers and constants of a file that a format fixes; `*` is each of them except a limit.
FORMATS = [line.split(': ') for line in '''\
Ethernet, IPv4 and TCP: frame_headers/flag_bits *; frame_headers/layout *; frame_headers/classes 4 6 16 0x4000
Ethernet, IPv4 and TCP: frame_headers/written 4 6 8 0x4500 0x4000 0x4006 0x5000 0xffff; pcap_records/packet_heads 12 13 14 15 0x08 0x45
bits of words, of which a sum is taken: frame_headers/sums 4 8 16 32 64 256 0xffff 0xffff_ffff 0xffff_ffff_ffff_ffff
bytes of an address of Ethernet: reassembly/recordings 6; segment_writer/senders 6; segment_writer/row_segments 6
bits and decimals of an address of IPv4 and a port: conn_table/pair_keys 16 32; report/lines 16 24 256; report/texts 10
bits of an address of IPv4 and a port, and of two of each: closed_loop/scripts 0x1_0000 0x1_0000_0000_0000
pcap: pcap_records/heading FILE_HEADER_LEN MAGIC NANOSECOND_MAGIC ETHERNET 4 6 8 20; pcap_records/reader RECORD_HEADER_LEN 4 8; pcap_records/writing *; closed_loop/stamping 4 8
ticks of a second, and the bits of its number: pcap_records/unit *
captures and link types that are told by name: hints/captures 4 20 105 113 119 127 163 276 0x0a 0x0d 0x1f 0x8b 0xa1 0xb2 0xc3 0xd4 0x3c 0x4d
digits of a dump, and two bytes of it: run_files/dumps PLACES 22 256
streams of random words, by the rules: toxic_defs/words 8 16 30
numbers of refusals and statuses: run_files/fault_lines *; toxicap_c/statuses 3
table that tests/tree/made.py writes, and digits of a toxicity: hints/attributes *; hints/toxic_hints 6
ends of directions, and nanoseconds of a microsecond: laid_lines/times 3 4 1_000
a mixing of bits, on which no answer depends: conn_table/last_connections 32 0x9e37_79b9_7f4a_7c15'''.split('\n')]

# How often a size of tests/program/sides.sh has a constant, if not once: there are two workers, or four slots for each opening, or 40 connections for a worker.
SIZES = {'RANGES_EACH': 2, 'SCENARIOS_EACH': 2, 'MOST_SLOTS': 1 / 4, 'DEFAULT_WORKERS': 40}

COMMENTS = re.compile(r'//[^\n]*|b?"(?:[^"\\]|\\.)*"|b?\'(?:[^\'\\]|\\.)\'', re.S)
CLAUSE = re.compile(r'\b(?:ensures|requires|ghost)\b')
NUMBER = re.compile(r'(?:(?<=\.\.)|(?<![\w.]))(0x[\da-f_]+|\d[\d_]*)(?:[ui](?:8|16|32|64|128|size))?(?!\w)')
CONSTANT = re.compile(r'((?:^ *//[^\n]*\n)*)^ *(?:pub(?:\(crate\))? )?const (\w+): (?:u\d+|usize) = ([^;]*);$', re.M)
DEFINED = re.compile(r'^-- ([^\n]*)\n[^\n]*\n(number_limit) = ([\d ^]+)$', re.M)


def read(tree, path):
    return (tree / path).read_text(encoding='utf-8')


def blank(found):
    return re.sub(r'[^\n]', ' ', found[0])


def code_of(text):
    """A file without comments, texts, attributes and clauses, whose places are blank."""
    text = re.sub(r'#!?\[[^\]]*\]', blank, COMMENTS.sub(blank, text))
    clause = CLAUSE.search(text)
    while clause:
        end, depth = clause.end(), 0
        while end < len(text) and not (text[end] in ';}' and depth <= (text[end] == '}')):
            depth += {'{': 1, '}': -1}.get(text[end], 0)
            end += 1
        text = text[:clause.start()] + re.sub(r'[^\n]', ' ', text[clause.start():end + 1]) + text[end + 1:]
        clause = CLAUSE.search(text, end)
    return text


def files(tree, folder='src', suffix='.rt'):
    """The files of the product in the order of its crates, each by crate and name."""
    lines = [line.split(':')[0].split()[0] for line in read(tree, 'crates.txt').splitlines() if line and line[0] != '#']
    for crate in (crate for crate in lines if crate not in NOT_PRODUCT):
        for path in sorted((tree / 'crates' / crate / folder).rglob('*' + suffix)): yield f'{crate}/{path.stem}', path


def constants(tree):
    """The constants of the product that are numbers: of each its file, name, value, and what its comment says first."""
    found = [(name, row) for name, path in files(tree) for row in CONSTANT.finditer(read(tree, path))]
    found += [(name, row) for name, path in files(tree, 'specs', '.antt') for row in DEFINED.finditer(read(tree, path))]
    for file, row in found:
        said = re.split(r'[.:](?: |$)', ' '.join(line.strip().lstrip('/').strip() for line in row[1].splitlines()))[0]
        yield file, row[2], row[3], said or row[2].capitalize().replace('_', ' ')


def values(tree):
    """The numbers of constants, by name and text."""
    named, found = {}, {}
    for _, name, text, _ in constants(tree):
        named[name] = found[name, text] = eval(text.replace('/', '//').replace('^', '**'), {}, named)
    return found


def fixed(file):
    """What FORMATS has of a file."""
    return {word for _, places in FORMATS for place in places.split('; ') if place.split()[0] == file for word in place.split()[1:]}


def is_fixed(file, name):
    return name in fixed(file) or '*' in fixed(file) and not re.search('LIMIT|GREATEST', name)


def listed(tree):
    """The constants that have a row."""
    return [row for row in constants(tree) if not is_fixed(*row[:2])]


def rows(tree):
    head, *found = [line.split('\t') for line in read(tree, TABLE).splitlines()]
    return {(row[0], row[1]): dict(zip(head, row)) for row in found}


def table(tree):
    """The table as it has to be: what tests tell of a constant is what it has already."""
    told, lines = rows(tree), ['\t'.join(HEAD)]
    for row in listed(tree):
        lines.append('\t'.join([*row, *(told.get(row[:2], {}).get(side, '') for side in SIDES)]))
    return '\n'.join(lines) + '\n'


# ---- faults

def number_faults(tree):
    """The numbers in code that are no constant's and of no format."""
    names = {row[:2] for row in listed(tree)}
    for file, path in files(tree):
        if '*' in fixed(file): continue
        text = read(tree, path)
        code = code_of(text)
        for row in CONSTANT.finditer(text):
            if (file, row[2]) in names or row[2] in fixed(file): code = code[:row.start()] + blank(row) + code[row.end():]
        for found in NUMBER.finditer(code):
            if int(found[1].replace('_', ''), 0) > 2 and found[1] not in fixed(file):
                yield f'{path.relative_to(tree)}:{code[:found.start()].count(chr(10)) + 1}: {found[0]} is no constant'


def is_there(tree, test):
    """Whether there is a test of this name."""
    of_crate, of_row, of_script = (re.fullmatch(how, test) for how in (r'([RPW]) (\w+)::(\w+)', r'row ([\w-]+)', r'([\w-]+\.sh): (.+)'))
    if of_crate:
        path = tree / 'crates' / CRATES[of_crate[1]] / 'src/tests' / f'{of_crate[2]}.rt'
        return path.exists() and re.search(rf'#\[test\]\s*fn {of_crate[3]}\(', read(tree, path))
    if of_row: return (tree / 'tests/rows' / of_row[1]).is_dir()
    scripts = of_script and sorted(tree.glob(f'tests/*/{of_script[1]}'))
    if not scripts: return False
    words = of_script[2].split()
    return any(all(re.search(rf'(?<!\w){re.escape(word)}(?!\w)', line) for word in words) for line in read(tree, scripts[0]).splitlines())


def cell_fault(tree, cell, side, name, value):
    """What is wrong with a cell of a constant, or nothing."""
    if re.fullmatch(r'\(.+\)', cell): return ''
    if not cell: return 'no test, and no reason in brackets'
    size = re.fullmatch(rf'sides.sh: {name} (\d+)', cell)
    where = int(size[1]) - value * SIZES.get(name, 1) if size else 0
    if size and side != ('at' if where == 0 else 'below' if where < 0 else 'above'): return f'{cell} is on another side of {value}'
    return ', '.join(test for test in cell.split('; ') if not is_there(tree, test))


def main():
    tree = pathlib.Path(sys.argv[1]) if sys.argv[1:] else TREE
    faults, told, numbers = list(number_faults(tree)), rows(tree), values(tree)
    passed = 0 if faults else 1
    if read(tree, TABLE) != table(tree): faults.append(f'{TABLE} is not as tests/tree/made.py writes it')
    for row in listed(tree):
        for side in SIDES:
            fault = cell_fault(tree, told.get(row[:2], {}).get(side, ''), side, row[1], numbers[row[1:3]])
            if fault: faults.append(f'{TABLE}: {row[0]} {row[1]}, {side}: {fault}')
            passed += not fault
    for fault in faults: print('failed:', fault)
    print(f'{passed} passed, {len(faults)} failed')
    sys.exit(1 if faults else 0)


if __name__ == '__main__': main()
