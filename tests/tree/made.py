#!/usr/bin/env python3
"""Makes what pages tell of the tree itself: the crates, what they stand on and their definitions; the constants; the public calls.

A page of docs/ has such a part between two lines, `<!-- made: NAME -->` and `<!-- end -->`. Without an argument each part is written anew. With
`--check` nothing is written: a part that is not what would be written fails, and so does one that no page has. The larger sample as a dump, for
tests in Rattle, is made, or compared, too; and so are the table of constants, and those of what helps after a refusal, in code between `made: hints`
and `end`. The last line is `N passed, M failed`. A further argument is the folder of another copy of the repository."""
import constants, itertools, pathlib, re, sys

FOLDERS = [word for word in sys.argv[1:] if word != '--check']
TREE = pathlib.Path(FOLDERS[0] if FOLDERS else pathlib.Path(__file__).resolve().parents[2])
MADE = re.compile(r'(<!-- made: (\w+) -->\n)(.*?)(<!-- end -->\n)', re.S)
TESTS = constants.NOT_PRODUCT


# ---- the tree

def read(path):
    return path.read_text(encoding='utf-8')


def uses():
    """The crates in the order of crates.txt, each with the libraries that it uses."""
    lines = [line.split(':') for line in read(TREE / 'crates.txt').splitlines() if line and line[0] != '#']
    return {head.split()[0]: used.split() for head, used in lines}


def product():
    return [crate for crate in uses() if crate not in TESTS]


def libraries():
    return [crate for crate in product() if crate != 'toxicap_program']


def files(crate, folder, suffix):
    """The files of a folder of a crate, except those that only list the others."""
    found = (TREE / 'crates' / crate / folder).rglob('*' + suffix)
    return sorted(path for path in found if path.stem not in ('lib', 'Lib'))


# ---- texts about files

def sentence(path):
    """The first sentence of the comment that a file begins with."""
    mark, lines = ('//!', []) if path.suffix == '.rt' else ('--', [])
    for line in read(path).splitlines():
        if not line.startswith(mark) or line == mark: break
        lines.append(line[len(mark):].strip())
    text = ' '.join(lines)
    found = re.match(r'(.*?)\.(?: |$)', text)
    return found[1] if found else text


# ---- crates and files

def stands_on(crate):
    """The libraries that a crate uses, except what it has from a crate below it."""
    used = uses()

    def below(each):
        return {other for name in used.get(each, []) for other in {name} | below(name)}
    return [name for name in used[crate] if not any(name in below(other) for other in used[crate])]


def made_crates():
    """Each crate: what it is, and what it stands on."""
    for crate in uses():
        src = TREE / 'crates' / crate / 'src'
        first = src / 'lib.rt' if (src / 'lib.rt').exists() else src / 'main.rt'
        on = ', '.join(stands_on(crate)) if crate in product() else ''
        yield f'- **{crate}**: {sentence(first)}{"; on " if on else ""}{on}\n'


# ---- constants

def made_limits():
    """The constants of each crate."""
    for crate, rows in itertools.groupby(constants.listed(TREE), key=lambda row: row[0].split('/')[0]):
        yield f'- {crate}: {", ".join(f"`{name}`" for _, name, _, _ in rows)}\n'


# ---- calls

FUNCTION = re.compile(r'^( *)(pub(?:\(crate\))? )?(?:unsafe )?(?:extern "C" )?fn (\w+)', re.M)


def clauses(code, head):
    """The names of the clauses that a function promises, None for one without. Its body ends its head, or a semicolon outside of braces."""
    found, depth = [], 0
    for line in code[head.start():].split('\n'):
        clause = re.match(r' *ensures (?:(\w+) )?\{', line)
        if clause: found.append(clause[1])
        elif line.startswith((head[1] + '{', head[1] + '}')): break
        elif line.endswith(' {') and line.startswith((head[0], head[1] + ')')): break
        depth += line.count('{') - line.count('}')
        if line.endswith(';') and depth == 0: break
    return found


def handed_on(crate):
    """The names that a crate's lib.rt hands on from its modules, each with its module."""
    found = {}
    for module, one, several in re.findall(r'^pub use (\w+)::(?:(\w+)|\{([^}]*)\});', read(TREE / 'crates' / crate / 'src' / 'lib.rt'), re.M):
        found.update({name: module for name in re.findall(r'\w+', one or several)})
    return found


def calls(crate):
    """The public calls of a crate, by their type, trait or module, except methods that have only clauses without a name."""
    names, rows = handed_on(crate), {}
    for path in files(crate, 'src', '.rt'):
        code = read(path)
        for block in re.finditer(r'^(pub trait|impl)(?:<.*?>)? (\w+)(?![^\n]* for ).*?^\}', code, re.M | re.S):
            if block[2] not in names: continue
            for head in FUNCTION.finditer(code, block.start(), block.end()):
                promised = clauses(code, head)
                is_told = any(promised) or not promised
                if is_told and (head[2] == 'pub ' or block[1] == 'pub trait'): rows.setdefault(block[2], []).append(head[3])
        for head in FUNCTION.finditer(code):
            if head[1] or head[2] != 'pub ': continue
            if names.get(head[3]) == path.stem or path.stem == 'laws' or 'extern "C"' in head[0]:
                rows.setdefault(path.stem, []).append(head[3])
    return rows


def made_calls():
    """The public calls of each library, a line for each type, trait or module."""
    for crate in libraries():
        rows = ''.join(f'  - {of}: {", ".join(told)}\n' for of, told in calls(crate).items())
        if rows: yield f'- {crate}\n{rows}'


# ---- a sample

SAMPLE, DUMP = TREE / 'samples/shop.pcap', TREE / 'crates/rehearsal_tests/src/tests/shop_sample.rt'


def made_dump():
    """The larger sample as a constant of the tests."""
    digits = SAMPLE.read_bytes().hex()
    lines = '\n'.join(digits[at:at + 140] for at in range(0, len(digits), 140))
    return f'//! The sample `samples/shop.pcap` as a dump, made by `tests/tree/made.py`.\n\npub const SHOP: &str =\n    "{lines}";\n'


# ---- tables in code

CODE_MADE = re.compile(r'((?:#|//) made: (\w+)[^\n]*\n)(.*?)((?:#|//) end\n)', re.S)


def rows_of(path):
    head, *rows = [line.split('\t') for line in read(TREE / path).splitlines()]
    return [dict(zip(head, row)) for row in rows]


def attributes():
    """The attributes of each type of toxics: name, unit, least and greatest."""
    for row in rows_of('docs/toxics.tsv'):
        if row['toxic'] == 'any': continue
        most = 10**9 if row['greatest'] == 'below average_size' else int(row['greatest'])
        unit = row['unit'].replace(' of 1000 bytes', '')
        yield row['toxic'], row['attribute'], unit, int(row['least']), most


def go_tables():
    """The kinds of refusals, and the attributes of toxics, for Go."""
    kinds = [row for row in rows_of('docs/refusals.tsv') if int(row['number']) < 60]
    width = max(len(row['name']) for row in kinds)
    yield '\n// The kinds of refusals.\nconst (\n'
    for row in kinds: yield f'\tErr{row["name"]:{width}} Kind = {row["number"]:2} // {row["means"]}\n'
    yield ')\n\nvar kindNames = map[Kind]string{\n'
    names = [f'{row["number"]}: "{row["name"]}"' for row in kinds]
    for at in range(0, len(names), 8): yield f'\t{", ".join(names[at:at + 8])},\n'
    yield '}\n\n// The attributes of each type of toxics.\nvar attributes = []struct{ of, name string }{\n'
    for kind, name, *_ in attributes(): yield f'\t{{"{kind}", "{name}"}},\n'
    yield '}\n\n'


def rust_kinds():
    """The kinds of refusals, for Rust."""
    kinds = [row for row in rows_of('docs/refusals.tsv') if int(row['number']) < 60]
    yield '/// The kinds of refusals, by their numbers; `docs/use/refusals.md` says what to do.\n#[derive(Clone, Copy, Debug, PartialEq, Eq, Hash)]\n'
    yield '#[non_exhaustive]\n#[rustfmt::skip]\npub enum Kind {\n'
    for row in kinds: yield f'    #[doc = "{row["means"][0].upper()}{row["means"][1:]}."] {row["name"]} = {row["number"]},\n'
    yield f'}}\n\n#[rustfmt::skip]\nconst KINDS: [Kind; {len(kinds)}] = [\n'
    for at in range(0, len(kinds), 7): yield f'    {", ".join("Kind::" + row["name"] for row in kinds[at:at + 7])},\n'
    yield '];\n'


def rattle_table():
    """The table of attributes for Rattle."""
    rows = [f'    ("{kind}", "{name}", "{unit}", {least}, {most}),\n' for kind, name, unit, least, most in attributes()]
    yield '// The attributes of each type of toxics: what they count, and their least and greatest number.\n'
    yield f'const ATTRIBUTES: [(&str, &str, &str, u64, u64); {len(rows)}] = [\n{"".join(rows)}];\n'


TABLES = {'crates/hints/src/attributes.rt': rattle_table, 'clients/go/tables.go': go_tables, 'clients/rust/src/refusal.rs': rust_kinds}


def code_faults():
    """Writes the tables into the code; with --check those that are not what would be written."""
    for path, table in TABLES.items():
        text, expected = read(TREE / path), ''.join(table())
        found = CODE_MADE.search(text)
        if found is None: yield f'{path} has no made part'
        elif '--check' not in sys.argv: (TREE / path).write_text(text[:found.start(3)] + expected + text[found.end(3):], encoding='utf-8')
        elif found[3] != expected: yield path + difference(found[3], expected)


# ---- pages

PARTS = {'crates': made_crates, 'limits': made_limits, 'calls': made_calls}


def part(name):
    return '\n' + ''.join(PARTS[name]()).strip('\n') + '\n\n'


def difference(now, expected):
    """The first lines that a part has and was not to have, and that it was to have."""
    now, expected = now.split('\n'), expected.split('\n')
    gone, new = [line for line in now if line not in expected][:3], [line for line in expected if line not in now][:3]
    return ''.join(f'\n  found:    {line}' for line in gone) + ''.join(f'\n  expected: {line}' for line in new)


def main():
    faults, shown = [], set()
    for path in sorted((TREE / 'docs').rglob('*.md')):
        text = read(path)
        for made in MADE.finditer(text):
            shown.add(made[2])
            expected = part(made[2])
            if made[3] != expected: faults.append(f'{path.relative_to(TREE)}, {made[2]}' + difference(made[3], expected))
        expected = MADE.sub(lambda made: made[1] + part(made[2]) + made[4], text)
        if '--check' not in sys.argv and expected != text: path.write_text(expected, encoding='utf-8')
    for path, expected in ((DUMP, made_dump()), (TREE / constants.TABLE, constants.table(TREE))):
        if '--check' not in sys.argv: path.write_text(expected, encoding='utf-8')
        elif read(path) != expected: faults.append(f'{path.relative_to(TREE)} is not as it would be made')
    faults += code_faults()
    if '--check' not in sys.argv: return
    missing = set(PARTS) - shown
    faults += [f'no page has the part: {name}' for name in sorted(missing)]
    for fault in faults: print('failed:', fault)
    print(f'{len(shown | missing) + 2 + len(TABLES) - len(faults)} passed, {len(faults)} failed')
    sys.exit(1 if faults else 0)


main()
