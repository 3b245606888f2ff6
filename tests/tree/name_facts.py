"""Facts about names that the pages for developers tell: whether each is in the tree."""
import re

from compared import TREE, fact, text_of

PAGES = ('architecture', 'crates', 'proved', 'calls', 'evidence', 'contributing', 'limits')
STANDING_FOR_OTHERS = {'file', 'test', 'name', 'Name', 'NAME', 'WRONG', 'MODULE', 'FUNCTION', 'run_name', 'NewCause', 'CRATE'}
WITHOUT_EDIT = {'one_thread_does_all', 'always_out_of_memory', 'board_under_a_lock'}  # wrong bodies that cannot be an edit


def paths():
    """The files and folders of the tree, except what is built."""
    found = (path.relative_to(TREE) for path in TREE.rglob('*'))
    return {str(path) for path in found if not {'.git', 'out', '__pycache__'} & set(path.parts)}


def of_names():
    """Whether each name in backquotes is there: a path, a row of tests, and each word somewhere in the code, the tests or the tools."""
    there = paths()
    code = [path for path in there if re.match(r'crates|clients|tests|tools|examples|release|\.ci', path) and (TREE / path).is_file()]
    words, names, functions = set(re.findall(r'\w+', ' '.join(there))), {path.split('/')[-1] for path in there}, set()
    for path in set(code) - {f'tests/tree/{name}.py' for name in ('facts', 'toxic_facts', 'refusal_facts', 'name_facts', 'made', 'constants')}:
        text = (TREE / path).read_text(encoding='utf-8', errors='ignore')
        words |= set(re.findall(r'\w+', text))
        functions |= {(path.split('/')[-1], function) for function in re.findall(r'\bfn (\w+)', text)}

    def is_known(word):
        return word in words or word[-1] == '_' and any(each.startswith(word) for each in words)
    for page in PAGES:
        text = re.sub(r'```.*?```', '', text_of(f'docs/internals/{page}.md'), flags=re.S)
        missing = set()
        for name in set(re.findall(r'`([^`\s]+)`', text)):
            own = set(re.findall(r'\b[A-Za-z_]\w*', name)) - WITHOUT_EDIT
            if own & STANDING_FOR_OTHERS: continue
            missing |= {word for word in own if not is_known(word)}
            if re.fullmatch(r'[\w./-]+/[\w.-]+\.\w+', name) and not any(f'/{path}'.endswith(f'/{name}') for path in there): missing.add(name)
            if re.fullmatch(r'[a-z0-9]+(-[a-z0-9]+)+', name) and name not in names: missing.add(name)
            place = re.fullmatch(r'([a-z]\w*)::(\w+)', name)
            if place and (f'{place[1]}.rt', place[2]) not in functions: missing.add(name)
        fact(f'docs/internals/{page}.md: names that are nowhere in the tree', not missing, ', '.join(sorted(missing)))


def of_places():
    """Whether each definition and function that the page on architecture answers a question by is in the file that it names."""
    text = text_of('docs/internals/architecture.md')
    places = re.findall(r'`(\w+)` in `(\w+(?:\.rt)?)`(?: of `(\w+)`|, .*? of `(\w+)`)', text)
    fact('docs/internals/architecture.md: fifteen questions and more', len(places) >= 30, len(places))
    for name, file, *crates in places:
        crate = ''.join(crates)
        path = f'crates/{crate}/src/{file}' if file.endswith('.rt') else f'crates/{crate}/specs/{file}.antt'
        found = (TREE / path).is_file() and re.search(rf'^ *(?:.*pub .*?|.*fn ){name}\b', text_of(path), re.M)
        fact(f'docs/internals/architecture.md: {name} in {path}', found)
