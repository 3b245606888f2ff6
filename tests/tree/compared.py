"""What facts are told with: the tree, comparisons that are counted, tables, and numbers in words and digits."""
import pathlib
import re
import sys

TREE = pathlib.Path(sys.argv[1] if sys.argv[1:] else pathlib.Path(__file__).resolve().parents[2])
told = []


def fact(what, holds, found=''):
    """Counts a comparison; where it does not hold, it is printed with what was found."""
    told.append(bool(holds))
    if not holds: print('failed:', what, f'({found})' if found != '' else '')


def text_of(path):
    return (TREE / path).read_text(encoding='utf-8')


def table(path):
    """The rows of a table of docs/, each as a dictionary."""
    head, *rows = [line.split('\t') for line in text_of(path).splitlines()]
    for row in rows: fact(f'{path}: {len(head)} cells in each row', len(row) == len(head), row)
    return [dict(zip(head, row)) for row in rows]


def between(text, start, end):
    at = text.find(start)
    return text[at + len(start):text.find(end, at + len(start))] if at >= 0 else ''


def constant(path, name):
    """A constant of a file of the crates that is one number."""
    found = re.search(rf'const {name}: (?:u\d+|usize) = ([\d_]+)(?: << (\d+))?;', text_of(f'crates/{path}'))
    return int(found[1].replace('_', '')) << int(found[2] or 0) if found else None


NUMBER = re.compile(r'10\^(\d+)|2\^(\d+)|(?<![\w.])(\d{1,3}(?:,\d{3})+|\d+(?:\.\d+)?)(?![\w^]|\.\d)')
NUMBER_WORDS = {'eight': 8, 'million': 10**6, 'seven': 7}


def numbers(text):
    """The numbers of a text, whichever way they are written."""
    found = [10**int(ten) if ten else 2**int(two) if two else float(plain.replace(',', '')) for ten, two, plain in NUMBER.findall(text)]
    return found + [number for word, number in NUMBER_WORDS.items() if re.search(rf'\b{word}\b', text)]


UNITS = {'milliseconds': 'milliseconds', 'ms': 'milliseconds', 'microseconds': 'microseconds', 'us': 'microseconds', 'µs': 'microseconds'}
UNITS.update({'KB': 'KB', 'bytes': 'bytes'})


def units(text):
    return [UNITS[word] for word in re.findall(r'[A-Za-zµ]+', text) if word in UNITS]


def rows_in(lines):
    """The rows of all Markdown tables in lines, each as its cells; a row whose first cell is empty goes on with the row before."""
    rows = []
    for line in lines:
        if not line.startswith('|') or set(line) <= set('|-: '): continue
        row = [cell.strip() for cell in re.split(r'(?<!\\)\|', line.strip())[1:-1]]
        if not row[0] and rows: rows[-1] += row[1:]
        else: rows.append(row)
    return rows


def rows_of(page):
    return rows_in(text_of(page).splitlines())
