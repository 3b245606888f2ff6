#!/usr/bin/env python3
"""The form of the pages: bytes of docs in all, lines of README, one sentence a source line, words of a sentence and of a cell.

    tests/tree/pages.py [--list]

A span of code, a link's text and a number are a word each. Lists that `tests/tree/made.py` makes are held to the bytes alone. With `--list` each fault is
printed with its place; a page may have none. The last line is `N passed, M failed`."""
import pathlib
import re
import sys

TREE = pathlib.Path(__file__).resolve().parents[2]
BYTES, README_LINES, WORDS, CELL_WORDS = 150_000, 120, 25, 12
LINKS = re.compile(r'!?\[((?:[^\[\]])*)\]\([^()\s]*\)')
SPANS = re.compile(r'(?<!`)(`+)(?!`).*?(?<!`)\1(?!`)')


def plain(line):
    """A line with each span of code and each link as one word."""
    return LINKS.sub(lambda link: re.sub(r'\s+', '-', link[1]), SPANS.sub('CODE', line))


def words(text):
    return [word for word in text.split() if re.search(r'\w', word)]


def faults_in(page):
    """What is wrong with a page, each with the number of its line."""
    text = re.sub(r'<!-- made: .*?<!-- end -->', lambda made: '\n' * made[0].count('\n'), page.read_text(encoding='utf-8'), flags=re.S)
    fence = False
    for number, line in enumerate(text.split('\n'), 1):
        if re.match(r'\s*(```|~~~)', line):
            fence = not fence
        elif fence or not line.strip() or line.startswith(('#', '<')):
            continue
        elif line.startswith('|'):
            for cell in re.split(r'(?<!\\)\|', plain(line))[1:-1]:
                if len(words(cell)) > CELL_WORDS: yield number, f'a cell of {len(words(cell))} words'
        else:
            parts = re.split(r'(?<=[.!?])["*)]*\s+(?=[A-Z"*\[(])', re.sub(r'^\s*(?:[-*+]|\d+\.)\s+', '', plain(line)).replace('.. ', ' '))
            if len(parts) > 1 and not re.match(r'\*\*.*\*\*$', parts[0]): yield number, f'{len(parts)} sentences'
            for part in parts:
                if len(words(part)) > WORDS: yield number, f'a sentence of {len(words(part))} words'


def main():
    pages = [TREE / 'README.md', *sorted((TREE / 'docs').rglob('*.md'))]
    told = []
    for page in pages:
        faults = list(faults_in(page))
        told.append(not faults)
        if faults: print(f'failed: {page.relative_to(TREE)}: {len(faults)} faults, the first in line {faults[0][0]}: {faults[0][1]}')
        if '--list' in sys.argv:
            for number, fault in faults: print(f'  {page.relative_to(TREE)}:{number}: {fault}')
    size, lines = sum(page.stat().st_size for page in pages[1:]), pages[0].read_text(encoding='utf-8').count('\n')
    told += [size <= BYTES, lines <= README_LINES]
    if size > BYTES: print(f'failed: docs have {size} bytes, and at most {BYTES} are allowed')
    if lines > README_LINES: print(f'failed: README.md has {lines} lines, and at most {README_LINES} are allowed')
    print(f'{sum(told)} passed, {len(told) - sum(told)} failed')
    return 0 if all(told) else 1


if __name__ == '__main__':
    sys.exit(main())
