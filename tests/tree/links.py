#!/usr/bin/env python3
"""Checks that each link of the Markdown files leads somewhere:

    tests/tree/links.py [FOLDER]

A relative link has to name a file or folder, in the letters of its name, below FOLDER (the top of this repository where none is named; an unpacked
release will do), and a part after # has to be the anchor of a heading there, by GitHub's rule, or of a tag `<a id="..">`. Links to other sites are
not followed. In a clone the files are those that git knows or would take. Each link is a comparison, and so is each row of ANCHORS below."""
import os
import pathlib
import re
import subprocess
import sys
import urllib.parse

TOP = pathlib.Path(sys.argv[1] if len(sys.argv) > 1 else pathlib.Path(__file__).resolve().parents[2]).resolve()

# headings of one page, in order, and their anchors on GitHub
ANCHORS = [
    ('Time and memory', 'time-and-memory'),
    ('What is proved, and how to see it', 'what-is-proved-and-how-to-see-it'),
    ('`library_example`, `part_tests`', 'library_example-part_tests'),
    ('2. Replace values by as many x', '2-replace-values-by-as-many-x'),
    ('A [link](README.md#a) *in* a **heading**', 'a-link-in-a-heading'),
    ('Time and memory', 'time-and-memory-1'),
    ('Größe: 2^30 Bytes', 'größe-230-bytes'),
    ('"Any" captures - two  blanks', 'any-captures---two--blanks'),
]


def prose(text):
    """The lines of a page that are no code, each with its number."""
    fence = None
    for number, line in enumerate(text.split('\n'), 1):
        mark = re.match(r' {0,3}(`{3,}|~{3,})', line)
        if fence:
            if mark and mark[1].startswith(fence) and not line.strip().strip(fence[0]): fence = None
        elif mark: fence = mark[1]
        else: yield number, line


def anchors_of(headings):
    """The anchors of headings: their text in small letters, without what is no letter, digit, `_`, `-` or blank, with `-` for each blank; the second
    one of a text has `-1` at its end, and so on."""
    seen, anchors = {}, []
    for heading in headings:
        plain = re.sub(r'!?\[([^\]]*)\]\([^)]*\)', r'\1', heading)
        plain = re.sub(r'(\*\*|\*)(\S.*?)\1', r'\2', plain)
        anchor = re.sub(r'[^\w\- ]', '', plain.strip().lower()).replace(' ', '-')
        number = seen.get(anchor, 0)
        seen[anchor] = number + 1
        anchors.append(f'{anchor}-{number}' if number else anchor)
    return anchors


def anchors_in(file):
    lines = [line for _, line in prose(file.read_text(encoding='utf-8'))]
    headings = [re.sub(r'\s#+$', '', line.lstrip(' #')) for line in lines if re.match(r' {0,3}#{1,6}\s', line)]
    return set(anchors_of(headings)) | {tag for line in lines for tag in re.findall(r'<a (?:id|name)="([^"]+)"', line)}


def paragraphs(text):
    """The paragraphs of a page that are no code, each with the number of its first line; a row of a table, a heading and an item are one each."""
    block, first, last = [], 0, 0
    for number, line in prose(text):
        if block and (number != last + 1 or not line.strip() or re.match(r'\s*(\||#|[-*+] |\d+\. )', line)):
            yield first, '\n'.join(block)
            block = []
        first, last = first if block else number, number
        block.append(line)
    if block: yield first, '\n'.join(block)


def links_in(file):
    """The links of a page, each with the number of its line; none of code."""
    for first, text in paragraphs(file.read_text(encoding='utf-8')):
        text = re.sub(r'(?<!`)(`+)(?!`).*?(?<!`)\1(?!`)', lambda code: re.sub(r'[^\n]', 'x', code[0]), text, flags=re.S)
        for link in re.finditer(r'\]\(<?([^()\s<>]+)>?(?:\s+"[^"]*")?\)|^ {0,3}\[[^\]]+\]:\s+(\S+)', text, re.M):
            target = link[1] or link[2]
            if not re.match(r'[a-z][a-z0-9+.-]*:', target): yield first + text.count('\n', 0, link.start()), target


def pages():
    """The Markdown files below TOP."""
    if (TOP / '.git').exists():
        words = ['git', '-C', str(TOP), 'ls-files', '-z', '--cached', '--others', '--exclude-standard', '--', '*.md']
        names = subprocess.run(words, check=True, capture_output=True, text=True).stdout.split('\0')
        return sorted(TOP / name for name in names if name and (TOP / name).exists())
    return sorted(TOP.rglob('*.md'))


def is_there(path):
    """Whether a path below TOP is there, in the letters that it is written in."""
    if TOP != path and TOP not in path.parents: return False
    return path == TOP or path.exists() and path.name in {each.name for each in path.parent.iterdir()} and is_there(path.parent)


def fault_of(page, link, anchors):
    """What is wrong with a link of a page, or None."""
    name, _, anchor = urllib.parse.unquote(link).partition('#')
    target = pathlib.Path(os.path.normpath(page.parent / name)) if name else page
    if not is_there(target): return 'there is no such file'
    if not anchor: return None
    if target.suffix != '.md': return 'the file has no anchors'
    if target not in anchors: anchors[target] = anchors_in(target)
    return None if anchor in anchors[target] else 'there is no such heading'


def main():
    passed, faults, anchors = 0, [], {}
    for (heading, expected), found in zip(ANCHORS, anchors_of([heading for heading, _ in ANCHORS])):
        if found == expected: passed += 1
        else: faults.append(f'the heading {heading!r}: {found}, and not {expected}')
    for page in pages():
        for number, link in links_in(page):
            fault = fault_of(page, link, anchors)
            if fault is None: passed += 1
            else: faults.append(f'{page.relative_to(TOP)}:{number}: {link}: {fault}')
    for fault in faults: print(f'failed: {fault}')
    print(f'{passed} passed, {len(faults)} failed')
    return 1 if faults else 0


if __name__ == '__main__':
    sys.exit(main())
