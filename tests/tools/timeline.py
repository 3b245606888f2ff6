#!/usr/bin/env python3
"""Compares timelines with reports: timeline.py SVG REPORT CAPTURE, where the capture tells the report's unit. Both lanes of each connection have the
bytes and the end that the report's line has, the marks are as many, lines rise to the right, and each element is one line of well-formed XML. What
is at fault is printed."""
import decimal, re, sys, xml.etree.ElementTree as tree

SVG = '{http://www.w3.org/2000/svg}'
WAY = r' {} (\d+)/\d+/\d+ (\w+)(?:\+(\d+))? max'


def written(text):
    """A text of a lane, its milliseconds without zeros at the end."""
    return re.sub(r'[0-9.]+(?= ms)', lambda found: f'{decimal.Decimal(found[0]).normalize():f}', text)


def expected_of(line, ticks):
    """The heading and the texts of both lanes of a report's line. `ticks` is the number of ticks of a millisecond. A refused
    connection has a reset of the server at its opening."""
    yield re.sub(r' proxy .*', '', line)
    for side in 'up', 'down':
        delivered, end, at = re.search(WAY.format(side), line).groups()
        if end == 'refused' and side == 'down': end, at = 'reset', '0'
        kind = {'fin': 'FIN', 'close': 'FIN', 'reset': 'RST'}.get(end)
        yield written(f'{delivered} B, ' + (f'{kind} {decimal.Decimal(at) / ticks:f} ms' if kind else 'no end'))


def main(drawn, report, capture):
    text = open(drawn, encoding='utf-8').read()
    root = tree.fromstring(text)
    for line in text.splitlines():
        if not (line.startswith('<') and line.endswith('>')): print('  no element: ' + line)
    shown = [element.text for element in root.iter(SVG + 'text')]
    ticks = 10**6 if open(capture, 'rb').read(4) in (b'\x4d\x3c\xb2\xa1', b'\xa1\xb2\x3c\x4d') else 1000
    lines = [line for line in open(report).read().splitlines() if ' > ' in line]
    expected = [text for line in lines for text in expected_of(line, ticks)]
    found = [written(text) for text in shown if ' > ' in text or ' B, ' in text]
    for one, other in zip(expected, found):
        if one != other: print(f'  expected {one}, found {other}')
    if len(expected) != len(found): print(f'  expected {len(expected)} texts, found {len(found)}')
    ends = [text.split(', ')[1].split()[0] for text in expected if ' B, ' in text]
    paths = [path.get('d').endswith('Z') for path in root.iter(SVG + 'path')]
    marks = len(list(root.iter(SVG + 'circle'))), paths.count(False), paths.count(True)
    if marks != tuple(map(ends.count, ('FIN', 'RST', 'no'))): print(f'  {marks} dots, crosses and arrows for {ends}')
    for line in root.iter(SVG + 'polyline'):
        points = [tuple(map(float, point.split(','))) for point in line.get('points').split()]
        if any(x > later_x or y < later_y for (x, y), (later_x, later_y) in zip(points, points[1:])): print(f'  a line falls: {points}')


main(*sys.argv[1:])
