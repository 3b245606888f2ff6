#!/usr/bin/env python3
"""The lines of reports, made again of what tools/report makes of them, on standard input: JSON lines, or with the argument csv the CSV, of which
the connections' lines are made, each with its scenario before it."""
import csv, json, sys


def direction(side):
    end = side['end'] + ('' if side['at'] in (None, '') else f"+{side['at']}")
    return f"{side['delivered']}/{side['recorded']}/{side['lost']} {end} max {side['max']}"


def connection(c, up, down):
    vlan = '' if c['vlan'] in (None, '') else f" vlan {c['vlan']}"
    proxy = '-' if c['proxy'] in (None, '') else c['proxy']
    return f"{c['connection']} {c['client']} > {c['server']}{vlan} proxy {proxy} up {direction(up)} down {direction(down)}"


if sys.argv[1:] == ['csv']:
    for row in csv.DictReader(sys.stdin):
        sides = [{name[len(side):]: value for name, value in row.items() if name.startswith(side)} for side in ('up_', 'down_')]
        print(f"{row['scenario']}: {connection(row, *sides)}")
else:
    scenario = None
    for line in sys.stdin:
        value = json.loads(line)
        kind = value.pop('line')
        value.pop('file', None)
        if kind == 'scenario': scenario = value['scenario']
        elif value.pop('scenario') != scenario: print('another scenario:', end=' ')
        print(connection(value, value['up'], value['down']) if kind == 'connection' else ' '.join(f'{name} {number}' for name, number in value.items()))
