"""Prints the events of output captures, as the helper for Python reads them: dump.py CAPTURE.. (the same in Go and Rust: dump.go, dump.rs). For each
capture a line `== CAPTURE`; for each event CONNECTION TIME DIRECTION and the bytes in hexadecimal, or the end; then for each direction `CONNECTION
delivered DIRECTION END TIME:LENGTH..`; or the refusal."""
import sys
from toxicap import delivered, events


def dump(capture):
    for number, found in enumerate(events(capture)):
        for time, direction, what in found: print(number, time, direction, what if isinstance(what, str) else what.hex())
    for number, lines in enumerate(delivered(capture)):
        for direction, line in zip(('up', 'down'), lines):
            end = f'{line.end[1]}+{line.end[0]}' if line.end else 'open'
            print(f'{number} delivered {direction} {end}', ' '.join(f'{time}:{len(what)}' for time, what in line.chunks))


for path in sys.argv[1:]:
    print('==', path)
    with open(path, 'rb') as file:
        try: dump(file.read())
        except ValueError as why: print(why)
