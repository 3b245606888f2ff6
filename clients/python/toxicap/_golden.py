"""What differs between a golden file and what came: of a report both lines, of a capture connection, direction, chunk and time."""
import itertools
from typing import Iterator, List, Optional, Tuple

from . import Line, delivered

MOST = 10  # how many differences of a file are listed


def differences(ending: str, expected: bytes, found: bytes) -> List[str]:
    """The first differences of two files with this ending (`.txt` or `.pcap`), a line each, and how many more there are."""
    faults = list(itertools.islice((of_captures if ending == ".pcap" else of_reports)(expected, found), MOST + 1))
    return faults[:MOST] + [".."] * (len(faults) > MOST) or [from_byte(expected, found)]


def from_byte(expected: bytes, found: bytes) -> str:
    place = next((place for place, (one, other) in enumerate(zip(expected, found)) if one != other), min(len(expected), len(found)))
    return f"the bytes differ from byte {place} on: it has {len(expected)}, and {len(found)} came"


def of_reports(expected: bytes, found: bytes) -> Iterator[str]:
    before, after = (text.decode("utf-8", "replace").splitlines() for text in (expected, found))
    for number, (one, other) in enumerate(itertools.zip_longest(before, after), 1):
        if one != other:
            yield "\n".join([f"line {number}", *(sign + text for sign, text in (("-", one), ("+", other)) if text is not None)])
    if b"\r" in expected:
        yield "its lines end by CR LF: git keeps LF by a line `golden/** -text` of .gitattributes"


def of_captures(expected: bytes, found: bytes) -> Iterator[str]:
    """What differs in what each side received: of each direction of a connection the first difference."""
    after = delivered(found)
    try:
        before = delivered(expected)
    except ValueError as error:
        yield f"it is {error}; {from_byte(expected, found)}"
        return
    if len(before) != len(after):
        yield f"it has {len(before)} connections, and {len(after)} came"
    for number, pairs in enumerate(zip(before, after)):
        for way, one, other in zip(("up", "down"), *pairs):
            if one != other:
                yield f"connection {number}, {way}: {of_lines(one, other)}"


def of_lines(expected: Line, found: Line) -> str:
    for number, (one, other) in enumerate(itertools.zip_longest(expected.chunks, found.chunks)):
        if one and other and one[0] == other[0] and len(one[1]) == len(other[1]) and one != other:
            place = next(place for place, pair in enumerate(zip(one[1], other[1])) if pair[0] != pair[1])
            return f"chunk {number} at {milliseconds(one[0])}, {len(one[1])} bytes: others came from byte {place} on"
        if one != other:
            return f"chunk {number}: {chunk(one)}, and {chunk(other)} came"
    return f"the end: {end(expected.end)}, and {end(found.end)} came"


def chunk(found: Optional[Tuple[int, bytes]]) -> str:
    return f"{len(found[1])} bytes at {milliseconds(found[0])}" if found else "none"


def end(found: Optional[Tuple[int, str]]) -> str:
    return f"{found[1]} at {milliseconds(found[0])}" if found else "none"


def milliseconds(time: int) -> str:
    """Nanoseconds since the opening, in milliseconds: all digits that are not 0, at least three after the point."""
    text = f"{time // 10**6}.{time % 10**6:06}"
    return (text[:-3] if text.endswith("000") else text) + " ms"
