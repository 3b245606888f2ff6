"""What one scenario gives: the output capture, and the report as text and as data."""
import functools
import re
from typing import Any, List, NamedTuple, Optional, Sequence

NUMBER = r"(\d{1,20})"
CONNECTION = re.compile(rf"{NUMBER} (\S+) > (\S+)(?: vlan {NUMBER})? proxy (?:-|{NUMBER}) up (.+) down (.+)")
DIRECTION = re.compile(rf"{NUMBER}/{NUMBER}/{NUMBER} (\w+)(?:\+{NUMBER})? max {NUMBER}")


class Direction(NamedTuple):
    """What one direction of a connection delivered. Times are in the capture's unit: microseconds or nanoseconds."""

    delivered: int
    """How many bytes came to the other side."""
    recorded: int
    """How many bytes the recording has before the first gap or FIN."""
    lost: int
    """How many bytes stand after a gap or a FIN, and are not delivered."""
    end: str
    """How it ends: `open`, `fin`, `close`, `reset` or `refused`."""
    at: Optional[int]
    """When it ends, counted from the opening; None for `open` and `refused`."""
    max: int
    """The longest time that a delivered byte was held back."""


class Connection(NamedTuple):
    """One connection of a report."""

    connection: int
    """Its number, from 0."""
    client: str
    """ADDRESS:PORT of the side that opened it."""
    server: str
    """ADDRESS:PORT of the other side."""
    vlan: Optional[int]
    """The number of its VLAN; None without one."""
    proxy: Optional[int]
    """The number of the proxy in the scenario that it meets, from 0; None if it meets none."""
    up: Direction
    """What the client sent."""
    down: Direction
    """What the server sent."""


class Counts(NamedTuple):
    """How many records, connections and segments the capture has. The classes from `segment` to `sameends` add up to the records."""

    records: int
    rest: int
    """Bytes after the last whole record."""
    segment: int
    short: int
    notipv4: int
    badipv4: int
    fragment: int
    nottcp: int
    cut: int
    badtcp: int
    sameends: int
    connections: int
    unopened: int
    """Segments of sessions whose opening is not in the capture."""


class Report(NamedTuple):
    """A report as data, as `toxicap-report --form json` has it."""

    scenario: int
    """The number of the scenario in its call, from 0."""
    counts: Counts
    connections: List[Connection]


COUNTS = re.compile(" ".join(f"{name} {NUMBER}" for name in ("scenario", *Counts._fields)))


def parts(form: "re.Pattern[str]", text: str) -> Sequence[Any]:
    found = form.fullmatch(text)
    if found is None:
        raise ValueError(f"this is in no report of toxicap: {text[:100]!r}")
    return found.groups()


def number_or_none(digits: Optional[str]) -> Optional[int]:
    return None if digits is None else int(digits)


def direction_of(text: str) -> Direction:
    delivered, recorded, lost, end, at, longest = parts(DIRECTION, text)
    return Direction(int(delivered), int(recorded), int(lost), end, number_or_none(at), int(longest))


def connection_of(line: str) -> Connection:
    number, client, server, vlan, proxy, up, down = parts(CONNECTION, line)
    return Connection(int(number), client, server, number_or_none(vlan), number_or_none(proxy), direction_of(up), direction_of(down))


def parse_report(report: bytes) -> Report:
    """The report of one scenario as data. ValueError is raised if it is none, or torn."""
    lines = report.decode().splitlines()
    scenario, *counts = map(int, parts(COUNTS, " ".join(lines[:2])))
    parsed = Report(scenario, Counts(*counts), [connection_of(line) for line in lines[2:]])
    if len(parsed.connections) != parsed.counts.connections:
        raise ValueError(f"the report is torn: it has {len(parsed.connections)} of {parsed.counts.connections} connections")
    if not report.endswith(b"\n"):
        raise ValueError("the report is torn: its last line has no line feed")
    return parsed


class Files(NamedTuple):
    """What the program stores of one scenario."""

    capture: bytes
    """A classic pcap of what each side received."""
    report: bytes
    """UTF-8 text: a line of counts, a line of connections, and a line for each connection."""


class Output(Files):
    """What one scenario gives."""

    recording: Any = None
    """The capture that it is of, as it was given to `rehearse` (a path is whole); None if the output was made of stored files."""

    @property
    def parsed(self) -> Report:
        """The report as data. It is parsed at each use."""
        return parse_report(self.report)

    @functools.cached_property
    def untouched(self) -> "Output":
        """The output of the same capture under `[]`, rehearsed at the first use. ValueError is raised if the output was made of stored files."""
        from . import _in_process

        if self.recording is None:
            raise ValueError("this output was made of stored files, and does not know its capture: give the output under `[]` too")
        return _in_process.rehearse(self.recording, b"[]")[0]

    def _of(self, recording: Any) -> "Output":
        """The same, which knows its capture."""
        self.recording = recording
        return self
