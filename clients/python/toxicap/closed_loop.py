"""The closed loop: the recording that a client and a server who wait for one another would have made under a scenario, and its rehearsal.

In an output of `rehearse` each packet still comes at its recorded time, although the answer before it came late. Here each packet of a connection
comes as long after what its side had received, and sent, as it did in the recording. What its side had received are the bytes of the other side
that had come before it in the file, and a FIN as one byte more; they come when the rehearsal under the scenario delivers them. So:

- What waits for bytes that never come is never sent, nor is anything of its side after it. After a close, a reset or a refusal has come only the
  server's first packet is sent, and what follows a reset that was sent. The first SYN is always sent.
- A side's packets between opening and first reset stay together if they have one recorded time, and others stay apart by a tick at least. So a line
  has the recorded chunks, later or fewer, and each chunk draws what it draws in the open loop.
- What was recorded after the first reset of a connection comes after it.
- Connections wait for nothing of one another, with one exception: on ports that are used again the later one opens as long after the last packet of
  the one before as in the recording, if that is later. They open in the recorded order, so they keep their numbers.
- Records of no connection keep their times. Under `[]`, which delays nothing, the recording is the one that came in, byte for byte.

It is found in rounds. A round rehearses, and moves each packet by what it waits for; once no packet moves, all of them are right. What is right up to
a time stays so, and every second round it is a packet more at least, so rounds end: usually after fewer than five. The first round has all connections,
each later one only those that moved. Pauses of the recording are kept, also those of Nagle's algorithm; a client that times out or tries again does
what it did in the recording."""
import bisect
import itertools
import re
import struct
from typing import Callable, Dict, Iterator, List, NamedTuple, Optional, Sequence, Tuple

from . import _in_process
from ._events import Line, delivered
from ._in_process import rehearse
from ._inputs import Capture, Hosts, Scenario, capture_bytes, host_lines, scenario_text
from ._outputs import Output
from ._strict import check

SYN, RST = 2, 4
NEVER = 1 << 80  # later than all times of a capture
MAGICS = {"d4c3b2a1": ("<", 10**6), "a1b2c3d4": (">", 10**6), "4d3cb2a1": ("<", 10**9), "a1b23c4d": (">", 10**9)}  # byte order, ticks of a second
ENDS = re.compile(rb" up \S+ ([a-z]+)\+?(\d*) max \d+ down \S+ ([a-z]+)\+?(\d*) max \d+$", re.MULTILINE)  # of a connection's line in a report

Rehearse = Callable[[bytes, Sequence[bytes], bytes, int], List[Output]]  # as in_process.rehearse: capture, scenarios, hosts, seed
Pair = Tuple[bytes, bytes, int]  # two peers in order, and their VLAN


class Loop(NamedTuple):
    """What closed_loop gives."""

    recording: bytes
    """The capture that would have been recorded, in the form of the one that came in."""
    output: Output
    """Its rehearsal under the scenario."""
    untouched: Output
    """Its rehearsal under `[]`, as the second scenario: with the output it is what a player takes."""
    rounds: int
    """How many rounds it took."""


class Unsettled(RuntimeError):
    """After the allowed number of rounds a packet still moved."""


class Heard(NamedTuple):
    """What one direction brought: how many bytes up to each chunk's end, with a FIN as one more, and when (ticks since the opening)."""

    counts: Sequence[int] = ()
    times: Sequence[int] = ()

    def time_of(self, count: int) -> int:
        """When this number of bytes had come."""
        place = bisect.bisect_left(self.counts, count)
        return self.times[place] if place < len(self.times) else NEVER


class Packet(NamedTuple):
    """A packet of a connection and what it waits for: packets by the numbers of their records. If there is none such, the opening stands for it."""

    number: int
    side: int  # 0: the client's
    own: int  # the packet before it of its side
    apart: int  # 0 if that one has the same recorded time, else 1: how many ticks it is later at least
    reset: int  # the connection's first reset before it
    heard: int  # how many bytes of the other side had come
    source: int  # what brought the last of them
    pause: int  # ticks from the last of these to it


class Recording:
    """The records of a capture that toxicap takes. A record's time is the greatest stamp from the first record to it."""

    def __init__(self, capture: bytes) -> None:
        if capture[:1] in b"0123456789abcdefABCDEF":  # a dump
            capture = bytes.fromhex(capture.decode("ascii"))
        self.order, self.second = MAGICS[capture[:4].hex()]
        self.tick, self.latest = 10**9 // self.second, self.second << 32
        self.head, place = capture[:24], 24
        self.records: List[bytes] = []
        self.stamps: List[int] = []
        while place + 16 <= len(capture):
            seconds, ticks, length = struct.unpack_from(self.order + "3I", capture, place)
            if place + 16 + length > len(capture):
                break
            self.stamps.append(min(seconds * self.second + ticks, self.latest))
            self.records.append(capture[place : place + 16 + length])
            place += 16 + length
        self.rest = capture[place:]
        self.times: List[int] = list(itertools.accumulate(self.stamps, max))

    def segments(self) -> Iterator[Tuple[int, Pair, bytes, int]]:
        """Of each segment the number of its record, its pair, its sender and its flags."""
        for number, record in enumerate(self.records):
            segment = segment_of(record[16:])
            if segment is not None:
                yield (number, *segment)

    def at(self, times: Sequence[int]) -> bytes:
        """The capture with other times, in order of time. A record that keeps its time keeps its stamp, unless another time would follow from it."""
        parts, reached = [self.head], 0
        for time, number in sorted((time, number) for number, time in enumerate(times) if time != NEVER):
            record = self.records[number]
            if time != self.times[number] or time != max(self.stamps[number], reached):
                seconds = min(time // self.second, (1 << 32) - 1)
                record = struct.pack(self.order + "2I", seconds, time - seconds * self.second) + record[8:]
            parts.append(record)
            reached = time
        return b"".join(parts) + self.rest


class Session:
    """A connection, with the time that its packets have in the recording and what each of them waits for."""

    def __init__(self, begin: int, client: bytes, before: "Optional[Session]", brought: Sequence[Heard], recorded: Sequence[int]) -> None:
        self.begin, self.client, self.before, self.recorded = begin, client, before, recorded
        self.sources = [Heard(line.counts, [begin + place for place in line.times]) for line in brought]
        self.last, self.reset = [begin, begin], NEVER
        self.packets: List[Packet] = []
        self.heard: Sequence[Heard] = (Heard(), Heard())  # what the last rehearsal brought
        self.late = [0, 0]  # how long the last byte of each direction took
        self.cut = NEVER  # when a close, a reset or a refusal came, in ticks since the opening

    def add(self, number: int, side: int, flags: int) -> None:
        """Adds its next packet of the file."""
        own, reset, recorded = self.last[side], min(self.reset, number), self.recorded
        if reset == number:
            reset = self.begin
            if flags & RST:
                self.reset = number
        peer = self.sources[1 - side]
        apart, came = int(recorded[number] > recorded[own]), bisect.bisect_left(peer.times, number)
        waits = came > 0 and (apart or own == self.begin)
        heard, source = (peer.counts[came - 1], peer.times[came - 1]) if waits else (0, self.begin)
        pause = recorded[number] - recorded[max(own, reset, source)]
        self.packets.append(Packet(number, side, own, apart, reset, heard, source, pause))
        self.last[side] = number

    def hear(self, heard: Sequence[Heard], cut: int, times: Sequence[int]) -> None:
        """Takes what a rehearsal with these times brought, and when it was cut."""
        self.heard, self.cut = heard, cut
        for side, (line, sent) in enumerate(zip(heard, self.sources)):
            place = bisect.bisect_left(sent.counts, line.counts[-1]) if line.times else len(sent.times)
            if place < len(sent.times):  # else nothing came, or bytes past a FIN that was not sent
                self.late[side] = times[self.begin] + line.times[-1] - times[sent.times[place]]

    def opening(self, times: Sequence[int]) -> int:
        """When it opens."""
        begin, before = self.recorded[self.begin], self.before
        if before is None:
            return begin
        sent = (times[number] for number in (before.begin, *(packet.number for packet in before.packets)))
        return max(begin, max(time for time in sent if time != NEVER) + begin - self.recorded[max(before.last)])

    def move(self, times: List[int], opening: int, latest: int) -> bool:
        """Gives its packets new times, by what the rehearsal with the old ones delivered; whether one has changed."""
        new = {self.begin: opening}
        for packet in self.packets:
            new[packet.number] = self.time_of(packet, times, new, latest)
        changed = any(times[number] != time for number, time in new.items())
        for number, time in new.items():
            times[number] = time
        return changed

    def time_of(self, packet: Packet, times: Sequence[int], new: Dict[int, int], latest: int) -> int:
        """When a packet is sent. A byte comes as much later than in the rehearsal as what brings it is sent later; if the rehearsal did not have that,
        the byte takes as long as the last one that came."""
        opening, peer, came = new[self.begin], 1 - packet.side, 0
        if packet.heard and times[packet.source] == NEVER:
            came = new[packet.source] + self.late[peer]
        elif packet.heard:
            came = times[self.begin] + self.heard[peer].time_of(packet.heard) + new[packet.source] - times[packet.source]
        time = max(max(new[packet.own], new[packet.reset], came) + packet.pause, new[packet.own] + packet.apart)
        is_answer = packet.side == 1 and packet.own == self.begin  # to the opening
        if packet.number <= self.reset and not is_answer:
            latest = min(latest, opening + self.cut)
        return time if time <= latest else NEVER


def segment_of(frame: bytes) -> Optional[Tuple[Pair, bytes, int]]:
    """Pair, sender and flags of a frame, if toxicap takes it as a segment."""
    link = 18 if frame[12:14] == b"\x81\x00" else 14
    packet = frame[link:]
    if len(packet) < 20 or frame[link - 2 : link] != b"\x08\x00" or packet[0] >> 4 != 4:
        return None
    start, total, fragment = (packet[0] & 15) * 4, *struct.unpack_from(">H2xH", packet, 2)
    if start < 20 or not start + 20 <= total <= len(packet) or fragment & 0x3FFF or packet[9] != 6:
        return None
    sender, receiver = (packet[at : at + 4] + packet[start + port : start + port + 2] for at, port in ((12, 0), (16, 2)))
    if not 20 <= (packet[start + 12] >> 4) * 4 <= total - start or sender == receiver:
        return None
    vlan = struct.unpack_from(">H", frame, 14)[0] & 0xFFF if link == 18 else 0
    return (min(sender, receiver), max(sender, receiver), vlan), sender, packet[start + 13]


def heard_in(output: Output, tick: int) -> List[Tuple[List[Heard], int]]:
    """Of each connection of an output what both directions brought, and when a close, a reset or a refusal came."""

    def heard(line: Line, how: bytes, at: bytes) -> Heard:
        counts, times = list(itertools.accumulate(len(chunk) for _, chunk in line.chunks)), [time // tick for time, _ in line.chunks]
        return Heard([*counts, (counts or [0])[-1] + 1], [*times, int(at)]) if how == b"fin" else Heard(counts, times)

    found = []
    for (up, down), ends in zip(delivered(output.capture), ENDS.findall(output.report)):
        cuts = [int(at or 0) for how, at in (ends[:2], ends[2:]) if how in (b"close", b"reset", b"refused")]
        found.append(([heard(up, *ends[:2]), heard(down, *ends[2:])], min(cuts, default=NEVER)))
    return found


def sessions_of(recording: Recording, rehearse: Rehearse) -> List[Session]:
    """The connections of a recording, as toxicap numbers them. It rehearses the records with their numbers for times: so each connection opens at the
    number of its first record, and a byte comes at the number of the record that brings it."""
    [numbered] = rehearse(recording.at(range(len(recording.records))), [b"[]"], b"", 0)
    written = Recording(numbered.capture)
    begins = [written.times[number] for number, _, _, flags in written.segments() if flags == SYN]
    brought = dict(zip(begins, heard_in(numbered, recording.tick)))
    found: List[Session] = []
    last: Dict[Pair, Session] = {}
    for number, pair, sender, flags in recording.segments():
        if number in brought:
            found.append(Session(number, sender, last.get(pair), brought[number][0], recording.times))
            last[pair] = found[-1]
        elif pair in last:
            last[pair].add(number, int(sender != last[pair].client), flags)
    return found


def closed_loop(
    capture: Capture, scenario: Scenario, hosts: Hosts = b"", seed: int = 0, turns: int = 10_000, rehearse: Rehearse = rehearse, strict: bool = True
) -> Loop:
    """The closed loop of a capture under one scenario; capture, scenario, hosts and seed are those of `rehearse`, and so are its errors. Equal
    arguments give equal bytes.

    turns     the most rounds that it may take; Unsettled is raised if that is not enough
    rehearse  what rehearses: in_process.rehearse, or a function with its first four parameters
    strict    whether ValueError is raised if the scenario can do nothing (what `explain` finds), with a warning of each toxic without effect; only for
              in_process.rehearse"""
    file, text, lines = capture_bytes(capture), scenario_text("scenario", scenario), host_lines(hosts)
    if strict and rehearse is _in_process.rehearse:
        check(file, [text], lines, seed, warns=2)
    [output] = rehearse(file, [text], lines, seed)
    recording = Recording(file)
    sessions = sessions_of(recording, rehearse)
    times, moved = list(recording.times), set(range(len(sessions)))
    for rounds in range(1, turns + 1):
        heard, opening, before, moved = heard_in(output, recording.tick), 0, moved, set()
        for number, session in enumerate(sessions):
            if number in before and number < len(heard):
                session.hear(*heard[number], times)
            opening = min(max(opening, session.opening(times)), recording.latest)
            if (number in before or times[session.begin] != opening) and session.move(times, opening, recording.latest):
                moved.add(number)
        if not moved:
            whole = recording.at(times)
            output, untouched = rehearse(whole, [text, b"[]"], lines, seed)
            return Loop(whole, output, untouched, rounds)
        kept = [NEVER] * len(times)  # an opening for each connection, so that all keep their numbers
        for number, session in enumerate(sessions):
            kept[session.begin] = times[session.begin]
            for packet in session.packets:
                if number in moved or packet.own == session.begin:
                    kept[packet.number] = times[packet.number]
        [output] = rehearse(recording.at(kept), [text], lines, seed)
    raise Unsettled(f"a packet still moves after {turns} rounds: allow more by turns")
