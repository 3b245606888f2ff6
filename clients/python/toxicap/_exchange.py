"""One side of a connection with a clock of its own: what comes to it, when, and what it has to send first."""
import bisect
import errno
import os
from typing import Optional, Tuple

from ._events import Line
from ._steps import SIDES, Connection, Side, Step, session

ADDRESSES = {"client": ("192.0.2.1", 49152), "server": ("192.0.2.2", 80)}  # what each socket says of itself: ones for documentation
FOREVER = "no byte and no end comes any more, and a client without a timeout waits forever: give it one (settimeout, asyncio.wait_for)"
UNASKED = (
    "before the next answer, and it reads: an answer waits for as much as was recorded. Record this client, send as much, or take waits=False; "
    "if an output was stored, delivered(output, untouched) tells what was recorded"
)
shared: "Optional[Clock]" = None  # the clock of the Dialer that stands in, which new loops of asyncio have
JOINED = 10**6  # nanoseconds in which a read that joins chunks still takes what comes


class StillOpen(RuntimeError):
    """A client without a timeout waits for a connection that stays open, on which nothing comes any more: it would wait forever. This is no OSError,
    so that no client takes it for a fault of the network."""


class Unasked(RuntimeError):
    """A client waits for an answer, but has sent less than the recorded one had before it: with a part of a request it would wait in vain, and
    without a timeout forever. This is no OSError either."""


class Clock:
    """A time that moves only when a client waits: for bytes, for a timeout, by `sleep`. It begins at 0, and never goes back."""

    nanoseconds: int
    """The time, exactly."""

    def __init__(self) -> None:
        self.nanoseconds = 0

    @property
    def now(self) -> float:
        """The time in seconds. It can stand for `time.monotonic` of the client: `lambda: clock.now`."""
        return self.nanoseconds / 10**9

    def reach(self, nanoseconds: int) -> None:
        """Moves on to a time, if that has not passed."""
        self.nanoseconds = max(self.nanoseconds, nanoseconds)

    def sleep(self, seconds: float) -> None:
        """Moves on by this time. It can stand for `time.sleep` of the client."""
        self.reach(self.nanoseconds + round(seconds * 10**9))


def fault(number: int) -> OSError:
    """The error of the system with this number, such as ConnectionResetError."""
    return OSError(number, os.strerror(number))


def difference(side: str, known: int, more: bytes, recorded: bytes) -> Optional[str]:
    """Where bytes that a side sends after its first `known` ones are not the recorded ones, in words."""
    expected = recorded[known : known + len(more)]
    if more == expected:
        return None
    place = next((place for place, pair in enumerate(zip(more, expected)) if pair[0] != pair[1]), len(expected))
    expected = recorded[known + place : known + place + 20]
    return f"the {side} sent {more[place : place + 20]!r} at byte {known + place}, and the recorded one {expected!r}"


class Exchange:
    """A connection that is opened now, as one side has it. Each chunk and end comes as long as in the output after what it waits for: after the last of
    as many bytes as the recorded side had sent before it, and after this side's close if that one had closed. Without `waits` all comes at the times
    of the output. A connection that was refused raises ConnectionRefusedError."""

    def __init__(self, connection: Connection, side: Side, clock: Clock, waits: bool = True, joins: bool = False, same_requests: bool = False) -> None:
        if side not in SIDES:
            raise ValueError(f"the side {side!r} is neither 'client' nor 'server'")
        if not isinstance(connection, tuple) or [isinstance(line, Line) for line in connection] != [True, True]:
            raise TypeError(f"connection is {type(connection).__name__}: it takes one of delivered(capture), a pair of Lines (up, down)")
        line = connection[SIDES.index(side)]
        if line.end and line.end[1] == "refused":
            raise fault(errno.ECONNREFUSED)
        self.side, self.clock, self.joins = side, clock, joins
        self.steps = [Step(0, False, 0, at, what) for at, what in line.chunks]
        if line.end:
            self.steps.append(Step(0, False, 0, *line.end))
        self.recorded: Optional[bytes] = None  # what has to be sent
        if waits or same_requests:
            known = session(connection, side)
            self.steps, self.recorded = known.steps if waits else self.steps, known.sent if same_requests else None
        self.is_cut = connection[0].end == connection[1].end is not None  # a toxic ended both directions
        self.place = self.offset = 0  # the step that comes next, and how many of its bytes were taken
        self.passed, self.reached = 0, clock.nanoseconds  # how many bytes had been sent when the last step was taken, and when it came
        self.sent = bytearray()
        self.counts, self.times = [0], [clock.nanoseconds]  # how many bytes were sent up to these times
        self.closed: Optional[int] = None  # when this side closed
        self.differs: Optional[str] = None  # the first place at which it sent another byte than the recorded side
        self.has_failed = False  # whether a read met a timeout, a reset, or one that would wait forever

    @property
    def names(self) -> Tuple[Tuple[str, int], Tuple[str, int]]:
        """The address of this side, and of its peer."""
        return ADDRESSES[self.side], ADDRESSES[SIDES[self.side == "server"]]

    def send(self, data: bytes) -> None:
        """Keeps bytes that this side sends. AssertionError is raised if they have to be the recorded ones, and are not."""
        if self.recorded is not None and not self.differs:
            self.differs = difference(self.side, len(self.sent), data, self.recorded)
        self.sent += data
        self.counts.append(len(self.sent))
        self.times.append(self.clock.nanoseconds)
        if self.differs:
            raise AssertionError(self.differs)

    def close(self) -> None:
        """Ends what this side sends."""
        self.closed = self.clock.nanoseconds if self.closed is None else self.closed

    def next(self) -> Optional[Step]:
        """The next step, of which some bytes may have been taken. An end stays the next one."""
        return self.steps[self.place] if self.place < len(self.steps) else None

    def missing(self, step: Optional[Step]) -> Optional[str]:
        """What this side has to do before a step, in words; None if that comes without."""
        if step is None or len(self.sent) >= step.need and (self.closed is not None or not step.closed):
            return None
        return f"the {self.side} sent {len(self.sent)} of {step.need} bytes" + " and did not close" * step.closed

    def due(self, step: Optional[Step]) -> Optional[int]:
        """When the next step comes, or one after it; None if it waits for this side, or there is none."""
        if step is None or self.missing(step):
            return None
        since = self.times[bisect.bisect_left(self.counts, step.need)]
        if step.closed and self.closed is not None:
            since = max(since, self.closed)
        return max(self.reached, since + step.pause + step.delay)

    def has_come(self, step: Optional[Step]) -> bool:
        """Whether the next step is there, or one after it."""
        due = self.due(step)
        return due is not None and due <= self.clock.nanoseconds

    def end_due(self) -> Optional[int]:
        """When the peer's end comes, after all that is before it; None if it waits for this side, or there is none."""
        if not self.steps or isinstance(self.steps[-1].what, bytes):
            return None
        dues = [due for due in map(self.due, self.steps[self.place :]) if due is not None]
        return max(dues) if len(dues) == len(self.steps) - self.place else None

    def end(self) -> Optional[str]:
        """The peer's end, if it has come: also while bytes before it were not taken."""
        what = self.steps[-1].what if self.steps and self.has_come(self.steps[-1]) else None
        due = self.end_due() if isinstance(what, str) else None
        return what if isinstance(what, str) and due is not None and due <= self.clock.nanoseconds else None

    def is_short(self) -> bool:
        """Whether the next answer waits for the rest of what this side has begun to send."""
        step = self.next()
        if step is None or isinstance(step.what, str) or not self.missing(step):
            return False
        return len(self.sent) > self.passed or len(self.sent) >= step.need

    def never(self) -> RuntimeError:
        """What a wait that has no end raises."""
        self.has_failed = True
        step = self.next()
        text = self.missing(step)
        if text and step and isinstance(step.what, bytes):
            return Unasked(f"{text} {UNASKED}")
        return StillOpen(FOREVER + f"; before the recorded end {text}" if text else FOREVER)

    def take(self, size: int, keeps: bool = False) -> bytes:
        """The next bytes that have come, at most this number, of one chunk, or of all if reads join them. None are there at an end. With `keeps` they
        stay."""
        before, taken = (self.place, self.offset, self.passed, self.reached), bytearray()
        until = self.clock.nanoseconds
        while len(taken) < size:
            step = self.next()
            due = self.due(step)
            if step is None or due is None or isinstance(step.what, str) or due > until:
                break
            if not taken and self.joins:
                until += JOINED
            self.clock.reach(due)
            piece = step.what[self.offset : self.offset + size - len(taken)]
            taken += piece
            self.offset += len(piece)
            if self.offset == len(step.what):
                self.place, self.offset, self.passed, self.reached = self.place + 1, 0, len(self.sent), due
            if not self.joins:
                break
        if keeps:
            self.place, self.offset, self.passed, self.reached = before
        return bytes(taken)

    def left(self) -> int:
        """How many bytes were not taken."""
        return sum(len(step.what) for step in self.steps[self.place :] if isinstance(step.what, bytes)) - self.offset
