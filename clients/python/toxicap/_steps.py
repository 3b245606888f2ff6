"""What comes to one side of a connection, step by step, and what each step waits for."""
import bisect, itertools
from typing import List, Literal, NamedTuple, Sequence, Tuple, Union
from ._events import Line, Lines

NEVER = 1 << 64  # later than all nanoseconds of a capture
Side = Literal['client', 'server']
SIDES: Tuple[Side, Side] = 'server', 'client'  # the side that the line of this number comes to

Connection = Union[Lines, Tuple[Line, Line]]  # one of delivered(capture): (up, down)
Choice = Union[int, Literal['with data'], Sequence[int], None]  # of connections: a number, 'with data', numbers, or all


class Step(NamedTuple):
    need: int  # how many bytes the recorded side had sent before it
    closed: bool  # whether that side had closed before it
    pause: int  # nanoseconds from the last of these to the recorded peer's answer
    delay: int  # nanoseconds that the toxics added
    what: Union[bytes, str]  # a chunk of bytes, 'fin', 'reset' or 'refused'


class Session(NamedTuple):
    """What comes to a side of a connection, in order, and the bytes that the recorded side sent."""
    steps: List[Step]
    sent: bytes

    @property
    def refused(self) -> bool: return [step.what for step in self.steps] == ['refused']


def session(connection: Connection, side: Side = 'client') -> Session:
    """What comes to a side of a connection; a ValueError if what is known of its recording is of another one. Without a recording nothing waits for a
    close: it may have been recorded after an answer that is late."""
    place, recorded = SIDES.index(side), connection.recorded() if isinstance(connection, Lines) else connection
    sent = Line(recorded[1 - place].chunks, None) if recorded is connection else recorded[1 - place]
    return Session(steps(connection[place], sent, recorded[place]), sent.data)


def chosen(found: List[Lines], connection: Choice) -> List[Lines]:
    """Connections by a number, by several, `with data` of the server, or all; a ValueError that names those that are there."""
    if connection is None: return found
    if connection == 'with data': return [lines for lines in found if lines.recorded()[1].chunks]
    if isinstance(connection, str): raise ValueError(f'connection {connection!r}: a number, numbers, "with data" or None is expected')
    for number in [connection] if isinstance(connection, int) else connection:
        if not 0 <= number < len(found):
            known = [f'{lines.number} to {lines.server} ({len(lines[1].data)} bytes came)' for lines in found[:9]] + ['..'] * (len(found) > 9)
            raise ValueError(f'there is no connection {number}: there {"is" if len(found) == 1 else "are"} {", ".join(known) or "none"}')
    return [found[number] for number in ([connection] if isinstance(connection, int) else connection)]


def steps(down: Line, up: Line, recorded: Line) -> List[Step]:
    """What comes by a line `down` whose recorded one is `recorded`, in order, when what was recorded the other way is `up`. A chunk stands for the
    recorded one that has its last byte, an end for the first byte that no longer comes or for the recorded end. An end that a toxic made earlier than
    that stands for what was recorded last before it, of either side."""
    borders = list(itertools.accumulate(len(what) for _, what in recorded.chunks))
    answers = [at for at, _ in recorded.chunks] + [recorded.end[0] if recorded.end else NEVER]
    asked = [at for at, _ in up.chunks]
    counts = [0, *itertools.accumulate(len(what) for _, what in up.chunks)]

    def step(recorded_at: int, at: int, what: Union[bytes, str]) -> Step:
        known = bisect.bisect_right(asked, recorded_at)
        closed = up.end is not None and up.end[1] == 'fin' and up.end[0] < recorded_at
        last = up.end[0] if up.end and closed else asked[known - 1] if known else 0
        return Step(counts[known], closed, recorded_at - last, at - recorded_at, what)

    played, place = [], 0
    for at, what in down.chunks:
        place += len(what)
        played.append(step(answers[bisect.bisect_left(borders, place)], at, what))
    if down.end:
        at, how = down.end
        recorded_at = answers[bisect.bisect_right(borders, place)]
        if recorded_at > at: recorded_at = max(when for when in [0, *answers, *asked] if when <= at)
        played.append(step(recorded_at, at, how))
    return played
