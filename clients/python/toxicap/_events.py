"""What each side of a connection received, and when, read from an output capture of toxicap.

An output capture has its segments in order, without repeats and gaps, so nothing is reassembled. A capture that toxicap did not write (a recording,
pcapng, an output that was cut or put in another order) is refused: a ValueError tells why, and the number of the
record, from 0. Checksums are not looked at."""
import functools, struct
from typing import Callable, Dict, List, NamedTuple, NoReturn, Optional, Tuple, Union

from ._outputs import Output

TICKS = {b'\xd4\xc3\xb2\xa1': 1000, b'\x4d\x3c\xb2\xa1': 1}  # magic number: nanoseconds of a tick
HEADER = bytes.fromhex('020004000000000000000000ffff000001000000')  # what follows it in each output capture
HEADERS = struct.Struct('>5H2x4s4s2s2s2I2BH2xH')  # IPv4 and TCP, checksums passed over
FIN, SYN, RST, PSH, ACK = 1, 2, 4, 8, 16
SPACE = 1 << 32  # how many sequence numbers there are

Written = Union[bytes, Output]  # an output capture
Awaited = Tuple[bytes, bytes, bytes, int]  # what the next record of a side has: VLAN, sender, receiver, sequence number
Event = Tuple[int, str, Union[bytes, str]]  # nanoseconds since the opening; 'up' or 'down'; a chunk of bytes, or how the direction ends


class Record(NamedTuple):
    time: int
    vlan: bytes
    sender: bytes
    receiver: bytes
    seq: int
    ack: int
    flags: int
    payload: bytes


class Connection:
    """A connection while it is read. Lists of two have the client's before the server's."""

    def __init__(self, syn: Record, seqs: List[int]) -> None:
        self.opened, self.vlan, self.peers = syn.time, syn.vlan, (syn.sender, syn.receiver)
        self.next, self.ended = seqs, [False, False]
        self.last, self.before = syn.time, list(seqs)  # when its last record came, and what was next before that instant
        self.begun: List[List[bytes]] = [[], []]
        self.events: List[Event] = []

    def awaits(self, side: int) -> Awaited:
        return self.vlan, self.peers[side], self.peers[1 - side], self.next[side]

    def goes_on(self, side: int, record: Record) -> bool:
        """Whether a record as a side awaits it may be of this connection: it acknowledges all that had come before it."""
        return record.ack == (self.next if self.last < record.time else self.before)[1 - side]

    def take(self, side: int, record: Record) -> bool:
        """Takes a record of this connection; False where toxicap writes none such. The pieces of a chunk are joined up to its PSH."""
        length = len(record.payload)
        what: Union[None, bytes, str] = {FIN | ACK: 'fin', RST | ACK: 'reset'}.get(record.flags)
        if what and not length and not self.begun[side]:
            self.ended[side], length = True, 1
        elif record.flags == PSH | ACK and 0 < length <= 1460 or record.flags == ACK and length == 1460:
            self.begun[side].append(record.payload)
            if record.flags & PSH: what, self.begun[side] = b''.join(self.begun[side]), []
        else: return False
        if what: self.events.append((record.time - self.opened, ('up', 'down')[side], what))
        if self.last < record.time: self.last, self.before = record.time, list(self.next)
        self.next[side] = (self.next[side] + length) % SPACE
        return True


def records(capture: Written) -> List[Record]:
    """The records of an output capture, each checked by itself."""
    if isinstance(capture, Output): capture = capture.capture
    if not isinstance(capture, (bytes, bytearray, memoryview)):
        raise TypeError(f'this {type(capture).__name__} is no capture: give an Output, or the bytes of one')
    tick, place = TICKS.get(bytes(capture[:4])), 24
    found: List[Record] = []
    if not tick or capture[4:24] != HEADER: raise ValueError('no output capture of toxicap: it has another file header')
    while place < len(capture):
        number, frame = len(found), b''
        if place + 16 <= len(capture):
            seconds, ticks, held, length = struct.unpack_from('<4I', capture, place)
            frame = capture[place + 16:place + 16 + held]
        link = 18 if frame[12:14] == b'\x81\x00' else 14
        if len(frame) < link + 40 or not len(frame) == held == length: refuse(number, 'it is cut, or no TCP segment')
        version, total, name, offset, hops, *ends, seq, ack, size, flags, window, urgent = HEADERS.unpack_from(frame, link)
        fixed = frame[link - 2:link], version, total, name, offset, hops, size, window, urgent
        if fixed != (b'\x08\x00', 0x4500, held - link, 0, 0x4000, 0x4006, 0x50, 0xffff, 0): refuse(number, 'its headers are another\'s')
        time = seconds * 10**9 + ticks * tick
        if ticks * tick >= 10**9 or found and time < found[-1].time: refuse(number, 'its time is none, or falls back')
        found.append(Record(time, frame[12:link - 2], ends[0] + ends[2], ends[1] + ends[3], seq, ack, flags, frame[link + 40:]))
        place += 16 + held
    return found


def refuse(number: int, why: str) -> NoReturn:
    raise ValueError(f'no output capture of toxicap: record {number}: {why}')


def opening(found: List[Record], number: int) -> Tuple[Connection, int]:
    """The connection that the record of this number begins, by a SYN, and how many records its opening has."""
    syn = found[number]
    time, vlan, client, server, seq, *_ = syn
    first = (seq + 1) % SPACE
    answer = found[number + 1:number + 2]
    if answer == [(time, vlan, server, client, 0, first, RST | ACK, b'')]:
        connection = Connection(syn, [0, 0])
        connection.ended, connection.events = [True, True], [(0, 'up', 'refused'), (0, 'down', 'refused')]
        return connection, 2
    theirs = answer[0].seq if answer else 0
    second = (theirs + 1) % SPACE
    if found[number + 1:number + 3] != [(time, vlan, server, client, theirs, first, SYN | ACK, b''),
                                        (time, vlan, client, server, first, second, ACK, b'')]: refuse(number, 'no opening follows its SYN')
    return Connection(syn, [first, second]), 3


def events(capture: Written) -> List[List[Event]]:
    """The events of each connection of an output, or of its capture: a list for each connection, in the order of the report's lines.

    An event is (time, direction, what); events stand in order of time. The time is a whole number of nanoseconds since the opening, also where the
    capture counts microseconds. The direction is 'up' for what the client sent, 'down' for what the server sent. What comes is a chunk of bytes;
    'fin', which ends its direction (a FIN or a close in the report); 'reset'; or 'refused', in both directions, where the proxy is disabled."""
    return [connection.events for connection in connections_of(capture)]


def connections_of(capture: Written) -> List[Connection]:
    """The connections of an output capture, read to their ends."""
    found, number = records(capture), 0
    connections: List[Connection] = []
    awaited: Dict[Awaited, List[Tuple[Connection, int]]] = {}  # the sides that have not ended

    def wait(connection: Connection, side: int) -> None:
        if not connection.ended[side]: awaited.setdefault(connection.awaits(side), []).append((connection, side))

    while number < len(found):
        record, length = found[number], 1
        if record.flags == SYN and not record.payload:
            connection, length = opening(found, number)
            connections.append(connection)
            for side in (0, 1): wait(connection, side)
        else:
            what = record.vlan, record.sender, record.receiver, record.seq
            able = [(c, side) for c, side in awaited.get(what, ()) if c.goes_on(side, record)]
            if not able: refuse(number, '0 connections go on with it')
            connection, side = able[-1]  # of several, which have the same numbers and got equally far, the one that got there last
            awaited[what].remove((connection, side))
            if not awaited[what]: del awaited[what]
            if not connection.take(side, record): refuse(number, 'toxicap writes no such segment')
            wait(connection, side)
        number += length
    if any(c.begun != [[], []] for c in connections): refuse(number, 'the end is missing')
    return connections


class Line(NamedTuple):
    """What one direction of a connection delivered: its chunks (time, bytes), and its end (time, 'fin', 'reset' or 'refused'), None without one."""
    chunks: List[Tuple[int, bytes]]
    end: Optional[Tuple[int, str]]

    @property
    def data(self) -> bytes:
        """All its bytes, those of each chunk after those of the one before."""
        return b''.join(what for _, what in self.chunks)


class Lines(Tuple[Line, Line]):
    """What a connection delivered: the pair (up, down), what the client sent and what the server sent."""

    number: int
    """Its number in the report."""
    server: str
    """ADDRESS:PORT of the side that did not open it."""

    def __new__(cls, up: Line, down: Line, number: int, server: str, untouched: Optional[Callable[[], 'List[Lines]']] = None) -> 'Lines':
        made = super().__new__(cls, (up, down))  # type: ignore[arg-type]
        made.number, made.server, made._untouched = number, server, untouched
        return made

    _untouched: Optional[Callable[[], 'List[Lines]']]

    def recorded(self) -> Tuple[Line, Line]:
        """The lines without toxics. If those are not known they are this pair, in which an answer that a toxic delays comes after later requests."""
        if self._untouched is None: return self
        lines = self._untouched()
        if not all(map(in_order, self, lines[self.number])): raise ValueError(f'connection {self.number} {SWAPPED}')
        return lines[self.number]


# What no toxic does: none makes a byte come earlier, or adds one.
SWAPPED = 'has more or earlier bytes in the first output: the output under the scenario has to come first, the untouched one second'
OTHERS = 'the outputs are not of one capture'


def in_order(line: Line, recorded: Line) -> bool:
    """Whether a line has no byte earlier than the recorded one, and none more; a ValueError if its bytes are others."""
    sent, whole = line.data, recorded.data
    if not whole.startswith(sent) and not sent.startswith(whole): raise ValueError(OTHERS)
    if len(sent) > len(whole): return False
    place, known, came, chunks = 0, 0, 0, iter(recorded.chunks)
    for at, what in line.chunks:
        place += len(what)
        while known < place:
            came, more = next(chunks)
            known += len(more)
        if at < came: return False
    return True


def knows_recording(capture: Written) -> bool: return isinstance(capture, Output) and capture.recording is not None


def delivered(capture: Written, untouched: Optional[Written] = None) -> List[Lines]:
    """The same as two lines for each connection, (up, down); times are those of `events`.

    untouched  the output of the same capture under `[]`, or its capture: it tells what had been sent before each answer. An Output of `rehearse` knows
               its own (`Output.untouched`), which is rehearsed when something asks for it"""
    def line(found: List[Event], direction: str) -> Line:
        came = [(time, what) for time, way, what in found if way == direction]
        return Line([(time, what) for time, what in came if isinstance(what, bytes)],
                    next(((time, what) for time, what in came if isinstance(what, str)), None))

    found = connections_of(capture)

    @functools.lru_cache(maxsize=None)
    def recorded() -> List[Lines]:
        lines = delivered(capture.untouched.capture if untouched is None and isinstance(capture, Output) else untouched or b'')
        if len(lines) != len(found): raise ValueError(OTHERS)
        return lines

    knows = untouched is not None or knows_recording(capture)
    return [Lines(line(each.events, 'up'), line(each.events, 'down'), number, address(each.peers[1]), recorded if knows else None)
            for number, each in enumerate(found)]


def address(peer: bytes) -> str: return f'{".".join(map(str, peer[:4]))}:{int.from_bytes(peer[4:], "big")}'
