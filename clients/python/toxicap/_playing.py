"""One client of a player, while it is served."""
import bisect, selectors, socket, struct, time
from typing import Iterator, NamedTuple, Optional, Union
from ._exchange import difference
from ._steps import Session, Step

FLOOD = 1 << 20  # how many bytes more than the recorded client's a player takes
APART = 0.001  # seconds that lie between two chunks if twice that lies between them in the output, however late the player is


class Pace(NamedTuple):
    """How a player keeps time."""
    factor: float  # what times are multiplied by
    pauses: bool  # whether the recorded server's pauses are kept
    gap: float  # the least seconds between two chunks

    def added(self, step: Step) -> float:
        """The seconds from what a step waits for to the step."""
        return (step.delay + step.pause * self.pauses) * self.factor / 10**9

    def apart(self, distance: float) -> float:
        """The least seconds between two chunks that are due at this distance."""
        return max(self.gap, APART if distance >= 2 * APART else 0)


class Served:
    """A client that is served. `awaits` is the instant when it goes on, or what the client has to do first, in words; None after the end."""

    def __init__(self, number: int, session: Session, pace: Pace, client: socket.socket) -> None:
        client.setblocking(False)
        client.setsockopt(socket.IPPROTO_TCP, socket.TCP_NODELAY, 1)
        self.number, self.session, self.pace, self.client = number, session, pace, client
        self.received = bytearray()
        self.heard, self.counts = [time.monotonic()], [0]  # instants, and how many bytes of the client there were then
        self.closed: Optional[float] = None  # when the client closed
        self.differs: Optional[str] = None  # the first place at which it sent another byte than the recorded client
        self.full = False  # whether the socket takes no byte for now
        self.mask = 0  # what the selector looks for
        self.course = self._course()
        self.awaits: Union[float, str, None] = 0.0

    def go_on(self) -> None:
        """Does what is due, up to what is to be awaited."""
        try: self.awaits = next(self.course, None)
        except OSError: self.awaits = None  # the client has gone

    def _course(self) -> Iterator[Union[float, str]]:
        """Does the steps; each value is what has to be awaited first."""
        wrote = due = 0.0
        for step in self.session.steps:
            while len(self.received) < step.need or step.closed and self.closed is None:
                if self.closed is not None: return
                yield f'the client sent {len(self.received)} of {step.need} bytes' + ' and did not close' * step.closed
            before, due = due, self._since(step) + self.pace.added(step)
            at = max(due, wrote + self.pace.apart(due - before)) if isinstance(step.what, bytes) else due
            while time.monotonic() < at: yield at
            if isinstance(step.what, bytes):
                yield from self._write(step.what)
                wrote = time.monotonic()
            elif step.what == 'fin': self.client.shutdown(socket.SHUT_WR)
            else:
                self.client.setsockopt(socket.SOL_SOCKET, socket.SO_LINGER, struct.pack('ii', 1, 0))
                return
        while self.closed is None: yield 'the client did not close'

    def _since(self, step: Step) -> float:
        """When the client had done what a step waits for."""
        since = self.heard[bisect.bisect_left(self.counts, step.need)]
        return max(since, self.closed) if step.closed and self.closed is not None else since

    def _write(self, chunk: bytes) -> Iterator[str]:
        left = memoryview(chunk)
        while left:
            try: left = left[self.client.send(left):]
            except BlockingIOError:
                self.full = True
                yield f'the client left {len(left)} bytes'
                self.full = False

    def read(self, times: int) -> None:
        """Takes what the client has sent, by at most `times` reads, and that it closed."""
        try:
            while times and self.closed is None and not self.floods:
                self._take(self.client.recv(1 << 16))
                times -= 1
        except BlockingIOError: pass
        except OSError: self.course = iter(())  # the client has gone

    def _take(self, more: bytes) -> None:
        known, now = len(self.received), time.monotonic()
        if not more: self.closed = now
        self.received += more
        self.heard.append(now)
        self.counts.append(len(self.received))
        self.differs = self.differs or difference('client', known, more, self.session.sent)

    @property
    def floods(self) -> Optional[str]:
        """That the client sends without end, in words."""
        more = len(self.received) - len(self.session.sent)
        return f'the client sent {more} bytes more than the recorded one' if more > FLOOD else None

    def watch(self, ready: selectors.BaseSelector) -> None:
        """Has a selector look for what the client may do next; closes at the end."""
        mask = 0 if self.awaits is None else selectors.EVENT_READ * (self.closed is None) | selectors.EVENT_WRITE * self.full
        if mask != self.mask:
            if self.mask: ready.unregister(self.client)
            if mask: ready.register(self.client, mask)
            self.mask = mask
        if self.awaits is None: self.client.close()
