"""asyncio's streams over what an output capture delivered, in an event loop whose time is a clock's: wait_for, timeouts and sleep end at their time,
and nothing waits.

    async def main():
        reader, writer = streams(delivered(output)[0])
        ...

    run(main())"""
import asyncio
import errno
import selectors
from typing import Any, Callable, Coroutine, List, Optional, Tuple, TypeVar

from . import _exchange
from ._exchange import JOINED, Clock, Exchange, fault
from ._sockets import Socket
from ._steps import Connection, Side

Result = TypeVar("Result")


class Jumps(selectors.DefaultSelector):
    """Moves the clock of a loop on to when the loop wants to be called, or something comes, in place of a wait."""

    def __init__(self, loop: "Loop") -> None:
        super().__init__()
        self.loop = loop

    def select(self, timeout: Optional[float] = None) -> List[Tuple[selectors.SelectorKey, int]]:
        """What is ready. If the loop is idle, what has come is handed on first, and then the clock moves. Only while threads of the loop work it waits
        for them, as long as any loop. What waits for nothing is ended."""
        is_idle = timeout is None or timeout > 0
        if is_idle and self.loop.hand_on():
            return super().select(0)
        due = min((due for due in (each.due() for each in self.loop.transports) if due is not None), default=None) if is_idle else None
        away = None if due is None else max(0, due - self.loop.clock.nanoseconds) / 10**9
        wait = away if timeout is None else timeout if away is None else min(timeout, away)
        ready = super().select(wait if self.loop.threads else 0)
        if wait is None and not ready:
            return ready if self.loop.end_all() else super().select()
        if wait is not None and not ready:
            self.jump(due if due is not None and wait == away else None, wait)
        return ready

    def jump(self, due: Optional[int], wait: float) -> None:
        """Moves on to a time, or by one."""
        clock, until = self.loop.clock, self.loop.time() + wait
        if due is not None:
            clock.reach(due)
            return
        clock.sleep(wait)
        while wait and clock.now + 1e-9 <= until:  # after 97 days a float has no nanoseconds, and the loop would call nothing at this time
            clock.reach(clock.nanoseconds + 1 + (clock.nanoseconds >> 53))


class Loop(asyncio.SelectorEventLoop):
    """An event loop of asyncio whose time is a clock's: it moves on at once to the next timer, and to what `streams` receive. Only while a thread of
    `run_in_executor` or `asyncio.to_thread` works, waits are real. Sockets of the system and other processes are not waited for."""

    clock: Clock
    """The time that has passed."""

    def __init__(self, clock: Optional[Clock] = None) -> None:
        self.clock, self.threads = clock or _exchange.shared or Clock(), 0
        self.transports: List[Transport] = []  # those that are open
        super().__init__(Jumps(self))

    def time(self) -> float:
        """The clock's time in seconds."""
        return self.clock.now

    def run_in_executor(self, executor: Any, func: Callable[..., Result], *args: Any) -> "asyncio.Future[Result]":
        """As any loop's."""
        future = super().run_in_executor(executor, func, *args)
        self.threads += 1
        future.add_done_callback(self._join)
        return future

    def _join(self, _: object) -> None:
        self.threads -= 1

    def hand_on(self) -> bool:
        """Hands on what has come to connections; whether there was something."""
        return any([each.receive() for each in self.transports[:]])

    def end_all(self) -> bool:
        """Ends the connections that somebody reads, and on which nothing comes any more; whether there are any."""
        still = [each for each in self.transports if each.is_reading()]
        for each in still:
            each.lose(each.exchange.never())
        return bool(still)


class Reader(asyncio.StreamReader):
    """asyncio's StreamReader, of which it is known how many read."""

    reading = 0
    exchange: Exchange


def counted(name: str) -> Callable[..., Any]:
    """A method of the reader that counts while it runs, and notes a timeout."""
    method = getattr(asyncio.StreamReader, name)

    async def read(self: Reader, *words: Any, **more: Any) -> Any:
        self.reading += 1
        try:
            return await method(self, *words, **more)
        except asyncio.CancelledError:
            self.exchange.has_failed = True
            raise
        finally:
            self.reading -= 1

    return read


for _name in "read", "readline", "readexactly", "readuntil":
    setattr(Reader, _name, counted(_name))


class Transport(asyncio.Transport):
    """Brings what comes to an exchange, and keeps what is written."""

    @property
    def sent(self) -> bytes:
        """What was written to it, until it was closed or lost."""
        return bytes(self.exchange.sent)

    def __init__(self, exchange: Exchange, loop: Loop, protocol: asyncio.Protocol, reader: Optional[Reader] = None) -> None:
        super().__init__(dict(zip(("sockname", "peername", "socket"), (*exchange.names, Socket._over(exchange)))))
        self.exchange, self.loop, self.protocol, self.reader = exchange, loop, protocol, reader
        self.closing = self.shut = self.at_end = self.paused = False
        loop.transports.append(self)
        protocol.connection_made(self)

    def is_reading(self) -> bool:
        """Whether somebody wants what comes; a protocol without a reader does, unless it paused."""
        return not self.paused and (self.reader is None or self.reader.reading > 0)

    def pause_reading(self) -> None:
        self.paused = True

    def resume_reading(self) -> None:
        self.paused = False

    def due(self) -> Optional[int]:
        """When something can be handed on, if that is known."""
        if self.exchange.joins or self.is_reading():
            return None if self.at_end else self.exchange.due(self.exchange.next())
        return self.exchange.end_due() if self.exchange.steps[-1:] and self.exchange.steps[-1].what == "reset" else None

    def receive(self) -> bool:
        """Hands on what has come: a chunk if somebody reads, or all of them if reads join them or a reset has come; whether there was something."""
        exchange, had = self.exchange, False
        has_reset, until = exchange.end() == "reset", exchange.clock.nanoseconds
        while not self.at_end and (exchange.joins or has_reset or self.is_reading() and not had):
            step = exchange.next()
            due = exchange.due(step)
            if step is None or due is None or due > until:
                break
            if not had and exchange.joins:
                until += JOINED
            had = True
            exchange.clock.reach(due)
            if isinstance(step.what, bytes):
                self.protocol.data_received(exchange.take(len(step.what)))
                continue
            self.at_end = True
            if step.what == "fin":
                self.protocol.eof_received()
            else:
                self.lose(fault(errno.ECONNRESET))
        if not had and self.is_reading() and exchange.is_short():
            self.lose(exchange.never())
            return True
        return had

    def lose(self, why: Optional[Exception]) -> None:
        """Ends the connection, by an error or without."""
        if not self.closing:
            self.closing = self.at_end = True
            self.loop.transports.remove(self)
            self.exchange.close()
            gave_up = self.reader is None and not self.exchange.has_come(self.exchange.next())  # of another protocol no read is known
            self.exchange.has_failed |= why is not None or gave_up
            self.loop.call_soon(self.protocol.connection_lost, why)

    def close(self) -> None:
        self.lose(None)

    def abort(self) -> None:
        self.lose(None)

    def is_closing(self) -> bool:
        return self.closing

    def write(self, data: Any) -> None:
        if self.shut:
            raise RuntimeError("Cannot call write() after write_eof()")
        if not self.closing:
            self.exchange.send(data)

    def write_eof(self) -> None:
        self.shut = True
        self.exchange.close()

    def can_write_eof(self) -> bool:
        return True

    def get_write_buffer_size(self) -> int:
        return 0

    def set_write_buffer_limits(self, high: Optional[int] = None, low: Optional[int] = None) -> None:
        """Nothing: writes take no time."""


class Writer(asyncio.StreamWriter):
    """asyncio's StreamWriter, which keeps what was written."""

    def __init__(self, transport: Transport, reader: Reader, loop: Loop) -> None:
        super().__init__(transport, transport.protocol, reader, loop)
        self._exchange = transport.exchange

    @property
    def sent(self) -> bytes:
        """What was written to it, until it was closed or lost."""
        return bytes(self._exchange.sent)


def streams(
    connection: Connection, side: Side = "client", limit: int = 2**16, waits: bool = True, joins: bool = False, same_requests: bool = False
) -> Tuple[asyncio.StreamReader, Writer]:
    """What asyncio.open_connection gives, for one of delivered(output): it is opened now, by the clock of the loop, which has to be a Loop.

    The reader receives each chunk, FIN and reset at its time; without `joins` it receives the next chunk when somebody reads, and has read the one
    before. A read that would wait forever, when nothing else is to come at all, raises StillOpen or Unasked. A connection that was refused raises
    ConnectionRefusedError. `limit` is as for asyncio.open_connection, and all else as for Socket."""
    loop = running()
    return opened(Exchange(connection, side, loop.clock, waits, joins, same_requests), loop, limit)


def running() -> Loop:
    """The loop that runs; RuntimeError if it has no clock."""
    loop = asyncio.get_running_loop()
    if not isinstance(loop, Loop):
        raise RuntimeError("streams: the running loop has no clock of its own: start the test by toxicap.run(main()), by asyncio.run in a Dialer, or in a toxicap.Loop")
    return loop


def opened(exchange: Exchange, loop: Loop, limit: int) -> Tuple[Reader, Writer]:
    reader = Reader(limit=limit, loop=loop)
    reader.exchange = exchange
    protocol = asyncio.StreamReaderProtocol(reader, loop=loop)
    return reader, Writer(Transport(exchange, loop, protocol, reader), reader, loop)


def run(main: Coroutine[Any, Any, Result], clock: Optional[Clock] = None) -> Result:
    """What asyncio.run does, in a Loop with this clock, or with a new one: the result of `main`."""
    loop = Loop(clock)
    try:
        asyncio.set_event_loop(loop)
        return loop.run_until_complete(main)
    finally:
        try:
            left = asyncio.all_tasks(loop)
            for task in left:
                task.cancel()
            if left:
                loop.run_until_complete(asyncio.gather(*left, return_exceptions=True))
            loop.run_until_complete(loop.shutdown_asyncgens())
        finally:
            asyncio.set_event_loop(None)
            loop.close()
