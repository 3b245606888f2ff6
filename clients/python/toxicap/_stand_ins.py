"""What a Dialer puts in place of functions and classes of the standard library."""
import select
import socket
import sys
import threading
import time
from typing import Any, Callable, Dict, List, Optional, Sequence, Tuple

from . import _exchange
from ._dialer import Dialer, Dialled
from ._exchange import Clock
from ._sockets import REAL, Socket

StandIn = Tuple[Any, str, Any]  # a module, a name in it, and what stands there
TLS = "a Dialer has no TLS: recorded bytes are no handshake. Test the client without it, such as by http in place of https"
FLAGS = getattr(socket, "SOCK_NONBLOCK", 0) | getattr(socket, "SOCK_CLOEXEC", 0)


def all_of(dialer: Dialer) -> List[StandIn]:
    """All that a dialer stands in for."""
    found: List[StandIn] = [
        (_exchange, "shared", dialer.clock),
        (socket, "socket", socket_of(dialer)),
        (socket, "create_connection", create_connection_of(dialer)),
        (socket, "getaddrinfo", getaddrinfo_of(dialer)),
        (select, "select", select_of(dialer.clock, select.select)),
        (select, "poll", poll_of(dialer.clock, select.poll)),
        *times_of(dialer.clock),
    ]
    return found + (asyncio_of(dialer) if "asyncio" in sys.modules else [])


def times_of(clock: Clock) -> List[StandIn]:
    """The time of this thread, which is the clock's; other threads keep that of the system."""
    ours, real, sleep = threading.get_ident(), time.monotonic, time.sleep
    begun = real() - clock.now

    def monotonic() -> float:
        return begun + clock.now if threading.get_ident() == ours else real()

    def sleep_of(seconds: float) -> None:
        (clock.sleep if threading.get_ident() == ours else sleep)(seconds)

    return [(time, "monotonic", monotonic), (time, "sleep", sleep_of)]


def socket_of(dialer: Dialer) -> Any:
    """A class for socket.socket, whose TCP sockets are the dialer's; all others are the system's."""

    class Kind(type):
        def __call__(cls, family: int = -1, type: int = -1, proto: int = -1, fileno: Optional[int] = None, **more: Any) -> Any:
            if cls is not made:
                return super().__call__(family, type, proto, fileno, **more)
            is_tcp = family in (-1, socket.AF_INET, socket.AF_INET6) and (type == -1 or type & ~FLAGS == socket.SOCK_STREAM)
            return Dialled(dialer) if is_tcp and fileno is None else REAL(family, type, proto, fileno)

        def __instancecheck__(cls, each: Any) -> bool:
            return isinstance(each, REAL) if cls is made else super().__instancecheck__(each)

    made = Kind("socket", (REAL,), {})
    return made


def create_connection_of(dialer: Dialer) -> Callable[..., Socket]:
    def create_connection(address: Any, timeout: Any = None, *_: Any, **__: Any) -> Socket:
        """A socket of the dialer's next connection."""
        made = Dialled(dialer, timeout)
        made.connect(address)
        return made

    return create_connection


def getaddrinfo_of(dialer: Dialer) -> Callable[..., List[Any]]:
    def getaddrinfo(host: Any, port: Any, family: int = 0, *_: Any, **__: Any) -> List[Any]:
        """One address of TCP, as the dialer resolves a name."""
        name = host.decode() if isinstance(host, bytes) else host or "127.0.0.1"
        number = socket.getservbyname(port) if isinstance(port, str) and not port.isdigit() else int(port or 0)
        return [(socket.AF_INET, socket.SOCK_STREAM, socket.IPPROTO_TCP, "", (dialer.resolve(name), number))]

    return getaddrinfo


def wait(clock: Clock, sockets: Sequence[Socket], timeout: Optional[float]) -> None:
    """Moves the clock on until one of these sockets has something to read, or the timeout passes."""
    exchanges = [each._exchange for each in sockets]
    due = min((due for due in (each.due(each.next()) for each in exchanges) if due is not None), default=None)
    limit = due if timeout is None else clock.nanoseconds + round(timeout * 10**9)
    for each in exchanges:
        if limit is None or timeout and each.is_short():
            raise each.never()
    if limit is not None:
        clock.reach(limit if due is None else min(due, limit))


def select_of(clock: Clock, real: Callable[..., Any]) -> Callable[..., Any]:
    def ready(reads: Sequence[Any], writes: Sequence[Any]) -> Tuple[List[Any], List[Any]]:
        return [each for each in reads if isinstance(each, Socket) and each._is_ready()], [each for each in writes if isinstance(each, Socket)]

    def select(reads: Sequence[Any], writes: Sequence[Any], excepts: Sequence[Any], timeout: Optional[float] = None) -> Any:
        """The sockets that are ready: those of dialers by the clock, with others as they are at once."""
        ours = [each for each in reads if isinstance(each, Socket)]
        others = [[each for each in given if not isinstance(each, Socket)] for given in (reads, writes, excepts)]
        if not ours and not any(isinstance(each, Socket) for each in writes):
            return real(reads, writes, excepts, timeout)
        found = real(*others, 0) if any(others) else ([], [], [])
        if not any(map(any, (found, ready(reads, writes)))) and timeout != 0:
            wait(clock, ours, timeout)
        return tuple([*mine, *theirs] for mine, theirs in zip((*ready(reads, writes), []), found))

    return select


def poll_of(clock: Clock, real: Callable[[], Any]) -> Callable[[], Any]:
    class Poll:
        """What select.poll gives, in which sockets of dialers stand for their descriptors."""

        def __init__(self) -> None:
            self.others = real()
            self.ours: Dict[Socket, int] = {}

        def register(self, each: Any, mask: int = select.POLLIN | select.POLLPRI | select.POLLOUT) -> None:
            if isinstance(each, Socket):
                self.ours[each] = mask
            else:
                self.others.register(each, mask)

        def modify(self, each: Any, mask: int) -> None:
            self.register(each, mask) if each in self.ours else self.others.modify(each, mask)

        def unregister(self, each: Any) -> None:
            self.ours.pop(each) if each in self.ours else self.others.unregister(each)

        def ready(self) -> List[Tuple[Any, int]]:
            masks = {each: mask & (select.POLLIN * each._is_ready() | select.POLLOUT) for each, mask in self.ours.items()}
            return [(each, mask) for each, mask in masks.items() if mask]

        def poll(self, timeout: Optional[float] = None) -> List[Tuple[Any, int]]:
            if not self.ours:
                return list(self.others.poll(timeout))
            found = self.others.poll(0)
            if not found and not self.ready() and timeout != 0:
                wait(clock, list(self.ours), None if timeout is None or timeout < 0 else timeout / 1000)
            return [*self.ready(), *found]

    return Poll


def asyncio_of(dialer: Dialer) -> List[StandIn]:
    import asyncio

    from . import _streams

    async def open_connection(host: Any = None, port: Any = None, *, limit: int = 2**16, ssl: Any = None, **_: Any) -> Tuple[Any, Any]:
        """A reader and a writer of the dialer's next connection."""
        if ssl:
            raise RuntimeError(TLS)
        loop = _streams.running()
        reader, writer = _streams.opened(dialer.dial(host, port), loop, limit)
        dialer.opened.append(writer)
        return reader, writer

    async def create_connection(
        loop: _streams.Loop, factory: Callable[[], asyncio.Protocol], host: Any = None, port: Any = None, *, ssl: Any = None, **_: Any
    ) -> Tuple[Any, Any]:
        """A transport and a protocol of the dialer's next connection."""
        if ssl:
            raise RuntimeError(TLS)
        exchange, protocol = dialer.dial(host, port), factory()
        dialer.opened.append(_streams.Transport(exchange, loop, protocol))
        return dialer.opened[-1], protocol

    def new_event_loop() -> Any:
        return _streams.Loop(dialer.clock)

    return [
        (asyncio, "open_connection", open_connection),
        (_streams.Loop, "create_connection", create_connection),
        (asyncio, "new_event_loop", new_event_loop),
        (asyncio.events, "new_event_loop", new_event_loop),
    ]
