"""Connections of an output for a client that connects by itself."""
import contextlib
import errno
import socket
import threading
from types import TracebackType
from typing import TYPE_CHECKING, Any, List, Optional, Tuple, Type, Union

from ._events import Line, Lines, Written, delivered
from ._exchange import Clock, Exchange, fault
from ._inputs import Hosts, host_lines
from ._sockets import HELP, Socket
from ._steps import Choice, chosen

if TYPE_CHECKING:
    from ._streams import Transport, Writer

ANYWHERE = "192.0.2.2"  # what names are resolved to without `hosts`: an address for documentation


class Dialer:
    """Gives the connections of an output to a client that connects by itself, while its `with` lasts, with a clock of their own:

        with Dialer(output):
            fetch("http://any.example/hello.txt")

    It stands in for `socket.create_connection`, `socket.getaddrinfo`, `socket.socket` (TCP only), `select.select`, `select.poll` and
    `asyncio.open_connection`, and in this thread for `time.sleep` and `time.monotonic`; loops of `asyncio.run` have its clock, and its connections by
    `create_connection`. A client that has imported one of these by its name before keeps that.

    output         an Output, or the bytes of a stored one; then `untouched` is that under `[]`, which tells what was recorded. Or a list of `delivered`
    connection     a number of the report, several, "with data" for those on which the server sends, or None for all
    hosts          without it connections are given in turn, whatever the address. With it (as for `rehearse`, `{}` for no names) a dial of
                   10.77.0.3:6379, or of a name that has this address, gets the next connection to that server
    waits, joins, same_requests
                   as for Socket
    whole          whether the end of the `with` raises AssertionError if a connection was not dialled, or bytes of one were not read. A read that failed,
                   such as by a timeout, may leave some, but not if the client had sent less than recorded. In asyncio what has come counts as read

    A dial after the last connection is refused, as one that the scenario refuses. An exception of the body goes before what the end of the `with` raises,
    and gets its text as a note (from Python 3.11 on)."""

    clock: Clock
    """The time that has passed."""
    opened: "List[Union[Socket, Writer, Transport]]"
    """What was given, in order: `sent` of each is what the client wrote."""

    def __init__(
        self, output: Union[Written, List[Lines]], untouched: Optional[Written] = None, connection: Choice = None, *, hosts: Optional[Hosts] = None,
        waits: bool = True, joins: bool = False, same_requests: bool = False, whole: bool = True
    ) -> None:
        self.left = list(chosen(output if isinstance(output, list) else delivered(output, untouched), connection))
        self.names = None if hosts is None else dict(line.split("=", 1) for line in host_lines(hosts).decode().splitlines())
        self.clock, self.manner, self.whole = Clock(), (waits, joins, same_requests), whole
        self.opened = []
        self.exchanges: List[Tuple[Lines, Exchange]] = []
        self.lock, self.stack = threading.Lock(), contextlib.ExitStack()

    def __enter__(self) -> "Dialer":
        from . import _stand_ins

        for module, name, value in _stand_ins.all_of(self):
            self.stack.callback(setattr, module, name, getattr(module, name))
            setattr(module, name, value)
        return self

    def __exit__(self, kind: Optional[Type[BaseException]], failed: Optional[BaseException], trace: Optional[TracebackType]) -> None:
        self.stack.close()
        faults = self._faults() if self.whole else []
        text = "\n".join([*faults, "whole=False takes connections that are left"])
        if faults and failed is None:
            raise AssertionError(text)
        note = getattr(failed, "add_note", None)
        if faults and note:
            note(text)

    def _faults(self) -> List[str]:
        """What the client did not do, a line for each connection."""
        found = []
        for lines, exchange in self.exchanges:
            left, missing, place = exchange.left(), exchange.missing(exchange.next()), f"connection {lines.number} to {lines.server}"
            if exchange.differs:
                found.append(f"{place}: {exchange.differs}")
            elif left and (missing or not exchange.has_failed):
                found.append(f"{place}: {left} of {len(lines[1].data)} bytes were not read" + (f": {missing} before them" if missing else ""))
        return found + [f"connection {lines.number} to {lines.server} was not dialled" for lines in self.left]

    def dial(self, host: str, port: int) -> Exchange:
        """Opens the next connection, or the next one to an address."""
        server = None if self.names is None else f"{self.names.get(host, host)}:{port}"
        with self.lock:
            place = next((place for place, lines in enumerate(self.left) if server in (None, lines.server)), None)
            if place is None:
                left = ", ".join(dict.fromkeys(lines.server for lines in self.left)) or "none"
                raise ConnectionRefusedError(errno.ECONNREFUSED, f"the output has no further connection to {server or 'dial'} (left to dial: {left})")
            lines = self.left.pop(place)
            exchange = Exchange(lines, "client", self.clock, *self.manner)
            self.exchanges.append((lines, exchange))
            return exchange

    def resolve(self, host: str) -> str:
        """The address that a name has here."""
        known = (self.names or {}).get(host, host)
        with contextlib.suppress(OSError):
            return socket.inet_ntoa(socket.inet_aton(known))
        if self.names is not None:
            raise socket.gaierror(socket.EAI_NONAME, f"hosts of the Dialer has no name {host!r}: it has {', '.join(self.names) or 'none'}")
        return ANYWHERE


class Dialled(Socket):
    """A socket that is made while a Dialer stands in. It gets its connection by `connect`."""

    def __init__(self, dialer: Dialer, timeout: Any = None) -> None:
        self._prepare(dialer.clock, timeout)
        self._dialer, self._is_connected = dialer, False
        self._exchange = Exchange((Line([], None), Line([], None)), "client", dialer.clock)

    def connect(self, address: Any) -> None:
        """Opens the dialer's next connection, at once."""
        super()._check()
        if self._is_connected:
            raise RuntimeError(f"connect of a Socket of toxicap: {HELP['connect']}")
        self._exchange = self._dialer.dial(*address[:2])
        self._dialer.opened.append(self)
        self._is_connected = True

    def connect_ex(self, address: Any) -> int:
        """The same; the number of its error, 0 without."""
        try:
            self.connect(address)
        except OSError as error:
            return error.errno or errno.ECONNREFUSED
        return 0

    def bind(self, address: Any) -> None:
        """Nothing: the address of the client is of no account."""

    def _check(self) -> None:
        super()._check()
        if not self._is_connected:
            raise fault(errno.ENOTCONN)
