"""Sockets over what an output capture delivered, with a clock of their own: a client meets each delay, end and timeout in time, and nothing waits.

    client = http.client.HTTPConnection("any.example")
    client.sock = Socket(delivered(output)[0], timeout=5)

The clock moves only when the client waits, or by `advance`: it does not know how long a client computes."""
import errno
import locale
import socket
from typing import TYPE_CHECKING, Any, Callable, Dict, Iterable, List, NoReturn, Optional, Tuple

from ._exchange import Clock, Exchange, fault
from ._steps import Connection, Side

if TYPE_CHECKING:
    from _typeshed import ReadableBuffer, WriteableBuffer

REAL = socket.socket
HELP = {  # what a call that a Socket does not have says
    "connect": "it is connected: a Dialer stands in for connect and create_connection",
    "fileno": "it has no file descriptor, as TLS (ssl), selectors and asyncio's sock_connect want. Test the client without TLS; read with "
              "settimeout, by select.select or select.poll in a Dialer, or by asyncio.open_connection",
    "accept": "it is no server: make one before the Dialer, or take side='server'",
}
HELP.update(dict.fromkeys(("connect_ex",), HELP["connect"]), **dict.fromkeys(("detach", "dup", "share"), HELP["fileno"]))
HELP.update(dict.fromkeys(("bind", "listen", "recvfrom_into", "sendto"), HELP["accept"]))


class Socket(REAL):
    """A connected socket, which receives what was delivered to this side of a connection, and keeps what is sent to it.

    connection     one of delivered(output). If it was refused, ConnectionRefusedError is raised
    side           'client' (it receives `down`) or 'server' (it receives `up`)
    clock          a Clock that other sockets share, such as those of further tries; a new one without it. The connection is opened at its time
    timeout        of reads, in seconds, as by `settimeout`; without a number that of `socket.getdefaulttimeout`
    waits          whether an answer waits until as many bytes were sent as in the recording (and a close, if it was recorded before). It comes as long
                   after them as in the output. Without it all comes at the output's times
    joins          whether a read gives all that has come by then or comes within a millisecond, as a kernel often does, or bytes of one chunk
    same_requests  whether sending another byte than the recorded one raises AssertionError

    A read moves the clock on to the next arrival, if none is there. A timeout is raised at its time (TimeoutError, `socket.timeout` before Python 3.10);
    a chunk that comes at this very time is still read. Ends come at their time, after the bytes before them: a FIN as b"", a reset as
    ConnectionResetError. A read that would wait forever raises StillOpen, or Unasked if less was sent than recorded; so does one with a timeout if a
    request was begun.

    Writes take no time, and are kept in `sent`. A write sees an end that has come by the clock. A reset raises ConnectionResetError once, from the first
    read or write that meets it; then reads give b"", and writes raise BrokenPipeError, as on Linux: also the second one after a toxic's close. One
    thread uses a Socket at a time."""

    family = socket.AF_INET
    type = socket.SOCK_STREAM
    proto = socket.IPPROTO_TCP
    timeout: Optional[float] = None
    """Seconds that a read waits at most; None without a limit, 0 for not at all."""
    clock: Clock
    """The time that has passed."""

    def __init__(
        self, connection: Connection, side: Side = "client", clock: Optional[Clock] = None, timeout: Optional[float] = None, waits: bool = True,
        joins: bool = False, same_requests: bool = False
    ) -> None:
        self._prepare(clock or Clock(), timeout)
        self._exchange = Exchange(connection, side, self.clock, waits, joins, same_requests)

    @classmethod
    def _over(cls, exchange: Exchange) -> "Socket":
        """What a transport of asyncio has for its socket."""
        made = cls.__new__(cls)
        made._prepare(exchange.clock, 0)
        made._exchange = exchange
        return made

    def _prepare(self, clock: Clock, timeout: Any) -> None:
        self._io_refs, self._closed = 0, False  # what the constructor of socket.socket sets, which would open a descriptor
        self.clock, self._options = clock, {}
        self._gone = self._met_reset = self._met_close = self._shut_read = self._shut_write = False
        self.settimeout(socket.getdefaulttimeout() if timeout is None or type(timeout) is object else timeout)

    _exchange: Exchange
    _options: Dict[Tuple[int, int], Any]

    def __repr__(self) -> str:
        return f"<toxicap.Socket {self._exchange.names[0]} to {self._exchange.names[1]}, {self.clock.now} s{', closed' * self._closed}>"

    @property
    def sent(self) -> bytes:
        """What was written to it."""
        return bytes(self._exchange.sent)

    def advance(self, seconds: float) -> None:
        """Moves the clock on, as if the client had computed so long."""
        self.clock.sleep(seconds)

    def recv(self, bufsize: int, flags: int = 0) -> bytes:
        """At least one of the next bytes, at most this number; b"" after a FIN. MSG_PEEK leaves them, and MSG_WAITALL waits for all without a timeout."""
        self._check()
        if flags & ~(socket.MSG_PEEK | socket.MSG_WAITALL | socket.MSG_NOSIGNAL | socket.MSG_DONTWAIT):
            raise fault(errno.EOPNOTSUPP)
        if bufsize < 0:
            raise ValueError("negative buffersize in recv")
        found = self._take(bufsize, flags)
        while flags & socket.MSG_WAITALL and self.timeout is None and found and len(found) < bufsize and not flags & socket.MSG_PEEK:
            more = self._take(bufsize - len(found), flags)
            found += more
            if not more:
                break
        return found

    def recv_into(self, buffer: "WriteableBuffer", nbytes: int = 0, flags: int = 0) -> int:
        """The same into a buffer, or the first bytes of it; how many there are."""
        with memoryview(buffer) as view, view.cast("B") as room:
            if nbytes > len(room):
                raise ValueError("buffer too small for requested bytes")
            found = self.recv(nbytes or len(room), flags)
            room[: len(found)] = found
        return len(found)

    def recvfrom(self, bufsize: int, flags: int = 0) -> Tuple[bytes, Any]:
        """The same, without an address, as of any connected socket."""
        return self.recv(bufsize, flags), None

    def recvmsg(self, bufsize: int, ancbufsize: int = 0, flags: int = 0) -> Tuple[bytes, List[Any], int, Any]:
        """The same, with nothing beside the bytes."""
        return self.recv(bufsize, flags), [], 0, None

    def recvmsg_into(self, buffers: "Iterable[WriteableBuffer]", ancbufsize: int = 0, flags: int = 0) -> Tuple[int, List[Any], int, Any]:
        """The same into several buffers."""
        with_room = [memoryview(buffer).cast("B") for buffer in buffers]
        found = count = len(data := self.recv(sum(map(len, with_room)), flags))
        for room in with_room:
            part, data = data[: len(room)], data[len(room) :]
            room[: len(part)] = part
        return found, [], 0, None

    def send(self, data: "ReadableBuffer", flags: int = 0) -> int:
        """Keeps all bytes, at once; how many there are."""
        self._check()
        end = self._exchange.end()
        if end == "reset":
            self._meet_reset()
        if self._shut_write or self._met_reset or self._met_close:
            raise fault(errno.EPIPE)
        self._met_close = end == "fin" and self._exchange.is_cut
        with memoryview(data) as view:
            self._exchange.send(view.tobytes())
            return view.nbytes

    def sendall(self, data: "ReadableBuffer", flags: int = 0) -> None:
        """Keeps all bytes, at once."""
        self.send(data, flags)

    def sendmsg(self, buffers: "Iterable[ReadableBuffer]", ancdata: Any = (), flags: int = 0, address: Any = None) -> int:
        """Keeps the bytes of several buffers, at once."""
        return self.send(b"".join(memoryview(buffer).tobytes() for buffer in buffers), flags)

    def settimeout(self, value: Optional[float]) -> None:
        """Sets how many seconds a read waits at most, by the clock; None for no limit. By 0 a read raises BlockingIOError if nothing has arrived, and
        the clock stands still: it moves by `advance`."""
        if value is not None and value < 0:
            raise ValueError("Timeout value out of range")
        self.timeout = value if value is None else float(value)

    def gettimeout(self) -> Optional[float]:
        """What `settimeout` set."""
        return self.timeout

    def setblocking(self, flag: bool) -> None:
        """`settimeout` with None or 0."""
        self.settimeout(None if flag else 0)

    def getblocking(self) -> bool:
        """Whether a read waits."""
        return self.timeout != 0

    def shutdown(self, how: int) -> None:
        """Ends reading, writing or both: a read gives what has arrived, then b""; a write raises BrokenPipeError."""
        self._check()
        end = self._exchange.end()
        if end == "reset" or self._met_close or end and self._shut_write:
            raise fault(errno.ENOTCONN)
        self._shut_read |= how != socket.SHUT_WR
        if how != socket.SHUT_RD:
            self._shut_write = True
            self._exchange.close()

    def setsockopt(self, level: int, option: int, value: Any = None, length: Any = None) -> None:
        """Keeps an option for `getsockopt`: none has an effect here."""
        self._options[level, option] = value

    def getsockopt(self, level: int, option: int, buflen: int = 0) -> Any:
        """SO_TYPE is SOCK_STREAM, SO_ERROR a reset that has come and nothing has raised; of others what `setsockopt` set, or 0."""
        if (level, option) == (socket.SOL_SOCKET, socket.SO_TYPE):
            return socket.SOCK_STREAM
        if (level, option) == (socket.SOL_SOCKET, socket.SO_ERROR):
            is_news, self._met_reset = self._exchange.end() == "reset" and not self._met_reset, self._exchange.end() == "reset"
            return errno.ECONNRESET if is_news else 0
        return self._options.get((level, option), 0)

    def getsockname(self) -> Tuple[str, int]:
        """An address for documentation, since a Line has none."""
        return self._exchange.names[0]

    def getpeername(self) -> Tuple[str, int]:
        """The other address for documentation."""
        return self._exchange.names[1]

    def fileno(self) -> int:
        """-1 once it is closed; else RuntimeError."""
        if self._gone:
            return -1
        raise RuntimeError(f"fileno of a Socket of toxicap: {HELP['fileno']}")

    def _real_close(self, _: object = None) -> None:
        """What socket.socket calls once it is closed, and so are the files that `makefile` gave."""
        self._gone = True
        self._exchange.close()

    def _check(self) -> None:
        if self._gone:
            raise fault(errno.EBADF)

    def _is_ready(self) -> bool:
        """Whether a read would not wait."""
        return self._shut_read or self._gone or self._exchange.has_come(self._exchange.next())

    def _take(self, size: int, flags: int) -> bytes:
        """What one read gives."""
        if not size:
            return b""
        self._wait(0 if flags & socket.MSG_DONTWAIT else self.timeout)
        found = self._exchange.take(size, bool(flags & socket.MSG_PEEK))
        step = self._exchange.next()
        if not found and step and step.what == "reset" and self._exchange.has_come(step):
            self._meet_reset()
        return found

    def _wait(self, timeout: Optional[float]) -> None:
        """Moves the clock on to the next arrival, if none is there."""
        if self._is_ready():
            return
        due, now = self._exchange.due(self._exchange.next()), self.clock.nanoseconds
        limit = due if timeout is None else now + round(timeout * 10**9)
        if limit is None or timeout and self._exchange.is_short():
            raise self._exchange.never()
        if due is not None and due <= limit:
            self.clock.reach(due)
        elif timeout:
            self.clock.reach(limit)
            self._exchange.has_failed = True
            raise socket.timeout("timed out")
        else:
            raise fault(errno.EAGAIN)

    def _meet_reset(self) -> None:
        """Raises the reset, once."""
        if not self._met_reset:
            self._met_reset = self._exchange.has_failed = True
            raise fault(errno.ECONNRESET)


def refuser(name: str) -> Callable[..., NoReturn]:
    """A method of this name, which says why a Socket has none, and what helps."""

    def refuse(*_: object, **__: object) -> NoReturn:
        raise RuntimeError(f"{name} of a Socket of toxicap: {HELP[name]}")

    return refuse


def makefile(self: Socket, mode: str = "r", buffering: Optional[int] = None, *, encoding: Optional[str] = None, **more: Any) -> Any:
    """As of any socket. Text without an encoding has that of the locale; Python before 3.11 would ask the descriptor."""
    known: Any = REAL.makefile
    return known(self, mode, buffering, encoding=encoding or (None if "b" in mode else locale.getpreferredencoding(False)), **more)


setattr(Socket, "makefile", makefile)
for _name in set(HELP) - {"fileno"}:
    setattr(Socket, _name, refuser(_name))
