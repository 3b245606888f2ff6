"""Serves the server's side of connections of an output capture to real clients on 127.0.0.1, chunk by chunk, and ends as the capture does: by a FIN,
by a reset, or not at all. In a test:

    with Player(output) as player: fetch('127.0.0.1', player.port)

or as a command, which prints the port and serves: player.py OUTPUT UNTOUCHED; its status is 1 if a client did not do its part. Both are output
captures of one recording, the second under the scenario without toxics, `[]`: it says what the client had sent before each answer, and when the
server answered. An Output of `rehearse` knows its own."""
import argparse, contextlib, selectors, socket, sys, threading, time
from types import TracebackType
from typing import Any, List, Optional, Set, Type
from ._events import Written, delivered, knows_recording
from ._playing import Pace, Served
from ._steps import Choice, Session, chosen, session

LONGEST = 3600.0  # seconds of one wait: selectors have a most
COARSE = 0.001  # seconds to which a selector rounds its waits up


class Player:
    """Serves clients at 127.0.0.1, port `port`, in the body of one `with`. `output` is an Output, or the bytes of a stored one and `untouched` of that
    under `[]`. `connection` is a number in the report, a list of numbers, 'with data' for those on which the server sends, or None for all. Each client
    that comes gets the next of them; several are served at the same time. Any other client is refused, and so is each if the proxy was disabled. A list
    with connections of both kinds is a ValueError, since one port cannot do both.

    An answer waits until the client has sent as many bytes as the recorded one had before it (and has closed, if that one had). From then on it takes
    as long as in the output: the recorded server's pause and the toxics' delay. Both are multiplied by `factor` (0: at once); `pauses=False` leaves
    out the pause. A client that closes too early gets no further answer. A client that reads late may miss bytes before a reset.

    Two chunks of a connection are at least `gap` seconds apart. Chunks that are due 2 ms apart are sent at least 1 ms apart even if the player
    is late. The kernel still joins what the client does not read in time, and cuts a chunk that is larger than a buffer or a read.

    The player waits for clients `limit` seconds in all: for one to come, to send enough, to take bytes, to close after the last step. Time in which
    an answer is under way does not count. After the limit the player closes all connections, and `with` ends with a TimeoutError, whose text is
    `late`. So a client that hangs is found if `limit` is below its own timeout. A `with` to which no client came ends so, too.

    `received` is what each client has sent. With `same_requests` this has to be what the recorded client sent, from the first byte on; a client may
    stop early. At another byte, and always after 1 MiB more than the recorded one, the player closes all connections, and `with` ends with an
    AssertionError. An exception of the body goes before both, and gets their text as a note (from Python 3.11 on)."""

    def __init__(self, output: Written, untouched: Optional[Written] = None, connection: Choice = 0, factor: float = 1, pauses: bool = True,
                 limit: float = 10, gap: float = 0, same_requests: bool = False) -> None:
        if untouched is None and not knows_recording(output): raise TypeError('a player of a stored output takes that under `[]` too')
        found = delivered(output, untouched)
        for lines in found: lines.recorded()
        played = chosen(found, connection)
        self.numbers, self.sessions = [lines.number for lines in played], [session(lines) for lines in played]
        self.refuses = refused(self.sessions, self.numbers)
        self.pace, self.limit, self.same_requests = Pace(factor, pauses, gap), limit, same_requests
        self.served: List[Served] = []
        self.fault: Optional[Exception] = None  # what `with` ends with
        self.thread: Optional[threading.Thread] = None

    @property
    def port(self) -> int:
        """The port, when `with` has begun; a RuntimeError before."""
        if not self.thread: raise RuntimeError('a player has its port in the body of its with: with Player(..) as player: .. player.port')
        return self._port

    @property
    def late(self) -> Optional[str]:
        """What a client had not done when the limit ran out; None without."""
        return str(self.fault) if isinstance(self.fault, TimeoutError) else None

    @property
    def received(self) -> List[bytes]:
        """What each client has sent, in the order in which they came."""
        return [bytes(one.received) for one in self.served]

    def __enter__(self) -> 'Player':
        if self.thread: raise RuntimeError('a player serves one with: make another for the next')
        self.listener = socket.socket()
        self.listener.bind(('127.0.0.1', 0))
        self.listener.setblocking(False)
        self._port: int = self.listener.getsockname()[1]
        if not self.refuses: self.listener.listen(len(self.sessions))
        self.waker, self.woken = socket.socketpair()
        self.thread = threading.Thread(target=self._serve, daemon=True)
        self.thread.start()
        return self

    def __exit__(self, kind: Optional[Type[BaseException]], failed: Optional[BaseException], trace: Optional[TracebackType]) -> None:
        """Ends all connections, wherever they are, and raises what was missing or other."""
        self.waker.close()
        self.join()
        self.listener.close()
        if not self.fault and not self.served and not self.refuses: self.fault = TimeoutError(self._told('no client came'))
        if self.fault is None: return
        if failed is None: raise self.fault
        if hasattr(failed, 'add_note'): failed.add_note(str(self.fault))

    def join(self) -> None:
        """Waits until all connections have ended or the limit ran out."""
        if self.thread: self.thread.join()

    def _serve(self) -> None:
        try:
            with contextlib.closing(self.woken), selectors.DefaultSelector() as ready: self.fault = self._play(ready)
        except Exception as fault: self.fault = fault
        finally:
            for each in self.served: each.client.close()
            if not self.refuses: self.listener.close()

    def _play(self, ready: selectors.BaseSelector) -> Optional[Exception]:
        """Serves the clients until all have ended, or the body has, or something is wrong, which it gives."""
        ready.register(self.woken, selectors.EVENT_READ)
        if not self.refuses: ready.register(self.listener, selectors.EVENT_READ)
        going: List[Served] = []
        left = self.limit
        while going or len(self.served) < len(self.sessions):
            due = min((one.awaits for one in going if isinstance(one.awaits, float)), default=None)
            begun = time.monotonic()
            found = awaited(ready, min(left if due is None else max(0, due - begun), LONGEST))
            now = time.monotonic()
            if due is None: left -= now - begun
            if self.listener in found: going += self._accept(ready)
            ended = self.woken in found
            for one in going:
                if one.client in found or ended: one.read(1024 if ended else 1)
                wrong = one.differs if self.same_requests else one.floods
                if wrong: return AssertionError(self._told(f'connection {one.number}: {wrong}'))
                if one.client in found or isinstance(one.awaits, float) and one.awaits <= now: one.go_on()
                one.watch(ready)
            if ended: return None
            if left <= 0 and not found: return None if self.refuses else TimeoutError(self._told(f'{self._missing(going)} (limit {self.limit} s)'))
            going = [one for one in going if one.awaits is not None]
        return None

    def _accept(self, ready: selectors.BaseSelector) -> List[Served]:
        """The clients that have come; after the last one nobody listens."""
        came: List[Served] = []
        with contextlib.suppress(BlockingIOError):
            while len(self.served) < len(self.sessions):
                number = self.numbers[len(self.served)]
                came.append(Served(number, self.sessions[len(self.served)], self.pace, self.listener.accept()[0]))
                self.served.append(came[-1])
            ready.unregister(self.listener)
            self.listener.close()
        return came

    def _missing(self, going: List[Served]) -> str:
        """What the player waits for."""
        if going: return f'connection {going[0].number}: {going[0].awaits}'
        return f'{len(self.served)} of {len(self.sessions)} clients came' if self.served else 'no client came'

    def _told(self, fault: str) -> str: return f'player: port {self.port}: {fault}'


def awaited(ready: selectors.BaseSelector, seconds: float) -> Set[Any]:
    """What a selector finds within a time. Its own wait may be up to a millisecond longer, so the last one is slept."""
    until = time.monotonic() + seconds
    found = ready.select(max(0, seconds - COARSE))
    if not found and seconds > 0:
        time.sleep(max(0, min(until - time.monotonic(), COARSE)))
        found = ready.select(0)
    return {key.fileobj for key, _ in found}


def refused(found: List[Session], numbers: List[int]) -> bool:
    """Whether these connections are refused; a ValueError if some are and some are not, and if there is none."""
    one, other = ([number for number, each in zip(numbers, found) if each.refused == how] for how in (True, False))
    if one and other:
        raise ValueError(f'connection {one[0]} is refused and connection {other[0]} is not: '
                         'one port cannot do both, name the connections of one server')
    if not numbers: raise ValueError('there is no connection')
    return bool(one)


def numbers(text: str) -> Choice:
    if text == 'with data': return 'with data'
    return None if text == 'all' else [int(number) for number in text.split(',')]


def main() -> None:
    parser = argparse.ArgumentParser(description='Prints a port of 127.0.0.1, and serves clients there as an output capture has it.')
    for name in 'output', 'untouched': parser.add_argument(name, type=lambda path: open(path, 'rb').read())
    parser.add_argument('--connection', type=numbers, default=[0], help='its number in the report, several such as 0,2, "with data", or all; 0 without')
    parser.add_argument('--factor', type=float, default=1, help='what times are multiplied by; 0 for at once')
    parser.add_argument('--no-pauses', dest='pauses', action='store_false', help='only the delays that the toxics added')
    parser.add_argument('--limit', type=float, default=10, help='seconds to wait for clients, in all; 10 without')
    parser.add_argument('--gap', type=float, default=0, help='the least seconds between two chunks; 0 without')
    parser.add_argument('--same-requests', action='store_true', help='a client has to send what the recorded one did')
    try: player = Player(**vars(parser.parse_args()))
    except (OSError, ValueError) as why: sys.exit(f'player: {why}')
    try:
        with player:
            print(player.port, flush=True)
            player.join()
    except (OSError, AssertionError) as why: sys.exit(str(why))


if __name__ == '__main__': main()
