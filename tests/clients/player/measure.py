"""Measures a player: plays a connection of two output captures to a client of its own, in a process or in a thread."""
import contextlib, itertools, multiprocessing, pathlib, socket, threading, time
from typing import NamedTuple
from toxicap import delivered
from toxicap._steps import session
from toxicap.player import Player


class Measured(NamedTuple):
    late: list  # seconds of each chunk, which is due as long after the client's last byte before it as in the output
    kept: int  # borders that a read kept
    borders: int


def talk(pipe, played):
    """A client: sends to the pipe of each step the instant when it had sent all that the step waits for, and each read: its instant, and all bytes."""
    asked, reads = [], [(0.0, 0)]
    with contextlib.suppress(OSError), socket.create_connection(('127.0.0.1', pipe.recv()), timeout=60) as client:
        client.setsockopt(socket.IPPROTO_TCP, socket.TCP_NODELAY, 1)
        now, sent, closed, place = time.monotonic(), 0, False, 0
        for step in played.steps:
            if step.need > sent or step.closed > closed:
                now = time.monotonic()
                client.sendall(played.sent[sent:step.need])
                if step.closed: client.shutdown(socket.SHUT_WR)
                sent, closed = step.need, step.closed
            asked.append(now)
            if isinstance(step.what, bytes): place += len(step.what)
            while reads[-1][1] < place:
                more = len(client.recv(1 << 20))
                if not more: raise ConnectionError
                reads.append((time.monotonic(), reads[-1][1] + more))
    pipe.send((asked, reads))


def measure(output, untouched, threads=False, **settings):
    """Plays connection 0 of two files; the client is in a process of its own, or in a thread of this one."""
    captures = [pathlib.Path(path).read_bytes() for path in (output, untouched)]
    played, (here, there) = session(delivered(*captures)[0]), multiprocessing.Pipe()
    client = (threading.Thread if threads else multiprocessing.get_context('fork').Process)(target=talk, args=(there, played), daemon=True)
    client.start()
    with Player(*captures, **settings) as player:
        here.send(player.port)
        asked, reads = here.recv()
    client.join()
    chunks = [step for step in played.steps if isinstance(step.what, bytes)]
    places = list(itertools.accumulate(len(step.what) for step in chunks))
    if reads[-1][1] < places[-1]: raise EOFError(f'{reads[-1][1]} of {places[-1]} bytes came')
    late, read = [], 0
    instants = (at for at, step in zip(asked, played.steps) if isinstance(step.what, bytes))
    for at, step, place in zip(instants, chunks, places):
        while reads[read][1] < place: read += 1
        late.append(reads[read][0] - at - (step.delay + step.pause) * settings.get('factor', 1) / 10**9)
    return Measured(late, len({count for _, count in reads} & set(places[:-1])), len(places) - 1)
