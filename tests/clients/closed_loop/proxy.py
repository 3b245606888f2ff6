"""A proxy between a client and a server of this process, with toxics, each (type, stream, attributes), and what it sees."""
import functools
import socket

from protocols import GONE


class Latency:
    def __init__(self, latency):
        self.seconds = latency / 1000

    def cut(self, due, data):
        yield due + self.seconds, data


class Bandwidth:
    def __init__(self, rate):
        self.rate, self.free = rate, 0

    def cut(self, due, data):
        for place in range(0, len(data), 100 * self.rate):
            piece = data[place : place + 100 * self.rate]
            self.free = max(self.free, due) + len(piece) / (1000 * self.rate)
            yield self.free, piece


class Slicer:
    def __init__(self, average_size, delay, size_variation=0):
        self.size, self.delay, self.free = average_size, delay / 1e6, 0

    def cut(self, due, data):
        for place in range(0, len(data), self.size):
            due = max(due, self.free)
            self.free = due + self.delay
            yield due, data[place : place + self.size]


class Limit:
    def __init__(self, bytes):
        self.left = bytes

    def cut(self, due, data):
        if self.left:
            yield due, data[: self.left]
        if len(data) > self.left:
            yield due, None
        self.left -= min(self.left, len(data))


KINDS = {"latency": Latency, "bandwidth": Bandwidth, "slicer": Slicer, "limit_data": Limit}


class Proxy:
    """One session through a proxy, in a clock's time: `came` and `went` are what came in and went out, each (seconds since the opening, side, bytes),
    and b"" for a FIN; side 0 is the client's."""

    def __init__(self, clock, server, client, toxics):
        self.clock, self.came, self.went, self.ends = clock, [], [], []
        works = []
        for act in client, server:
            far, near = clock.connection()
            self.ends.append(near)
            works.append(functools.partial(self.play, act, far))
        for side, stream in enumerate(("upstream", "downstream")):
            waiting = clock.queue()
            mine = [KINDS[kind](**attributes) for kind, of, attributes in toxics if of == stream]
            works += [functools.partial(self.read, side, waiting), functools.partial(self.write, side, waiting, mine)]
        self.opened = clock.now()
        clock.run(works)
        for end in self.ends:
            end.close()

    def play(self, act, connection):
        with connection:
            try:
                act(connection, self.clock)
            except GONE:
                pass

    def read(self, side, waiting):
        data = b"more"
        while data:
            try:
                data = self.ends[side].recv(65536)
            except OSError:
                data = b""
            now = self.clock.now()
            self.came.append((now - self.opened, side, data))
            waiting.put((now, data))

    def write(self, side, waiting, toxics):
        data = b"more"
        while data:
            pieces = [waiting.get()]
            data = pieces[0][1]
            for toxic in toxics if data else []:
                pieces = [cut for due, piece in pieces for cut in (toxic.cut(due, piece) if piece else [(due, piece)])]
            for due, piece in pieces:
                self.clock.sleep(due - self.clock.now())
                if piece is None:
                    return self.close()
                try:
                    self.ends[1 - side].sendall(piece) if piece else self.ends[1 - side].shutdown(socket.SHUT_WR)
                except OSError:
                    return
                self.went.append((self.clock.now() - self.opened, side, piece))

    def close(self):
        for end in self.ends:
            try:
                end.shutdown(socket.SHUT_RDWR)
            except OSError:
                pass
