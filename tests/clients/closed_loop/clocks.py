"""What a session runs in: threads, connections and time, real or simulated."""
import io
import math
import os
import queue
import socket
import threading
import time


class RealTime:
    """Sockets of 127.0.0.1, and this machine's time."""

    now = staticmethod(time.monotonic)
    queue = queue.SimpleQueue

    @staticmethod
    def sleep(seconds):
        time.sleep(max(0, seconds))

    @staticmethod
    def connection():
        """Both ends of a connection."""
        with socket.create_server(("127.0.0.1", 0)) as listener:
            ends = socket.create_connection(listener.getsockname()), listener.accept()[0]
        for end in ends:
            end.setsockopt(socket.IPPROTO_TCP, socket.TCP_NODELAY, 1)
        return ends

    @staticmethod
    def run(works):
        threads = [threading.Thread(target=work) for work in works]
        for thread in threads:
            thread.start()
        for thread in threads:
            thread.join()


class SimulatedTime:
    """Time that passes only if all threads wait. One thread runs at a time, so what a session does is the same in each run."""

    def __init__(self):
        self.seconds, self.waits = 0.0, []

    def now(self):
        return self.seconds

    def sleep(self, seconds):
        self.wait(lambda: False, self.seconds + max(0, seconds))

    def queue(self):
        return Queue(self)

    def connection(self):
        one, other = Pipe(), Pipe()
        return End(self, one, other), End(self, other, one)

    def wait(self, is_over, due=math.inf):
        """Lets other threads run until something is so, or until a time."""
        turn = threading.Event()
        self.waits.append((is_over, due, turn))
        self.hand_on()
        turn.wait()

    def hand_on(self):
        """Lets a thread run whose wait is over, and else the one whose time comes first."""
        if self.waits:
            wait = min(self.waits, key=lambda wait: (not wait[0](), wait[1]))
            is_over, due, turn = wait
            if not is_over():
                if due == math.inf:
                    print("each thread waits for another", flush=True)
                    os._exit(1)
                self.seconds = max(self.seconds, due)
            self.waits.remove(wait)
            turn.set()

    def run(self, works):
        self.waits = [(lambda: True, 0, threading.Event()) for _ in works]
        threads = [threading.Thread(target=self.start, args=(wait[2], work)) for wait, work in zip(self.waits, works)]
        for thread in threads:
            thread.start()
        self.hand_on()
        for thread in threads:
            thread.join()

    def start(self, turn, work):
        turn.wait()
        try:
            work()
        finally:
            self.hand_on()


class Queue:
    """A queue between two threads."""

    def __init__(self, clock):
        self.clock, self.items = clock, []
        self.put = self.items.append

    def get(self):
        self.clock.wait(lambda: self.items)
        return self.items.pop(0)


class Pipe:
    """What one end of a connection sent and the other has not received."""

    def __init__(self):
        self.data, self.is_closed = bytearray(), False


class End:
    """One end of a connection, with those methods of a socket that sessions call."""

    def __init__(self, clock, incoming, outgoing):
        self.clock, self.incoming, self.outgoing = clock, incoming, outgoing

    def __enter__(self):
        return self

    def __exit__(self, *raised):
        self.close()

    def close(self):
        self.shutdown(socket.SHUT_RDWR)

    def shutdown(self, how):
        self.outgoing.is_closed = True
        if how == socket.SHUT_RDWR:
            self.incoming.is_closed = True

    def sendall(self, data):
        if self.outgoing.is_closed:
            raise BrokenPipeError
        self.outgoing.data += data

    def recv(self, most):
        self.clock.wait(lambda: self.incoming.data or self.incoming.is_closed)
        data = bytes(self.incoming.data[:most])
        del self.incoming.data[:most]
        return data

    def makefile(self, _mode):
        return io.BufferedReader(Received(self))


class Received(io.RawIOBase):
    """What an end receives, as a file."""

    def __init__(self, end):
        self.end = end

    def readable(self):
        return True

    def readinto(self, buffer):
        data = self.end.recv(len(buffer))
        buffer[: len(data)] = data
        return len(data)
