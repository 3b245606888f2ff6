"""The laws of sockets and streams, over the output captures in the folder OUTPUTS, of each capture the last one under `[]`: reads of any sizes give the
delivered bytes in order, each at its time, and ends and timeouts come at theirs. What is expected is worked out here from the time of each byte; what
answers wait for, from the steps of players."""
import asyncio, bisect, collections, itertools, os, pathlib, random, socket, unittest
from toxicap import Clock, Socket, StillOpen, Unasked, delivered, run, streams
from toxicap._steps import session

CONNECTIONS = [each for folder in sorted(pathlib.Path(os.environ['OUTPUTS']).iterdir()) for files in [sorted(folder.glob('*.pcap'))]
               for path in files for each in delivered(path.read_bytes(), files[-1].read_bytes())]
NEVER = 1 << 70
WITHIN = 10**6  # nanoseconds in which a read that joins chunks still takes what comes


class Expected:
    """What a line gives to one who reads it. Its instants count from the opening."""

    def __init__(self, line, opened):
        self.bytes = b''.join(what for _, what in line.chunks)
        self.times = [opened + time for time, what in line.chunks for _ in what]
        self.borders = list(itertools.accumulate(len(what) for _, what in line.chunks))
        self.end_time, self.end = (opened + line.end[0], line.end[1]) if line.end else (NEVER, None)
        self.place = 0

    def due(self, count=1):
        """When this number of bytes has come, or the end."""
        last = self.place + count
        return self.times[last - 1] if last <= len(self.times) else self.end_time

    def take(self, size, now):
        """What one read gives then, if it joins chunks."""
        start, self.place = self.place, min(bisect.bisect_right(self.times, now, self.place), self.place + size)
        return self.bytes[start:self.place]

    def read(self, size, now, joins):
        """What one read gives then, and when: of one chunk, or joined."""
        border = next((border for border in self.borders if border > self.place), self.place)
        found = self.take(size if joins else min(size, border - self.place), now + WITHIN * joins)
        return found, max([now, *self.times[self.place - 1:self.place]])


def sides():
    """Each side of each connection that was not refused, the line that comes to it, and random numbers of its own."""
    for number, connection in enumerate(CONNECTIONS):
        for side, line in zip(('server', 'client'), connection):
            if not line.end or line.end[1] != 'refused': yield connection, side, line, random.Random(f'{number} {side}')


def size_by(drawn): return drawn.randint(1, drawn.choice([1, 10, 300, 1460, 65536]))


class Laws(unittest.TestCase):
    def setUp(self): self.met = collections.Counter()

    def tearDown(self):
        for what in 'bytes', 'fin', 'reset', None, 'late': self.assertGreater(self.met[what], 30, (what, self.met))

    def test_sockets(self):
        for connection, side, line, drawn in sides():
            clock, joins = Clock(), drawn.random() < 0.5
            clock.sleep(drawn.choice([0, 1.5]))
            self.read(Socket(connection, side, clock, waits=False, joins=joins), Expected(line, clock.nanoseconds), joins, drawn)

    def read(self, reader, expected, joins, drawn):
        """Reads to the end, with pauses and timeouts."""
        clock, end = reader.clock, 'bytes'
        while end == 'bytes':
            if drawn.random() < 0.2: clock.sleep(drawn.random() / 10)
            now, limit, size = clock.nanoseconds, drawn.choice([None, None, 0, 10**drawn.randint(0, 9)]), size_by(drawn)
            reader.settimeout(limit if limit is None else limit / 10**9)
            due, found, kind = expected.due(), None, None
            try: found = self.read_once(reader, size, drawn)
            except (OSError, StillOpen) as error: kind = type(error)
            if limit is not None and due > now + limit:
                self.assertEqual((kind, clock.nanoseconds), (socket.timeout if limit else BlockingIOError, now + limit))
                self.met['late'] += 1
                continue
            if expected.place == len(expected.bytes): end = expected.end
            self.assertEqual(kind, {'reset': ConnectionResetError, None: StillOpen}.get(end))
            if end and end != 'bytes': self.assertEqual(clock.nanoseconds, max(now, due))
            if not kind: self.assertEqual((found, clock.nanoseconds), expected.read(size, max(now, due) if end else now, joins))
            self.met[end] += 1
        if end: self.assertEqual(reader.recv(9), b'')

    def read_once(self, reader, size, drawn):
        if drawn.random() < 0.5: return reader.recv(size)
        room = bytearray(size)
        return bytes(room[:reader.recv_into(room)])

    def test_files(self):
        """Reads of whole lengths, by makefile."""
        for connection, side, line, drawn in sides():
            reader = Socket(connection, side, waits=False)
            expected, end = Expected(line, 0), 'bytes'
            with reader, reader.makefile('rb') as file:
                while end == 'bytes':
                    size, now = size_by(drawn), reader.clock.nanoseconds
                    due, found, kind = expected.due(size), b'', None
                    try: found = file.read(size)
                    except (OSError, StillOpen) as error: kind = type(error)
                    if len(expected.bytes) - expected.place < size: end = expected.end
                    self.assertEqual(kind, {'reset': ConnectionResetError, None: StillOpen}.get(end))
                    if end: self.assertEqual(reader.clock.nanoseconds, max(now, due))
                    if not kind: self.assertEqual(found, expected.take(size, reader.clock.nanoseconds))
                    self.met[end] += 1
        self.met['late'] = 99  # there are no timeouts here

    def test_streams(self):
        for connection, side, line, drawn in sides():
            clock = Clock()
            clock.sleep(drawn.choice([0, 1.5]))
            run(self.follow(connection, side, Expected(line, clock.nanoseconds), drawn), clock)

    async def follow(self, connection, side, expected, drawn):
        """Reads to the end, with pauses and timeouts. A reset takes what was not read, as in asyncio. What came for a read that is late stays."""
        fed = 0  # bytes that were handed to the reader
        (reader, writer), clock, end = streams(connection, side, waits=False), asyncio.get_running_loop().clock, 'bytes'
        while end == 'bytes':
            if drawn.random() < 0.2: await asyncio.sleep(drawn.random() / 10)
            now, limit, size = clock.nanoseconds, drawn.choice([None, None, 10**drawn.uniform(0, 9)]), size_by(drawn)
            exactly, found, kind = drawn.random() < 0.3, None, None
            due = expected.due(size if exactly else 1)
            try: found = await asyncio.wait_for(reader.readexactly(size) if exactly else reader.read(size), limit and limit / 10**9)
            except asyncio.TimeoutError:
                self.assertGreater(due, now + limit - 1)
                self.assertLessEqual(abs(clock.nanoseconds - now - limit), 2)
                self.met['late'] += 1
                fed = max(fed, bisect.bisect_right(expected.times, clock.nanoseconds)) if exactly else fed
                continue
            except asyncio.IncompleteReadError as error: found, end = error.partial, 'fin'
            except (ConnectionResetError, StillOpen) as error: kind = type(error)
            if kind or found == b'': end = expected.end
            self.assertEqual(kind, {'reset': ConnectionResetError, None: StillOpen}.get(end))
            if end == 'reset': self.assertEqual(clock.nanoseconds, max(now, expected.end_time))
            elif end: self.assertEqual(clock.nanoseconds, max(now, due))
            if not kind:
                last = expected.place + size if exactly else expected.place + 1
                fed = max(fed, next((border for border in expected.borders if border >= last), len(expected.bytes)))
                self.assertEqual(found, expected.take(min(size, fed - expected.place), clock.nanoseconds))
            self.met[end] += 1
        if end == 'fin': self.assertEqual((expected.place, clock.nanoseconds >= expected.end_time), (len(expected.bytes), True))
        writer.close()

    def test_requests(self):
        """Each step comes as long after the last byte that it waits for, or the close, as in the output; with one byte less it never comes."""
        for connection, side, line, drawn in sides():
            steps, recorded = session(connection, side)
            reader, sent, closed, came, asked = Socket(connection, side), 0, False, 0, 0
            for step in steps:
                never = Unasked if isinstance(step.what, bytes) else StillOpen
                if step.need > sent:
                    reader.send(recorded[sent:step.need - 1])
                    self.meets(never, reader)
                    reader.send(recorded[step.need - 1:step.need])
                    sent, asked = step.need, reader.clock.nanoseconds
                if step.closed and not closed:
                    self.meets(never, reader)
                    reader.shutdown(socket.SHUT_WR)
                    closed, asked = True, reader.clock.nanoseconds
                came, now = max(came, asked + step.pause + step.delay), reader.clock.nanoseconds
                if isinstance(step.what, bytes): self.assertEqual(reader.recv(1 << 20), step.what)
                elif step.what == 'fin': self.assertEqual(reader.recv(1), b'')
                else: self.meets(ConnectionResetError, reader)
                self.assertEqual(reader.clock.nanoseconds, max(now, came))
                self.met[step.what if isinstance(step.what, str) else 'bytes'] += 1
                reader.advance(drawn.choice([0, 0, 0.001]))
        self.met.update({None: 99, 'late': 99})

    def meets(self, kind, reader):
        with self.assertRaises(kind): reader.recv(1)


if __name__ == '__main__': unittest.main()
