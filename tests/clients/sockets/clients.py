"""Clients of the standard library, and of these tests' own, over sockets, streams and dialers: http.client, poplib, smtplib, and asyncio. SAMPLE is an
output capture of samples/http-get.pcap, half a second late. Lines are those of a server that sends these chunks at these seconds."""
import asyncio, contextlib, errno, http.client, os, pathlib, poplib, random, smtplib, socket, ssl, struct, time, unittest
import urllib.error, urllib.request
from toxicap import Clock, Dialer, Line, Lines, Loop, Socket, StillOpen, Unasked, delivered, run, streams

YEAR = 365 * 24 * 3600


def line(chunks, end=None): return Line([(round(at * 10**9), what) for at, what in chunks], end and (round(end[0] * 10**9), end[1]))


def served(*chunks, end=None, up=()):
    """A connection on which the server sends these, as (seconds, bytes), and ends so, as (seconds, kind); `up` is what the client sends."""
    return line(up), line(chunks, end)


def dialer(*connections, **settings):
    """A dialer of such connections, to ports from 1 on."""
    return Dialer([Lines(*each, number, f'10.0.0.1:{number + 1}') for number, each in enumerate(connections)], **settings)


REFUSED = Line([], (0, 'refused')), Line([], (0, 'refused'))
ANSWER = (1, b'HTTP/1.1 200 OK\r\nContent-Length: 5\r\n\r\n'), (2, b'hel'), (4, b'lo')


class Http(unittest.TestCase):
    def fetch(self, connection, timeout=None, agent='a client'):
        client = http.client.HTTPConnection('any.example')
        self.socket = client.sock = Socket(connection, timeout=timeout)
        client.request('GET', '/', headers={'User-Agent': agent})
        with client.getresponse() as response: return response.read()

    def raises(self, kind, at, *words):
        with self.assertRaises(kind) as raised: self.fetch(*words)
        self.assertEqual(self.socket.clock.now, at)
        return raised.exception

    def test_recorded(self):
        sample = delivered(pathlib.Path(os.environ['SAMPLE']).read_bytes())[0]
        with self.assertRaisesRegex(Unasked, '^the client sent 79 of 82 bytes before the next answer'): self.fetch(sample, 5, 'x')
        self.assertEqual(self.socket.clock.now, 0)
        self.assertEqual(self.fetch(sample, agent='a client as long'), b'Hello from the sample server.\n')
        self.assertEqual(self.socket.clock.nanoseconds, sample[1].chunks[-1][0] - sample[0].chunks[-1][0])
        self.assertGreater(self.socket.clock.now, 0.5)
        self.assertTrue(self.socket.sent.startswith(b'GET / HTTP/1.1\r\nHost: any.example\r\n'))

    def test_ends(self):
        self.assertEqual((self.fetch(served(*ANSWER), 2), self.socket.clock.now), (b'hello', 4))
        self.raises(socket.timeout, 3.5, served(*ANSWER), 1.5)
        self.raises(StillOpen, 2, served(*ANSWER[:2]))
        self.raises(socket.timeout, 7, served(*ANSWER[:2]), 5)
        self.assertEqual(self.raises(http.client.IncompleteRead, 3, served(*ANSWER[:2], end=(3, 'fin')), 5).partial, b'hel')
        self.raises(ConnectionResetError, 3, served(*ANSWER[:2], end=(3, 'reset')), 5)
        self.raises(http.client.RemoteDisconnected, 0.5, served(end=(0.5, 'fin')))
        with self.assertRaises(ConnectionRefusedError): self.fetch(REFUSED)

    def test_a_year(self):
        """A year passes at once."""
        began = time.monotonic()
        self.raises(socket.timeout, YEAR, served((2 * YEAR, b'late')), YEAR)
        for days in 0, 60, 104, 250, 1000, 9000:
            self.assertAlmostEqual(run(self.late(days * 24 * 3600)), days * 24 * 3600, 5)
        self.assertLess(time.monotonic() - began, 60)

    async def late(self, seconds):
        """Chunks some nanoseconds apart, which a float can't tell apart after 97 days."""
        drawn, times = random.Random(seconds), [seconds * 10**9]
        while len(times) < 300: times.append(times[-1] + drawn.randint(1, 9))
        reader, writer = streams((Line([], None), Line([(each, b'late') for each in times], None)))
        with self.assertRaises(asyncio.TimeoutError): await asyncio.wait_for(reader.read(), seconds / 2)
        for _ in times: self.assertEqual(await reader.readexactly(4), b'late')
        return asyncio.get_running_loop().time()

    def test_tries(self):
        """urllib, and a client that tries again: the second connection opens when the first has failed, and a pause has passed."""
        found = []
        tries = served(*ANSWER[:2], end=(3, 'reset')), REFUSED, served(*ANSWER)
        with dialer(*tries) as given:
            while not found:
                try: found.append(urllib.request.urlopen('http://any.example/', timeout=5).read())
                except (ConnectionError, urllib.error.URLError): time.sleep(10)
        self.assertEqual((found, given.clock.now), ([b'hello'], 3 + 10 + 10 + 4))

    def test_default_timeout(self):
        self.addCleanup(socket.setdefaulttimeout, socket.getdefaulttimeout())
        socket.setdefaulttimeout(1.5)
        with dialer(served(*ANSWER)):
            client = http.client.HTTPConnection('any.example')
            client.request('GET', '/')
            with self.assertRaises(socket.timeout): client.getresponse().read()
        self.assertEqual(client.sock.gettimeout(), 1.5)

    def test_wrong_timeouts(self):
        for error, timeout in (TypeError, '1'), (ValueError, -1):
            with self.assertRaises(error): Socket(served(), timeout=timeout)


class Mail(unittest.TestCase):
    def test_pop(self):
        mail = served((0.5, b'+OK ready\r\n'), (1, b'+OK\r\n+O'), (1.5, b'K\r\n+OK 2 700\r\n'), (9, b'+OK late\r\n'))
        with dialer(mail) as given:
            clock = given.clock
            client = poplib.POP3('any.example', timeout=3)
            client.user('someone')
            client.pass_('secret')
            self.assertEqual((client.stat(), clock.now), ((2, 700), 1.5))
            with self.assertRaises(socket.timeout): client.noop()
            self.assertEqual((client.sock.sent, clock.now), (b'USER someone\r\nPASS secret\r\nSTAT\r\nNOOP\r\n', 4.5))
            client.close()

    def test_smtp(self):
        mail = served((1, b'220 ready\r\n'), (2, b'250-any\r\n250 OK\r\n'), (3, b'250 OK\r\n'), end=(4, 'reset'))
        with dialer(mail) as given, self.assertRaises(smtplib.SMTPServerDisconnected):
            with smtplib.SMTP('any.example', timeout=3) as client: client.sendmail('a@any.example', 'b@any.example', 'text')
        self.assertEqual(given.clock.now, 4)


class Asyncio(unittest.TestCase):
    async def ask(self, timeout=None):
        """A client of messages after their length, which does not know that it is tested."""
        reader, writer = await asyncio.open_connection('any.example', 7000)
        with contextlib.closing(writer):
            writer.write(b'ask\n')
            await writer.drain()
            [length] = struct.unpack('>H', await asyncio.wait_for(reader.readexactly(2), timeout))
            return await asyncio.wait_for(reader.readexactly(length), timeout)

    def told(self, connection, timeout=None):
        """What the client gives or raises, and when."""
        with dialer(connection) as given:
            try: found = asyncio.run(self.ask(timeout))
            except Exception as error: found = type(error)
        self.writer = given.opened[0] if given.opened else None
        return found, given.clock.now

    def test_ends(self):
        answer = (1, b'\0'), (2, b'\5hel'), (4, b'lo')
        self.assertEqual(self.told(served(*answer)), (b'hello', 4))
        self.assertEqual((self.writer.sent, self.writer.get_extra_info('peername')), (b'ask\n', ('192.0.2.2', 80)))
        self.assertEqual(self.told(served(*answer), 2.5), (b'hello', 4))
        self.assertEqual(self.told(served(*answer), 1.5), (asyncio.TimeoutError, 1.5))
        self.assertEqual(self.told(served(*answer[:2], end=(3, 'fin'))), (asyncio.IncompleteReadError, 3))
        self.assertEqual(self.told(served(*answer[:2], end=(3, 'reset'))), (ConnectionResetError, 3))
        self.assertEqual(self.told(served(*answer[:2])), (StillOpen, 2))
        self.assertEqual(self.told(served(*answer[:2]), 5), (asyncio.TimeoutError, 7))
        self.assertEqual(self.told(REFUSED), (ConnectionRefusedError, 0))

    def test_two_at_once(self):
        """Two connections on one clock, lines, and a task of the client that never ends."""
        async def lines(*connection):
            reader, closing = streams(served(*connection, end=(5, 'fin')))
            found = [(asyncio.get_running_loop().time(), line) async for line in reader]
            still, writer = streams(served())
            with self.assertRaises(StillOpen): await still.read()
            return found, await reader.read()

        async def both():
            self.endless = asyncio.ensure_future(asyncio.Event().wait())
            return await asyncio.gather(lines((1, b'a\nb'), (3, b'\n')), lines((2, b'c\n'), (2, b'd\n')))

        self.assertEqual(run(both()), [([(1, b'a\n'), (3, b'b\n')], b''), ([(2, b'c\n'), (2, b'd\n')], b'')])
        self.assertTrue(self.endless.cancelled())

    def test_writes(self):
        """After the client's end nothing is kept and nothing comes, and after a reset drain raises it."""
        faults = []

        async def main():
            asyncio.get_running_loop().set_exception_handler(lambda loop, context: faults.append(context))
            other, closed = streams(served((9, b'x')))
            closed.close()
            closed.write(b'4')
            await closed.wait_closed()
            still, kept = streams(served())
            reader, writer = streams(served((1, b'x'), end=(2, 'reset')))
            writer.writelines([b'1', b'2'])
            writer.write_eof()
            with self.assertRaises(RuntimeError): writer.write(b'3')
            with self.assertRaises(ConnectionResetError): await reader.readline()
            with self.assertRaises(ConnectionResetError): await writer.drain()
            with self.assertRaises(StillOpen): await still.read()
            return writer.sent, closed.sent, await other.read(), asyncio.get_running_loop().time()

        self.assertEqual((run(main()), faults), ((b'12', b'', b'', 2), []))

    def test_threads(self):
        """While a thread works, no connection counts as left alone, and no timeout passes that is longer than its work."""
        async def main():
            loop = asyncio.get_running_loop()
            reader, writer = streams(served((1, b'x')))
            await reader.read(1)
            for timeout in None, 600: await asyncio.wait_for(loop.run_in_executor(None, time.sleep, 0.05), timeout)
            with self.assertRaises(asyncio.TimeoutError): await asyncio.wait_for(reader.read(1), 5)
            return loop.time()

        self.assertEqual(run(main()), 6)

    def test_requests(self):
        """An answer comes after its request; a read without one is told, also at once if a request is short. Reads join chunks if asked."""
        session = served((2, b'yes'), (2, b'no'), (2.0005, b'x'), up=[(1, b'ask')])

        async def main(sent, joins=False, timeout=None):
            reader, writer = streams(session, joins=joins)
            await asyncio.sleep(5)
            writer.write(sent)
            return [await asyncio.wait_for(reader.read(99), timeout)], asyncio.get_running_loop().time()

        for joins in False, True: self.assertEqual(run(main(b'ask', joins)), ([b'yesnox' if joins else b'yes'], 6.0005 if joins else 6))
        for kind, sent, timeout in (Unasked, b'', None), (asyncio.TimeoutError, b'', 9), (Unasked, b'as', None), (Unasked, b'as', 9):
            with self.subTest(sent), self.assertRaises(kind): run(main(sent, timeout=timeout))
        with dialer(session) as given, self.assertRaises(asyncio.TimeoutError): run(self.ask(0.5))
        self.assertEqual((given.opened[0].sent, given.clock.now), (b'ask\n', 0.5))

    def test_another_loop(self):
        async def main(): streams(served())
        with self.assertRaisesRegex(RuntimeError, 'no clock of its own: start the test by toxicap.run'): asyncio.run(main())
        loop = Loop()
        self.addCleanup(loop.close)
        self.assertIsNone(loop.run_until_complete(main()))


class Misuse(unittest.TestCase):
    def test_clock(self):
        """It never goes back."""
        clock = Clock()
        clock.sleep(2)
        clock.reach(1)
        clock.sleep(-1)
        self.assertEqual((clock.now, clock.nanoseconds), (2, 2 * 10**9))

    def test_arguments(self):
        for kind, words, text in (
                (TypeError, [[served()]], r'connection is list: it takes one of delivered\(capture\), a pair of Lines'),
                (TypeError, [(1, 2)], 'connection is tuple'),
                (ValueError, [served(), 'up'], "the side 'up' is neither 'client' nor 'server'"),
                (ValueError, [served(), 'client', None, -1], 'Timeout value out of range')):
            with self.subTest(words), self.assertRaisesRegex(kind, text): Socket(*words)
        with self.assertRaisesRegex(ValueError, r'^there is no connection 7: there are 0 to 10.0.0.1:1 \(0 bytes came\), 1 to 10.0.0.1:2 \(5 bytes came\)$'):
            dialer(served(), served((1, b'hello')), connection=7)
        with self.assertRaisesRegex(ValueError, '^connection \'data\': a number, numbers, "with data" or None is expected$'): dialer(connection='data')

    def test_calls(self):
        """What has no meaning without a descriptor says what helps, by no OSError; and what has none after the end does as the system."""
        each = Socket(served((1, b'hello')))
        for name, words, text in (
                ('fileno', [], r'as TLS \(ssl\), selectors and .* want. Test the client without TLS; read with settimeout, by select'),
                ('connect', [('127.0.0.1', 80)], 'it is connected: a Dialer stands in for connect and create_connection'),
                ('accept', [], 'it is no server: make one before the Dialer'), ('dup', [], 'no file descriptor')):
            with self.assertRaisesRegex(RuntimeError, f'^{name} of a Socket of toxicap: .*{text}'): getattr(each, name)(*words)
        with self.assertRaisesRegex(RuntimeError, r'TLS \(ssl\)'): ssl.create_default_context().wrap_socket(each, server_hostname='any.example')
        each.setsockopt(socket.IPPROTO_TCP, socket.TCP_NODELAY, 1)
        options = (socket.IPPROTO_TCP, socket.TCP_NODELAY), (socket.SOL_SOCKET, socket.SO_TYPE), (socket.SOL_SOCKET, socket.SO_ERROR)
        self.assertEqual([each.getsockopt(*option) for option in options], [1, socket.SOCK_STREAM, 0])
        for size in -1, 9:
            with self.assertRaises(ValueError): each.recv_into(bytearray(8), size)
        with self.assertRaises(OSError): each.recv(1, socket.MSG_OOB)
        self.assertEqual((each.recv(0), each.recv_into(bytearray()), each.clock.now), (b'', 0, 0))
        self.assertEqual((each.recv_into(memoryview(bytearray(8)).cast('H'), 3), each.recv(9), each.clock.now), (3, b'lo', 1))
        each.setblocking(False)
        self.assertEqual((each.gettimeout(), each.getblocking(), isinstance(each, socket.socket)), (0, False, True))
        with each.makefile('rw', newline='\n') as file:
            each.close()
            file.write('kept')
        self.assertEqual((each.sent, each.fileno()), (b'kept', -1))

    def test_messages(self):
        """Flags of reads, and calls with several buffers."""
        each, rooms = Socket(served((1, b'he'), (2, b'llo'), (3, b'more'), end=(4, 'fin'))), [bytearray(1), bytearray(4)]
        self.assertEqual((each.recv(9, socket.MSG_PEEK), each.recvfrom(1), each.clock.now), (b'he', (b'h', None), 1))
        self.assertEqual((each.recv(4, socket.MSG_WAITALL), each.clock.now), (b'ello', 2))
        self.assertEqual((each.recvmsg_into(rooms), rooms, each.clock.now), ((4, [], 0, None), [b'm', b'ore\0'], 3))
        self.assertEqual((each.sendmsg([b'a', bytearray(b'bc')]), each.sent), (3, b'abc'))
        self.assertEqual((each.recv(4, socket.MSG_WAITALL), each.recvmsg(4), each.clock.now), (b'', (b'', [], 0, None), 4))
        each = Socket(served(end=(1, 'reset')))
        each.advance(1)
        self.assertEqual([each.getsockopt(socket.SOL_SOCKET, socket.SO_ERROR) for _ in range(2)], [errno.ECONNRESET, 0])


if __name__ == '__main__': unittest.main()
