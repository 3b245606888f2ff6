"""Clients with a bug that a live test finds, and dialers, which stand in for the standard library's connections. Lines are those of clients.py."""
import asyncio, contextlib, http.client, importlib.util, select, selectors, socket, time, unittest
from concurrent.futures import ThreadPoolExecutor
from clients import ANSWER, dialer, line, served
from toxicap import Socket, StillOpen, Unasked


class Bugs(unittest.TestCase):
    """Clients with a bug that a live test finds, over a session of two requests; without what is set here each passes."""

    SESSION = served((0.2, b'+OK\r\n'), (0.4, b'$1\r\n1\r\n'), up=[(0.1, b'SET a 1\r\n'), (0.3, b'GET a\r\n')])

    def test_no_request(self):
        for waits in False, True:
            silent = Socket(self.SESSION, waits=waits, timeout=5)
            with self.assertRaises(TimeoutError if waits else AssertionError): self.assertEqual(silent.recv(9), b'')
            self.assertEqual(silent.clock.now, 5 if waits else 0.2)
        with self.assertRaisesRegex(Unasked, '^the client sent 0 of 9 bytes'): Socket(self.SESSION).recv(9)

    def test_a_short_request(self):
        """It is told at once, also if a test expects a timeout."""
        short = Socket(self.SESSION, timeout=0.05)
        short.send(b'SET a')
        with self.assertRaisesRegex(Unasked, '^the client sent 5 of 9 bytes'): short.recv(9)

    def test_another_request(self):
        for same in False, True:
            wrong = Socket(self.SESSION, same_requests=same)
            with self.subTest(same), self.assertRaisesRegex(AssertionError, "^the client sent b'DEL a 1" if same else 'passes'):
                wrong.send(b'DEL a 1\r\n')
                raise AssertionError('passes' if wrong.recv(9) == b'+OK\r\n' else '')

    def test_two_answers_in_a_read(self):
        """A client that drops what follows an answer in one read."""
        for joins in False, True:
            client = Socket(self.SESSION, joins=joins, timeout=5)
            client.send(b'SET a 1\r\nGET a\r\n')
            client.advance(1)
            found = [client.recv(100).split(b'\r\n')[0]]
            with self.assertRaises(TimeoutError) if joins else contextlib.nullcontext(): found.append(client.recv(100).split(b'\r\n')[0])
            self.assertEqual(found, [b'+OK'] if joins else [b'+OK', b'$1'])

    def test_writes_without_end(self):
        """A client that writes on, as long as no write fails: a reset comes while it works."""
        client = Socket(served(end=(0.05, 'reset')))
        with self.assertRaises(ConnectionResetError):
            for _ in range(100):
                client.send(bytes(1000))
                client.advance(0.001)
        self.assertEqual((len(client.sent), client.clock.now), (50000, 0.05))
        closed = Socket((line([], (0.05, 'fin')), line([], (0.05, 'fin'))))
        closed.advance(1)
        with self.assertRaises(BrokenPipeError):
            for _ in range(2): closed.send(b'x')


    def test_a_deadline(self):
        """A client with one deadline for all its reads, by time.monotonic: each of three comes in time, and all of them do not."""
        with dialer(served((0.4, b'a'), (0.8, b'b'), (1.2, b'c'))) as given, self.assertRaises(TimeoutError):
            client, deadline = socket.create_connection(('any', 80)), time.monotonic() + 1
            for _ in range(3):
                client.settimeout(deadline - time.monotonic())
                client.recv(1)
        self.assertAlmostEqual(given.clock.now, 1)

    def test_threads(self):
        """Another thread keeps the system's time."""
        with dialer() as given, ThreadPoolExecutor(1) as pool:
            begun = pool.submit(time.monotonic).result()
            pool.submit(time.sleep, 0.01).result()
            time.sleep(100)
            self.assertEqual(given.clock.now, 100)
            self.assertLess(pool.submit(time.monotonic).result() - begun, 90)


class Dialers(unittest.TestCase):
    TWO = served((1, b'one'), up=[(0, b'1')]), served((1, b'two'), up=[(0, b'2')])

    def take(self, request, *address, **settings):
        with contextlib.closing(socket.create_connection(address, **settings)) as client:
            client.sendall(request)
            return client.recv(9)

    def test_in_turn_and_by_address(self):
        with dialer(*self.TWO) as given: self.assertEqual([self.take(b'1', 'web', 80), self.take(b'2', 'db', 81)], [b'one', b'two'])
        self.assertEqual(([each.sent for each in given.opened], given.clock.now), ([b'1', b'2'], 2))
        with dialer(*self.TWO, hosts={'db': '10.0.0.1'}): self.assertEqual([self.take(b'2', 'db', 2), self.take(b'1', '10.0.0.1', 1)], [b'two', b'one'])
        with dialer(*self.TWO, hosts={'db': '10.0.0.1'}, whole=False):
            with self.assertRaisesRegex(ConnectionRefusedError, 'no further connection to 10.0.0.1:3 .left to dial: 10.0.0.1:1, 10.0.0.1:2.'): self.take(b'', 'db', 3)
            with self.assertRaisesRegex(socket.gaierror, "has no name 'web': it has db"): socket.getaddrinfo('web', 80)

    def test_with_data(self):
        """Connections on which the server sent nothing, such as those that only look whether it listens, are left out."""
        with dialer(served(), self.TWO[0], served(), connection='with data'): self.assertEqual(self.take(b'1', 'any', 80), b'one')

    def test_what_is_left(self):
        """The end tells of connections that were not dialled, or not read; a timeout is an end of one, but not if its request was not sent."""
        for expected, request, size, timeout in (
                ('connection 0 to 10.0.0.1:1: 1 of 3 bytes were not read', b'1', 2, None), ('', b'1', 9, None), ('', b'1', 9, 0.5),
                ('connection 0 to 10.0.0.1:1: 3 of 3 bytes were not read: the client sent 0 of 1 bytes before them', b'', 9, 0.5)):
            with self.subTest(expected), self.assertRaises(AssertionError) as raised, dialer(*self.TWO):
                client = socket.create_connection(('any', 80), timeout)
                client.sendall(request)
                with contextlib.suppress(TimeoutError): client.recv(size)
            rest = 'connection 1 to 10.0.0.1:2 was not dialled', 'whole=False takes connections that are left'
            self.assertEqual(str(raised.exception), '\n'.join([*filter(None, [expected]), *rest]))
        with self.assertRaises(ZeroDivisionError) as failed, dialer(*self.TWO): raise ZeroDivisionError
        if hasattr(failed.exception, 'add_note'): self.assertRegex(failed.exception.__notes__[0], '^connection 0 to 10.0.0.1:1 was not dialled\n')

    def test_sockets_that_connect(self):
        """TCP sockets that are made in the body, by select and poll; others are the system's, and all is as before at the end."""
        before = socket.socket, socket.create_connection, socket.getaddrinfo, select.select, select.poll, asyncio.open_connection, asyncio.new_event_loop
        with dialer(*self.TWO) as given:
            client, poller = socket.socket(), select.poll()
            with self.assertRaises(OSError): client.recv(1)
            self.assertEqual((client.connect_ex(('any', 80)), client.send(b'1')), (0, 1))
            with self.assertRaisesRegex(RuntimeError, 'it is connected'): client.connect(('any', 80))
            poller.register(client, select.POLLIN)
            self.assertEqual((poller.poll(500), given.clock.now), ([], 0.5))
            self.assertEqual((select.select([client], [client], [], 5)[1], poller.poll(9000), given.clock.now), ([client], [(client, select.POLLIN)], 1))
            poller.modify(client, select.POLLOUT)
            self.assertEqual((poller.poll(), select.select([client], [], [])[0], client.recv(9)), ([(client, select.POLLOUT)], [client], b'one'))
            with self.assertRaises(StillOpen): select.select([client], [], [])
            with self.assertRaisesRegex(RuntimeError, 'by select.select or select.poll in a Dialer'): selectors.DefaultSelector().register(client, 1)
            ours, theirs = socket.socketpair()
            with ours, theirs:
                ours.send(b'x')
                self.assertEqual((select.select([theirs, client], [], [], 0)[0], isinstance(theirs, socket.socket)), ([theirs], True))
            self.assertEqual(self.take(b'2', 'any', 80, source_address=('', 0)), b'two')
        now = socket.socket, socket.create_connection, socket.getaddrinfo, select.select, select.poll, asyncio.open_connection, asyncio.new_event_loop
        self.assertEqual(now, before)

    def test_protocols(self):
        """Connections of a loop by create_connection: a client that waits, and one that gives up."""
        class Asks(asyncio.Protocol):
            def connection_made(self, transport):
                self.came = []
                transport.write(b'1')

            def data_received(self, data): self.came.append(data)

        async def main(seconds):
            transport, protocol = await asyncio.get_running_loop().create_connection(Asks, 'any', 80)
            await asyncio.sleep(seconds)
            transport.close()
            return protocol.came

        for seconds, expected in (5, [b'one']), (0.5, []):
            with dialer(self.TWO[0]) as given: self.assertEqual(asyncio.run(main(seconds)), expected)
            self.assertEqual((given.opened[0].sent, given.clock.now), (b'1', seconds))

    def test_no_tls(self):
        async def main(): await asyncio.open_connection('any', 443, ssl=True)
        with dialer(*self.TWO, whole=False):
            with self.assertRaisesRegex(RuntimeError, 'has no TLS'): asyncio.run(main())
            with self.assertRaisesRegex(RuntimeError, 'TLS .ssl.'): http.client.HTTPSConnection('any').connect()

    @unittest.skipUnless(importlib.util.find_spec('requests'), 'requests is not here')
    def test_requests(self):
        """One session keeps its connection alive: two answers, each to its request."""
        import requests
        with dialer(served(*ANSWER)) as given: self.get(requests)
        recorded = given.opened[0].sent
        later = tuple((at + 10, what) for at, what in ANSWER)
        with dialer(served(*ANSWER, *later, up=[(0, recorded), (10, recorded)]), same_requests=True) as given, requests.Session() as session:
            self.assertEqual([self.get(session), self.get(session), given.clock.now], [b'hello', b'hello', 8])

    @unittest.skipUnless(importlib.util.find_spec('redis'), 'redis is not here')
    def test_redis(self):
        """redis-py, and its form for asyncio: two commands, and a timeout."""
        import redis, redis.asyncio
        commands = b'*3\r\n$3\r\nSET\r\n$1\r\na\r\n$1\r\n1\r\n', b'*2\r\n$3\r\nGET\r\n$1\r\na\r\n'
        session = served((1, b'+OK\r\n'), (3, b'$1\r\n1\r\n'), up=[(0, commands[0]), (2, commands[1])])

        async def both(timeout):
            client = redis.asyncio.Redis(host='redis.example', socket_timeout=timeout)
            try: return [await client.set('a', '1'), await client.get('a')]
            finally: await client.close()

        for joins in False, True:
            with dialer(session, joins=joins, same_requests=True) as given, redis.Redis('redis.example', socket_timeout=5) as client:
                self.assertEqual([client.set('a', '1'), client.get('a'), given.clock.now], [True, b'1', 2])
            with dialer(session, joins=joins, same_requests=True): self.assertEqual(asyncio.run(both(5)), [True, b'1'])
        with dialer(session) as given, self.assertRaises(redis.exceptions.TimeoutError): asyncio.run(both(0.5))
        with dialer(session), self.assertRaises(redis.exceptions.TimeoutError): redis.Redis('redis.example', socket_timeout=0.5).set('a', '1')

    def get(self, session): return session.get('http://any.example/', timeout=5, proxies={'http': ''}).content


if __name__ == '__main__': unittest.main()
