"""Real clients at players, over the folder of outputs that OUTPUTS names. Nothing waits longer than a minute; what has to come late is
looked at for its least time alone."""
import contextlib, http.client, os, pathlib, selectors, socket, statistics, time, unittest, unittest.mock
from measure import measure
from toxicap.player import Player

BODY = b'Hello from the sample server.\n'
HEADER = (b'HTTP/1.0 200 OK\r\nServer: SimpleHTTP/0.6 Python/3.11.7\r\nDate: Sun, 22 Nov 2026 10:16:21 GMT\r\nContent-type: text/plain\r\n'
          b'Content-Length: 30\r\nLast-Modified: Sun, 22 Nov 2026 10:16:19 GMT\r\n\r\n')
LATE = 0.5  # seconds in which nothing may come


def files(name): return [pathlib.Path(os.environ['OUTPUTS'], name, file) for file in ('0000.pcap', '0001.pcap')]


def outputs(name): return tuple(file.read_bytes() for file in files(name))


def play(name, connection=0, **settings):
    return Player(*outputs(name), connection, **{'limit': 60, **settings})


def connect(player):
    client = socket.create_connection(('127.0.0.1', player.port), timeout=60)
    client.setsockopt(socket.IPPROTO_TCP, socket.TCP_NODELAY, 1)
    return client


def read(client, length=1000):
    """The client's next bytes: `length`, or up to the end."""
    found = b''
    while len(found) < length:
        more = client.recv(length - len(found))
        if not more: break
        found += more
    return found


def ask(player):
    """What http.client makes of the answer; its request has 82 bytes as the recorded one, or more."""
    client = http.client.HTTPConnection('127.0.0.1', player.port, timeout=60)
    with contextlib.closing(client):
        client.request('GET', '/hello.txt', headers={'User-Agent': 'a client of 82 bytes'})
        return client.getresponse().read()


class Clients(unittest.TestCase):
    def nothing_comes(self, client):
        client.settimeout(LATE)
        with self.assertRaises(socket.timeout): client.recv(1)
        client.settimeout(60)

    def test_an_answer(self):
        with play('http-untouched') as player: self.assertEqual(ask(player), BODY)

    def test_a_late_answer(self):
        with play('http-late') as player:
            begun = time.monotonic()
            self.assertEqual(ask(player), BODY)
            self.assertGreaterEqual(time.monotonic() - begun, 0.3)

    def test_at_once(self):
        with play('http-in-a-year', factor=0) as player: self.assertEqual(ask(player), BODY)

    def test_pauses(self):
        for pauses, least in (True, 0.25), (False, 0.125):
            with play('http-late-pauses', pauses=pauses, factor=0.5) as player:
                begun = time.monotonic()
                with connect(player) as client:
                    client.sendall(b'?')
                    self.assertEqual(read(client), b'!')
                self.assertGreaterEqual(time.monotonic() - begun, least)

    def test_a_cut_answer(self):
        with play('http-cut') as player, connect(player) as client:
            client.sendall(b'x' * 82)
            self.assertEqual(read(client), HEADER[:100])

    def test_a_cut_body(self):
        with play('http-cut-body') as player, self.assertRaises(http.client.IncompleteRead) as cut: ask(player)
        self.assertEqual(cut.exception.partial, BODY[:200 - len(HEADER)])

    def test_a_close_without_an_answer(self):
        with play('http-closed') as player, self.assertRaises(http.client.RemoteDisconnected): ask(player)

    def test_a_reset(self):
        with play('http-reset') as player, connect(player) as client:
            client.sendall(b'x' * 82)
            self.assertEqual(read(client, len(HEADER)), HEADER)
            with self.assertRaises(ConnectionResetError): client.recv(1)

    def test_silence(self):
        with play('http-silent') as player, connect(player) as client:
            client.sendall(b'x' * 82)
            self.nothing_comes(client)

    def test_a_refusal(self):
        with play('http-down') as player, self.assertRaises(ConnectionRefusedError): connect(player)

    def test_questions_in_turn(self):
        with play('sessions-untouched', 1) as player, connect(player) as client:
            self.nothing_comes(client)
            client.sendall(b'one')
            self.nothing_comes(client)
            client.sendall(b'?')
            self.assertEqual(read(client, 1), b'1')
            self.nothing_comes(client)
            client.sendall(b'two?')
            self.assertEqual(read(client, 5), b'22333')
            self.nothing_comes(client)

    def test_a_client_that_closes_its_side(self):
        with play('sessions-untouched', 2) as player, connect(player) as client:
            client.sendall(b'sum')
            self.nothing_comes(client)
            client.shutdown(socket.SHUT_WR)
            self.assertEqual(read(client), b'6')

    def test_a_server_that_speaks_first(self):
        with play('sessions-untouched', 3) as player, connect(player) as client:
            self.assertEqual(read(client, 5), b'hello')
            self.nothing_comes(client)
            client.sendall(b'bye')
            self.assertEqual(read(client), b'')

    def test_a_second_client(self):
        with play('sessions-untouched', 3) as player, connect(player) as client:
            self.assertEqual(read(client, 5), b'hello')
            with self.assertRaises(ConnectionRefusedError): connect(player)

    def test_fewer_bytes_and_a_close(self):
        with play('sessions-untouched', 1) as player, connect(player) as client:
            client.sendall(b'on')
            client.shutdown(socket.SHUT_WR)
            self.assertEqual(read(client), b'')
        self.assertEqual((player.received, player.late), ([b'on'], None))

    def test_an_end_at_any_time(self):
        with play('http-in-a-year', limit=3600) as player, connect(player) as client: client.sendall(b'x' * 82)
        with play('much', limit=3600) as player, connect(player) as client: client.sendall(b'?')
        with play('http-late', limit=3600) as player, connect(player): pass
        with play('http-in-a-year', factor=1e6, limit=float('inf')) as player, connect(player) as client: client.sendall(b'x' * 82)
        with play('http-down', limit=float('inf')): pass

    def test_slices_stay_apart(self):
        for threads, settings, most in (False, {}, 0.05), (True, {}, 0.05), (False, {'factor': 0, 'gap': 0.005}, None):
            for _ in range(5):  # a machine that does much else may need some
                found = measure(*files('slices'), threads=threads, **settings)
                if found.kept >= 0.95 * found.borders > 90 and (not most or statistics.median(found.late) < most): break
            else: self.fail(f'{settings}: {found.kept} of {found.borders}, {statistics.median(found.late)} s late')
            self.assertGreater(min(found.late), -0.001)

    def test_slices_of_a_late_player(self):
        class Late(selectors.DefaultSelector):
            def select(self, timeout=None):
                if timeout: time.sleep(0.01)
                return super().select(timeout)
        with unittest.mock.patch('selectors.DefaultSelector', Late): found = measure(*files('slices'))
        self.assertGreater(found.kept, 0.8 * found.borders)

    def test_faults(self):
        (late, untouched), (other, _) = outputs('http-late'), outputs('sessions-late')
        there = r'there is 0 to 10.77.0.2:80 \(216 bytes came\)$'
        for fault, arguments in ((f'there is no connection 1: {there}', (late, untouched, 1)), (f'there is no connection -1: {there}', (late, untouched, -1)),
                                 ('there is no connection 2', (late, untouched, [0, 2])),
                                 ('there is no connection', (late, untouched, [])), ("connection 'data': a number", (late, untouched, 'data')),
                                 ('the outputs are not of one capture', (late, other)), ('no output capture of toxicap: it has', (late, b''))):
            with self.assertRaisesRegex(ValueError, f'^{fault}'): Player(*arguments)
        with self.assertRaisesRegex(TypeError, '^a player of a stored output takes that under `\\[\\]` too$'): Player(late)

    def test_answers_in_time(self):
        """An answer after half a millisecond takes no further half of its own."""
        path = files('slices')[1]
        best = min(statistics.median(measure(path, path).late) for _ in range(10))  # a machine that does much else may need some
        self.assertLess(best, 0.0004)

    def test_swapped_outputs(self):
        for name in 'http-late', 'http-late-up', 'http-cut', 'http-reset', 'http-closed', 'http-silent-up', 'http-down', 'sessions-late', 'sessions-cut':
            with self.assertRaisesRegex(ValueError, '^connection 0 has more or earlier bytes in the first output: the output under the scenario has to '
                                        'come first, the untouched one second$'): Player(*reversed(outputs(name)))
            play(name)

    def test_a_client_that_gives_up(self):
        with play('http-in-a-year') as player:
            with connect(player) as client: client.sendall(b'x')
            player.join()
        self.assertIsNone(player.late)


if __name__ == '__main__': unittest.main()
