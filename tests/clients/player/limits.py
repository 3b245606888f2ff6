"""What a player does with its clients: its limit, several connections, what clients sent, and how it is used. OUTPUTS is that of clients.py."""
import contextlib, io, os, re, resource, socket, subprocess, sys, time, unittest, unittest.mock
from clients import BODY, ask, connect, files, play, read
from toxicap.player import Player

SHORT = 2  # a limit that is waited for
SESSIONS = [b'*1\r\n$4\r\nPING\r\n', b'one?two?', b'sum', b'bye']  # what the recorded clients sent


class Limits(unittest.TestCase):
    def missing(self, name, talk, connection=0, **settings):
        """What a player misses whose limit runs out, after `talk` with it. A client that `talk` gives stays until then."""
        said = io.StringIO()
        with contextlib.redirect_stderr(said), self.assertRaises(TimeoutError) as ended, play(name, connection, limit=SHORT, **settings) as player:
            client = talk(player)
            player.join()
            if client: client.close()
        self.assertEqual((str(ended.exception), said.getvalue()), (player.late, ''))
        return re.fullmatch(f'player: port {player.port}: (.*) [(]limit {SHORT} s[)]', player.late)[1]

    def test_fewer_bytes(self):
        def talk(player):
            with connect(player) as client:
                client.sendall(b'on')
                self.assertEqual(read(client), b'')
        self.assertEqual(self.missing('sessions-untouched', talk, 1), 'connection 1: the client sent 2 of 4 bytes')

    def test_a_side_that_does_not_close(self):
        def talk(player):
            client = connect(player)
            client.sendall(b'sum')
            return client
        self.assertEqual(self.missing('sessions-untouched', talk, 2), 'connection 2: the client sent 3 of 3 bytes and did not close')

    def test_the_limit_is_for_all(self):
        def talk(player):
            with connect(player) as client:
                time.sleep(SHORT * 0.8)
                client.sendall(b'one?')
                self.assertEqual(read(client), b'1')
        begun = time.monotonic()
        self.assertEqual(self.missing('sessions-untouched', talk, 1), 'connection 1: the client sent 4 of 8 bytes')
        self.assertLess(time.monotonic() - begun, SHORT * 1.6)

    def test_an_answer_under_way_is_none_of_the_clients_time(self):
        begun = time.monotonic()
        with play('sessions-late', None, limit=SHORT, factor=10) as player, contextlib.ExitStack() as clients:
            for question in SESSIONS[:2]:
                client = clients.enter_context(connect(player))
                client.sendall(question)
            self.assertEqual(read(client, 1), b'1')
        self.assertGreater(time.monotonic() - begun, SHORT * 1.5)

    def test_a_client_that_stays(self):
        def talk(player):
            client = connect(player)
            self.assertEqual(read(client, 5), b'hello')
            client.sendall(b'bye')
            self.assertEqual(read(client), b'')
            return client
        self.assertEqual(self.missing('sessions-untouched', talk, 3), 'connection 3: the client did not close')

    def test_a_client_that_reads_nothing(self):
        def talk(player):
            client = connect(player)
            client.sendall(b'?')
            return client
        self.assertRegex(self.missing('much', talk), '^connection 0: the client left [0-9]+ bytes$')

    def test_no_client(self):
        self.assertEqual(self.missing('http-late', lambda player: None), 'no client came')
        with self.assertRaisesRegex(TimeoutError, '^player: port [0-9]+: no client came$'), play('http-late') as player: pass
        self.assertRegex(player.late, 'no client came$')

    def test_used_once(self):
        player = play('http-down')
        with self.assertRaisesRegex(RuntimeError, 'in the body of its with'): player.port
        with player, self.assertRaisesRegex(RuntimeError, '^a player serves one with'), player: pass
        with self.assertRaisesRegex(RuntimeError, '^a player serves one with'), player: pass

    def test_sockets(self):
        def count(): return len(os.listdir('/proc/self/fd'))
        before = count()
        unused = [play(name) for name in ('http-late', 'http-down')]
        self.assertEqual(count(), before)
        for player in unused:
            with contextlib.suppress(TimeoutError), player: pass
        self.assertEqual(count(), before)

    def test_many_open_files(self):
        most = resource.getrlimit(resource.RLIMIT_NOFILE)
        if most[1] < 2000: self.skipTest('no 2,000 files may be open')
        resource.setrlimit(resource.RLIMIT_NOFILE, (2000, most[1]))
        with contextlib.ExitStack() as opened:
            opened.callback(resource.setrlimit, resource.RLIMIT_NOFILE, most)
            for _ in range(1100): opened.enter_context(open(os.devnull))
            with play('http-untouched') as player: self.assertEqual(ask(player), BODY)

    def test_faults_of_the_machine(self):
        with unittest.mock.patch.object(socket.socket, 'accept', side_effect=OSError('out of files')):
            with self.assertRaisesRegex(OSError, '^out of files$'), play('http-late') as player, contextlib.suppress(ConnectionError):
                with connect(player): player.join()

    def test_several_connections(self):
        with play('sessions-late', None, factor=0) as player, contextlib.ExitStack() as stack:
            clients = [stack.enter_context(connect(player)) for _ in SESSIONS]
            with self.assertRaises(ConnectionRefusedError):  # the last one has its answer, so that nobody listens
                self.assertEqual(read(clients[3], 5), b'hello')
                connect(player)
            for client, part in zip(clients, SESSIONS): client.sendall(part[:4])
            self.assertEqual(read(clients[1], 1), b'1')
            clients[2].shutdown(socket.SHUT_WR)
            for client, part in zip(clients, SESSIONS): client.sendall(part[4:]) if part[4:] else None
            self.assertEqual([read(client, length) for client, length in zip(clients, (7, 5, 1))], [b'+PONG\r\n', b'22333', b'6'])
        self.assertEqual(player.received, SESSIONS)

    def test_a_list_of_connections(self):
        with play('sessions-cut', [3, 1, 3], limit=SHORT) as player:
            for question, answer in (b'bye', b'he'), (b'one?two?', b'12'), (b'bye', b'he'):
                with connect(player) as client:
                    client.sendall(question)
                    self.assertEqual(read(client), answer)
            player.join()
            with self.assertRaises(ConnectionRefusedError): connect(player)
        def talk(player):
            for _ in range(2): connect(player).close()
        self.assertEqual(self.missing('sessions-cut', talk, [0, 1, 2]), '2 of 3 clients came')

    def test_refused_ones_in_a_list(self):
        with play('sessions-down', None) as player:
            for _ in range(2):
                with self.assertRaises(ConnectionRefusedError): connect(player)
        for numbers in None, [3, 1], [1, 0]:
            with self.assertRaisesRegex(ValueError, '^connection 1 is refused and connection [03] is not: one port cannot do both, '):
                play('sessions-mixed', numbers)
        with play('sessions-mixed', [0, 2]) as player: connect(player).close()

    def test_the_recorded_requests(self):
        for sent, told in ((b'one?tWo?', "sent b'Wo[?]' at byte 5, and the recorded one b'wo[?]'"),
                           (b'one?two?three', "sent b'three' at byte 8, and the recorded one b''")):
            with self.assertRaisesRegex(AssertionError, f'^player: port [0-9]+: connection 1: the client {told}$'):
                with play('sessions-untouched', 1, same_requests=True) as player, connect(player) as client:
                    client.sendall(sent[:5])
                    client.sendall(sent[5:])
                    with contextlib.suppress(ConnectionResetError): read(client)
            self.assertEqual((player.received, player.late), ([sent], None))
        with play('sessions-untouched', 1, same_requests=True) as player, connect(player) as client: client.sendall(b'one')
        with play('sessions-untouched', 1) as player, connect(player) as client:
            client.sendall(b'ONE!TWO!')
            self.assertEqual(read(client, 6), b'122333')
            client.sendall(b'x' * 100000)
        self.assertEqual(player.received, [b'ONE!TWO!' + b'x' * 100000])

    def test_a_flood(self):
        """A client that sends without end is ended, also if no limit is near."""
        with self.assertRaisesRegex(AssertionError, '^player: port [0-9]+: connection 1: the client sent 1[0-9]{6} bytes more than the recorded one$'):
            with play('sessions-untouched', 1, limit=3600) as player, connect(player) as client, contextlib.suppress(ConnectionError):
                for _ in range(100000): client.sendall(bytes(65536))
        self.assertLess(len(player.received[0]), 1 << 21)

    def test_the_command(self):
        differs = "connection 0: the client sent b'bye' at byte 0, and the recorded one .*\n"
        for connection, option, told in ('3,1', '--gap=0.001', ''), ('all', '--same-requests', differs):
            command = [sys.executable, '-B', '-m', 'toxicap.player', '--factor=0', '--limit=60', f'--connection={connection}', option, *files('sessions-late')]
            with subprocess.Popen(command, text=True, stdout=subprocess.PIPE, stderr=subprocess.PIPE) as running:
                port = int(running.stdout.readline())
                for question in b'bye', b'one?two?':
                    with contextlib.suppress(ConnectionError), socket.create_connection(('127.0.0.1', port), timeout=60) as client:
                        client.sendall(question)
                        self.assertIn(read(client, 6), [b'hello', b'122333'] if not told else [b''])
                self.assertRegex(running.communicate()[1], f'^{told and f"player: port {port}: "}{told}$')
            self.assertEqual(running.returncode, told != '')

    def test_a_limit_below_the_clients(self):
        with self.assertRaisesRegex(TimeoutError, '^player: port [0-9]+: connection 0: the client did not close [(]limit 1 s[)]$'):
            with play('http-silent', limit=1) as player, connect(player) as client:
                client.sendall(b'x' * 82)
                self.assertEqual(read(client), b'')
        self.assertRegex(player.late, 'did not close')

    def test_a_limit_in_a_test_that_fails(self):
        with self.assertRaises(ZeroDivisionError) as failed:
            with play('http-silent', limit=1) as player, connect(player) as client:
                self.assertEqual(read(client), b'')
                raise ZeroDivisionError
        if hasattr(failed.exception, 'add_note'): self.assertEqual(failed.exception.__notes__, [player.late])


if __name__ == '__main__': unittest.main()
