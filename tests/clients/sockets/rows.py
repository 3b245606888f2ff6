"""Sockets against the rows of tests/clients/sockets/rows, which are those of each language."""
import pathlib, socket, unittest
from toxicap import Line, Lines, Socket, StillOpen, Unasked

KINDS = {socket.timeout: 'timeout', Unasked: 'unasked', StillOpen: 'forever', ConnectionResetError: 'reset', BrokenPipeError: 'broken', AssertionError: 'other'}
TEXT = pathlib.Path(__file__).with_name('rows').read_text()


def line(parts):
    chunks = [(int(at) * 10**6, text.encode()) for at, text in parts if text not in ('fin', 'reset')]
    return Line(chunks, next(((int(at) * 10**6, text) for at, text in parts if text in ('fin', 'reset')), None))


def opened(words, same):
    lines = {name: [each[1:] for each in words if each[0] == name] for name in ('recorded-up', 'recorded-down', 'up', 'down')}
    recorded = Lines(line(lines['recorded-up']), line(lines['recorded-down'] or lines['down']), 0, '10.0.0.1:1')
    output = Lines(line(lines['up'] or lines['recorded-up']), line(lines['down']), 0, '10.0.0.1:1', lambda: [recorded])
    return Socket(output, same_requests=same)


def done(each, call, words):
    """What a call gives."""
    try:
        if call == 'read': return each.recv(100).decode() or 'fin'
        each.sendall(words[0].encode())
        return 'taken'
    except tuple(KINDS) as error: return KINDS[type(error)]


class Rows(unittest.TestCase):
    def test_rows(self):
        for row in TEXT.split('\n== ')[1:]:
            name, *rest = row.splitlines()
            words = [each.split() for each in rest if each]
            each = opened(words, ['same'] in words)
            for number, (call, *more) in enumerate(words):
                with self.subTest(name, number=number, call=call):
                    if call == 'timeout': each.settimeout(int(more[0]) / 1000)
                    elif call == 'advance': each.advance(int(more[0]) / 1000)
                    elif call == 'shut': each.shutdown(socket.SHUT_WR)
                    elif call == 'write': self.assertEqual(done(each, call, more), more[1])
                    elif call == 'read': self.assertEqual((done(each, call, more), each.clock.nanoseconds), (more[0], int(more[1]) * 10**6))


if __name__ == '__main__': unittest.main()
