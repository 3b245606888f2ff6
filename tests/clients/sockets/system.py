"""Once bytes and an end have come, a Socket does what the system's sockets do on 127.0.0.1, by any four calls in any order."""
import itertools, select, socket, struct, unittest
from toxicap import Line, Socket

CALLS = {
    'recv': lambda each: each.recv(3), 'send': lambda each: each.send(b'xy'), 'close': lambda each: each.close(),
    'end writing': lambda each: each.shutdown(socket.SHUT_WR), 'end reading': lambda each: each.shutdown(socket.SHUT_RD)}


def done(each, name):
    """What a call gives or raises."""
    try: return CALLS[name](each)
    except OSError as error: return type(error), error.errno


def await_event(each, event):
    poller = select.poll()
    poller.register(each, event)
    if not poller.poll(60000): raise TimeoutError(f'event {event} does not come')


class System(unittest.TestCase):
    def compare(self, end, finish, up=None):
        """By a listener, peers that send `hello` and end by `finish`, and the same in a Socket."""
        with socket.socket() as listener:
            listener.bind(('127.0.0.1', 0))
            listener.listen(1)
            for order in itertools.product(CALLS, repeat=4):
                ours = Socket((Line([], up), Line([(5, b'hello')], end and (7, end))), timeout=0)
                ours.clock.sleep(1)
                with ours, socket.create_connection(listener.getsockname()) as theirs, listener.accept()[0] as peer:
                    theirs.setblocking(False)
                    peer.sendall(b'hello')
                    await_event(theirs, select.POLLIN)
                    finish(theirs, peer)
                    for number, name in enumerate(order):
                        self.assertEqual(done(ours, name), done(theirs, name), (end, order, number))

    def test_open(self): self.compare(None, lambda theirs, peer: None)

    def test_fin(self):
        def finish(theirs, peer):
            peer.shutdown(socket.SHUT_WR)
            await_event(theirs, select.POLLRDHUP)

        self.compare('fin', finish)

    def test_close(self):
        """Both directions have ended: what is written then is answered by a reset."""
        def finish(theirs, peer):
            peer.close()
            await_event(theirs, select.POLLRDHUP)

        self.compare('fin', finish, (7, 'fin'))

    def test_reset(self):
        def finish(theirs, peer):
            peer.setsockopt(socket.SOL_SOCKET, socket.SO_LINGER, struct.pack('ii', 1, 0))
            peer.close()
            await_event(theirs, 0)

        self.compare('reset', finish)


if __name__ == '__main__': unittest.main()
