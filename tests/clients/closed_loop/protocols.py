"""Three clients and servers that wait for one another. Each takes its end of a connection and a clock (clocks.py), and returns when the other side has closed."""
import http.client
import struct
import types

SERVER_PAUSE, CLIENT_PAUSE = 0.003, 0.002  # seconds before an answer, and before a request


def exactly(file, count):
    data = file.read(count)
    if len(data) < count:
        raise EOFError
    return data


def mail_server(connection, clock):
    """Lines, as of POP3: the server begins and ends."""
    file = connection.makefile("rb")
    connection.sendall(b"+OK ready\r\n")
    for line in file:
        clock.sleep(SERVER_PAUSE)
        word, *number = line.split()
        if word == b"RETR":
            connection.sendall(b"+OK\r\n" + b"a line of the mail\r\n" * 60 * int(number[0]) + b".\r\n")
        else:
            connection.sendall(b"+OK\r\n")
        if word == b"QUIT":
            break


def mail_client(connection, clock):
    file = connection.makefile("rb")
    exactly(file, 11)
    for request in b"USER me", b"PASS secret", b"STAT", b"RETR 1", b"RETR 2", b"RETR 1", b"DELE 1", b"QUIT":
        clock.sleep(CLIENT_PAUSE)
        connection.sendall(request + b"\r\n")
        line = file.readline()
        while request.startswith(b"RETR") and line and line != b".\r\n":
            line = file.readline()
        if not line:
            raise EOFError
    file.read()


def frames_server(connection, clock):
    """Frames of a length and as many bytes: the answer is as long as the request asks for. The client ends."""
    file = connection.makefile("rb")
    while True:
        (length,) = struct.unpack(">I", exactly(file, 4))
        (expected,) = struct.unpack(">I", exactly(file, length)[:4])
        clock.sleep(SERVER_PAUSE)
        connection.sendall(struct.pack(">I", expected) + b"x" * expected)


def frames_client(connection, clock):
    file = connection.makefile("rb")
    for expected in 0, 10, 1000, 3000, 20, 400, 1:
        clock.sleep(CLIENT_PAUSE)
        connection.sendall(struct.pack(">II", 24, expected) + b"y" * 20)
        exactly(file, struct.unpack(">I", exactly(file, 4))[0])


def web_server(connection, clock):
    """HTTP/1.1 over a connection that is kept. The client ends."""
    file = connection.makefile("rb")
    while True:
        words = file.readline().split()
        while file.readline().strip():
            pass
        if not words:
            return
        clock.sleep(SERVER_PAUSE)
        body = b"<p>page</p>\n" * int(words[1][1:])
        connection.sendall(b"HTTP/1.1 200 OK\r\nContent-Type: text/html\r\nContent-Length: %d\r\n\r\n" % len(body) + body)


def web_client(connection, clock):
    client = http.client.HTTPConnection("127.0.0.1")
    client.sock = types.SimpleNamespace(sendall=connection.sendall, makefile=connection.makefile, close=lambda: None)
    for page in 1, 80, 0, 200, 3:
        clock.sleep(CLIENT_PAUSE)
        client.request("GET", f"/{page}")
        client.getresponse().read()


PROTOCOLS = {"mail": (mail_server, mail_client), "frames": (frames_server, frames_client), "web": (web_server, web_client)}
GONE = (OSError, EOFError, http.client.HTTPException)  # what each raises if the other side is gone
