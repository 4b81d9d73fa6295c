"""The built program as a server, and its clients; for `serve.py`, `serve_http.py`, `pg.py`, `tests/serve`, `tests/http` and `tests/pg`. No
wait here is without a deadline."""
import random
import re
import select
import socket
import struct
import subprocess
import time
from urllib.parse import quote_plus

from program import Asked

HOST = "127.0.0.1"
PORTS = range(20_000, 30_000)  # below those that the system gives to connections
SECONDS = 20
PAUSE = 0.002
TAIL = 80  # bytes at the end of a JSON, in which its number stands


def free_port():
    """A port on which nobody listens."""
    while True:
        port = random.choice(PORTS)
        with socket.socket() as tried:
            try:
                tried.bind((HOST, port))
                return port
            except OSError:
                continue


class Client(Asked):
    """A connection to a server. Each of its waits ends after SECONDS."""

    def __init__(self, port, room=None):
        """`room` is how many bytes that it hasn't read yet the system keeps for it, about."""
        self.socket = socket.socket()
        self.socket.settimeout(SECONDS)
        self.socket.setsockopt(socket.IPPROTO_TCP, socket.TCP_NODELAY, 1)
        if room:
            self.socket.setsockopt(socket.SOL_SOCKET, socket.SO_RCVBUF, room)
        try:
            self.socket.connect((HOST, port))
        except OSError:
            self.socket.close()
            raise
        self.source = self.socket.makefile("rb")

    def send(self, frame):
        self.socket.sendall(frame)

    def stop_sending(self):
        """Ends what it sends, and goes on reading."""
        self.socket.shutdown(socket.SHUT_WR)

    def hears(self, seconds):
        """Whether anything comes within so many seconds."""
        return bool(select.select([self.socket], [], [], seconds)[0])

    def rest(self):
        """All that comes until the connection ends or breaks."""
        pieces = []
        try:
            while piece := self.source.read1():
                pieces.append(piece)
        except ConnectionError:
            pass
        return b"".join(pieces)

    def close(self):
        self.source.close()
        self.socket.close()

    def end(self):
        """Ends the session, and says whether that was answered."""
        self.send(b"X\n")
        good = self.rest() == b"X\n"
        self.close()
        return good


def request(frame):
    """The request of HTTP that asks what a frame asks."""
    head, _, body = frame.partition(b"\n")
    if head == b"A":
        return b"POST /apply HTTP/1.1\r\n\r\n"
    if head.startswith(b"Q"):
        return b"GET /exec?query=%b HTTP/1.1\r\n\r\n" % quote_plus(body).encode()
    return b"POST /write HTTP/1.1\r\nContent-Length: %d\r\n\r\n" % len(body) + body


class Web(Client):
    """A connection over HTTP, which is asked as one of frames is: by frames, or by requests that are made of them before."""

    def send(self, frame):
        super().send(request(frame) if frame[:2] in (b"W ", b"Q ", b"A\n") else frame)

    def reply(self):
        """The next response: the line of a frame's reply that says as much of its number, and its body."""
        status, fields = self.source.readline().split()[1], {}
        while len(field := self.source.readline()) > 2:
            name, _, value = field.partition(b": ")
            fields[name] = value
        body = self.source.read(int(fields.get(b"Content-Length", b"0")))
        if status == b"204":
            return b"K " + fields[b"X-Txn"].strip() + b"\n", b""
        letter, key = (b"A", b"txn") if body.startswith(b'{"txn"') else (b"R", b"txn") if body.startswith(b'{"query"') else (b"E", b"code")
        return b"%b %b\n" % (letter, re.search(b'"%b":(\\d+)' % key, body[-TAIL:])[1]), body

    def end(self):
        """Asks for the end, and says whether that was answered and nothing more. What is asked for is nothing that is served."""
        self.send(b"GET / HTTP/1.1\r\nConnection: close\r\n\r\n")
        good = self.reply()[0] == b"E 70\n" and self.rest() == b""
        self.close()
        return good


START = struct.pack(">II", 8, 196_608)  # of PostgreSQL's protocol 3.0


def message(kind, body=b""):
    """A message of PostgreSQL's protocol."""
    return kind + struct.pack(">I", 4 + len(body)) + body


class Pg(Client):
    """A connection over PostgreSQL's protocol, which has started."""

    def __init__(self, port, room=None):
        super().__init__(port, room)
        self.send(START)
        self.started = self.answer()

    def answer(self):
        """The next messages up to ReadyForQuery: the type and the body of each."""
        messages = []
        while True:
            kind = self.source.read(1)
            if not kind:
                raise ConnectionError(f"the connection ends behind {messages[-2:]}")
            messages.append((kind, self.source.read(struct.unpack(">I", self.source.read(4))[0] - 4)))
            if kind == b"Z":
                return messages

    def sql(self, text):
        """Asks a statement, and gives the messages that answer it."""
        self.send(message(b"Q", text.encode() + b"\0"))
        return self.answer()

    def end(self):
        """Ends the session, and says whether nothing was answered."""
        self.send(message(b"X"))
        good = self.rest() == b""
        self.close()
        return good


def connected(port, room=None, is_over=lambda: False, kind=None):
    """A client of the server that listens at a port, or will soon, unless that is over; over frames, or of another kind."""
    until = time.monotonic() + SECONDS
    while True:
        try:
            return (kind or Client)(port, room)
        except ConnectionRefusedError:
            if is_over() or time.monotonic() > until:
                raise
            time.sleep(PAUSE)


class Server:
    """The program that serves the connections to a port. Where it still runs behind a `with` it is killed."""

    def __init__(self, program, port, words, **options):
        self.port = port
        self.process = subprocess.Popen([program, *words], stdin=subprocess.DEVNULL, stdout=subprocess.PIPE, stderr=subprocess.PIPE, **options)

    def has_ended(self):
        return self.process.poll() is not None

    def connect(self, room=None):
        """A new connection."""
        try:
            return connected(self.port, room, self.has_ended)
        except ConnectionRefusedError:
            if not self.has_ended():
                raise
            raise ConnectionRefusedError(f"the server has ended: {self.end()}") from None

    def end(self):
        """What it wrote, its status, and what it said on standard error, once it has ended by itself."""
        output, told = self.process.communicate(timeout=SECONDS)
        return output, self.process.returncode, told.decode()

    def kill(self):
        self.process.kill()
        self.process.communicate(timeout=SECONDS)

    def __enter__(self):
        return self

    def __exit__(self, *_):
        self.kill()


def served(program, folder, connections=None, front=None, **options):
    """A server over a folder, which ends once it has served so many connections, or never; by frames, or the protocol that is named."""
    port = free_port()
    words = ["serve", str(port), "--dir", folder]
    words += ["--connections", str(connections)] if connections else []
    return Server(program, port, words + (["--front", front] if front else []), **options)
