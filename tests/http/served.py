"""Servers that are started to play requests at, and exchanges with them."""

import os
import select
import socket
import subprocess
import tempfile
import time

from rows import KEY

# How long a server has to start.
START_SECONDS = 15


class CannotStart(Exception):
    """A program that doesn't serve."""


class Reply:
    """What came on a connection: interim responses, a response and its body, or nothing; and whether it ended."""

    def __init__(self, came, is_ended, seconds, is_head=False):
        self.came, self.is_ended, self.seconds = came, is_ended, seconds
        self.head, _, rest = came.partition(b"\r\n\r\n")
        lines = self.head.decode("latin-1").split("\r\n")
        self.line = lines[0]
        pairs = [line.partition(":") for line in lines[1:]]
        self.fields = [(name.lower(), value.strip()) for name, _, value in pairs]
        words = lines[0].split(" ")
        self.status = int(words[1]) if len(words) > 1 and words[1].isdigit() else None
        self.body = rest
        self.is_head = is_head

    def values(self, name):
        """The values of a field, in their order."""
        return [value for its, value in self.fields if its == name]

    def __str__(self):
        if not self.came:
            return f"{'the end of the connection' if self.is_ended else 'nothing'} in {self.seconds:.1f} s"
        body = self.body if len(self.body) < 200 else self.body[:160] + b".. %d bytes" % len(self.body)
        end = "" if self.is_ended else ", and the connection stays open"
        return f"{self.line!r}, {body!r}{end}"


def read_some(client, deadline):
    """Bytes that come until then: None if none do, and b"" at the end."""
    left = deadline - time.monotonic()
    if left <= 0 or not select.select([client], [], [], left)[0]:
        return None
    try:
        return client.recv(65536)
    except ConnectionResetError:
        return b""


def send_all(client, data, deadline):
    """Sends bytes, as far as the other end takes them until then."""
    view = memoryview(data)
    while view and (left := deadline - time.monotonic()) > 0:
        if not select.select([], [client], [], left)[1]:
            return
        try:
            view = view[client.send(view):]
        except (BrokenPipeError, ConnectionResetError):
            return


def read_interim(client, came, deadline):
    """What came, without a `100 Continue` that is waited for. It stays if another response came."""
    while b"\r\n\r\n" not in came:
        more = read_some(client, deadline)
        if not more:
            return came, False
        came += more
    if not came.startswith(b"HTTP/1.1 100 "):
        return came, False
    return came.partition(b"\r\n\r\n")[2], True


def exchange(server, pieces, seconds, does_end=False):
    """Sends the pieces of a request on a fresh connection, each later one after a `100 Continue`, and returns what comes."""
    start = time.monotonic()
    deadline = start + seconds
    came, is_ended = b"", False
    with socket.create_connection((server.address, server.port), timeout=seconds) as client:
        client.setblocking(False)
        send_all(client, pieces[0], deadline)
        for piece in pieces[1:]:
            came, goes_on = read_interim(client, came, deadline)
            if not goes_on:
                break
            send_all(client, piece, deadline)
        if does_end:
            try:
                client.shutdown(socket.SHUT_WR)
            except OSError:
                pass
        while not is_ended and (more := read_some(client, deadline)) is not None:
            came += more
            is_ended = not more
    is_head = b"".join(pieces).lstrip(b"\r\n").startswith(b"HEAD ")
    return Reply(came, is_ended, time.monotonic() - start, is_head)


def can_listen(address):
    """Whether this machine has an address."""
    family = socket.AF_INET6 if ":" in address else socket.AF_INET
    try:
        socket.create_server((address, 0), family=family).close()
        return True
    except OSError:
        return False


class Server:
    """A program that serves node 0 of 2 at an address of this machine, without a key or with one."""

    def __init__(self, kind, program, mode, address="127.0.0.1"):
        self.kind, self.mode, self.address = kind, mode, address
        self.errors = tempfile.TemporaryFile()
        self.key_file = None
        how = {"stdin": subprocess.PIPE, "stdout": subprocess.PIPE, "stderr": self.errors}
        try:
            self.process = subprocess.Popen(self.words(program), **how)
        except OSError as error:
            raise CannotStart(f"{program}: {error.strerror}") from error
        self.port = self.listening()

    def words(self, program):
        """The words of the command line."""
        host = f"[{self.address}]" if ":" in self.address else self.address
        words = [program, "serve", "--node", "0", "--nodes", "2", "--listen", f"{host}:0", "--requests", "1000000", "--cap", "1000000"]
        if self.mode == "keyed":
            self.key_file = tempfile.NamedTemporaryFile()
            self.key_file.write(KEY)
            self.key_file.flush()
            words += ["--key-file", self.key_file.name]
        return words

    def listening(self):
        """The port that it prints once it listens: `listening 7070`."""
        deadline = time.monotonic() + START_SECONDS
        line = b""
        while not line.endswith(b"\n"):
            left = deadline - time.monotonic()
            if left <= 0 or not select.select([self.process.stdout], [], [], left)[0]:
                break
            byte = os.read(self.process.stdout.fileno(), 1)
            if not byte:
                break
            line += byte
        port = line.split()[-1] if line.split() else b""
        if not line.startswith(b"listening ") or not port.isdigit():
            said = self.said()
            self.end()
            raise CannotStart(f"it printed {line!r} in place of the port. {said}")
        return int(port)

    def said(self):
        """What it printed on standard error."""
        self.errors.seek(0)
        return self.errors.read()[-2000:].decode(errors="replace")

    def is_alive(self):
        """Whether it hasn't ended."""
        return self.process.poll() is None

    def end(self):
        """Ends it."""
        self.process.kill()
        self.process.wait()
        self.process.stdin.close()
        self.process.stdout.close()

    def __enter__(self):
        return self

    def __exit__(self, *_):
        self.end()
