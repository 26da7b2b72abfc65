"""A running `couchd serve`, and connections to it."""
import json
import select
import signal
import socket
import subprocess
import sys
import tempfile
import time

from .messages import Messages
from .programs import SECONDS
from .requests import request

IGNORE_FULL = ["env", "--ignore-signal=XFSZ"]  # a write past the size that a file may have is refused, as on a full disk


def bounded(limits):
    """What runs a program whose resources are bounded: names of options of prlimit, with what each allows. A bound that ends with
    a colon may be raised again."""
    return [*IGNORE_FULL, "prlimit", *("--%s=%s" % it for it in limits.items())] if limits else []


class Server:
    """A running `couchd serve`, on a port that was free unless one is given, or over a folder `data`. The port is None if it
    ended and didn't listen, or didn't listen in time. What it writes on standard error is kept, and printed if an exception
    ends its use.
    """

    def __init__(self, program, *options, data=None, port=0, env=None, limits=None, seconds=SECONDS):
        folder = [] if data is None else ["--data", data]
        self.errors = tempfile.TemporaryFile()
        self.process = subprocess.Popen(
            [*bounded(limits), program, "serve", "--port", str(port), *folder, *options],
            stdin=subprocess.DEVNULL,
            stdout=subprocess.PIPE,
            stderr=self.errors,
            env=env,
        )
        self.line, self.port = "", None  # the line names the port
        self.listens(seconds)

    def __enter__(self):
        return self

    def __exit__(self, fault, *_):
        self.stop()
        if fault is not None:
            print(self.reported(), end="", file=sys.stderr)

    def listens(self, seconds=SECONDS):
        """Whether it listens, in so many seconds. It may be asked again while it doesn't."""
        ready, _, _ = select.select([self.process.stdout], [], [], seconds)
        self.line = self.process.stdout.readline().decode() if ready else ""
        self.port = int(self.line.rsplit(":", 1)[1]) if self.line else None
        return self.port is not None

    def stop(self, by=signal.SIGKILL):
        self.process.send_signal(by)
        self.process.wait(SECONDS)

    def status(self):
        """The status of one that ends by itself."""
        return self.process.wait(SECONDS)

    def reported_bytes(self):
        """What it wrote on standard error so far."""
        self.errors.seek(0)
        return self.errors.read()

    def reported(self):
        return self.reported_bytes().decode()

    def first_report(self, seconds):
        """What it wrote on standard error when there was a line of it, when it ended, or after so many seconds."""
        end = time.monotonic() + seconds
        while "\n" not in self.reported() and self.process.poll() is None and time.monotonic() < end:
            time.sleep(0.02)
        return self.reported()

    def connect(self):
        return Connection(self.port)


class Exchange(Messages):
    """The messages that come over a socket, whose writes are sent at once."""

    def __init__(self, connected):
        connected.setsockopt(socket.IPPROTO_TCP, socket.TCP_NODELAY, 1)
        self.socket = connected
        super().__init__(lambda: connected.recv(65536))

    def close(self):
        self.socket.close()


class Connection(Exchange):
    """A connection of a client, which stays open."""

    def __init__(self, port):
        super().__init__(socket.create_connection(("127.0.0.1", port), timeout=SECONDS))
        self.place = 0  # of the last response

    def send(self, method, target, body=None):
        self.socket.sendall(request(method, target, b"" if body is None else body, ["Host: db"]))

    def head(self):
        """The status and the headers of the response that comes."""
        first, *lines = self.next_head().decode().split("\r\n")
        headers = dict(line.split(": ", 1) for line in lines)
        self.place = int(headers["Couch-Place"])
        return int(first.split()[1]), headers

    def answer(self):
        """The status and the value of the response that comes."""
        status, headers = self.head()
        return status, json.loads(self.next_bytes(int(headers["Content-Length"])))

    def ask(self, method, target, body=None):
        """The status and the value of the response to a request."""
        self.send(method, target, body)
        return self.answer()
