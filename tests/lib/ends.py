"""Ends of a replication: one that answers by a script, and a proxy in front of a server that changes what passes."""
import re
import socket
import struct
import threading

from .programs import SECONDS, run
from .server import Connection, Exchange


class Cut(bytes):
    """An answer behind which the connection ends."""


class Failing(Cut):
    """An answer behind which the next read fails."""


class Silent(bytes):
    """An answer, or the rest of one, that never comes."""


SILENT = Silent()


class Listener:
    """Serves the first connection to a port that was free, in a thread of its own."""

    def __init__(self):
        self.listener = socket.create_server(("127.0.0.1", 0))
        self.port = self.listener.getsockname()[1]
        self.thread = threading.Thread(target=self.accept, daemon=True)
        self.thread.start()

    def accept(self):
        client = Exchange(self.listener.accept()[0])
        self.listener.close()  # so that none waits for what never comes
        client.socket.settimeout(SECONDS)
        try:
            self.serve(client)
        except (EOFError, OSError):
            pass
        self.rest = client.rest
        client.close()

    def join(self):
        """Waits until the connection has ended."""
        self.thread.join(SECONDS)


class Scripted(Listener):
    """An end that answers the requests of one connection in order, and keeps their bytes. A list is sent piece by piece."""

    def __init__(self, *answers):
        self.answers, self.requests = answers, []
        super().__init__()

    def serve(self, client):
        for answer in self.answers:
            self.requests.append(b"\r\n\r\n".join(client.next_message()))
            for piece in answer if isinstance(answer, list) else [answer]:
                if isinstance(piece, Silent):
                    client.more()  # until the client ends the connection
                client.socket.sendall(piece)
            if isinstance(answer, Failing):
                client.socket.setsockopt(socket.SOL_SOCKET, socket.SO_LINGER, struct.pack("ii", 1, 0))
            if isinstance(answer, Cut):
                return
        client.more()  # the end, or one request too many

    def all_requests(self):
        """The requests, when the connection has ended."""
        self.join()
        return self.requests + ([self.rest] if self.rest else [])


class Several:
    """An end whose connections are served one after the other, each by a script of its own. Behind the last none is taken."""

    def __init__(self, *scripts):
        self.scripts, self.requests, self.rest = scripts, [], b""
        self.listener = socket.create_server(("127.0.0.1", 0))
        self.port = self.listener.getsockname()[1]
        self.thread = threading.Thread(target=self.accept, daemon=True)
        self.thread.start()

    def accept(self):
        for number, script in enumerate(self.scripts):
            client = Exchange(self.listener.accept()[0])
            if number + 1 == len(self.scripts):
                self.listener.close()
            client.socket.settimeout(SECONDS)
            one = Scripted.__new__(Scripted)
            one.answers, one.requests = script, []
            try:
                one.serve(client)
            except (EOFError, OSError):
                pass
            self.requests += one.requests + ([client.rest] if client.rest else [])
            client.close()

    def all_requests(self):
        """The requests of all connections, when the last has ended."""
        self.thread.join(SECONDS)
        return self.requests


class Gathering(Scripted):
    """An end that answers the requests of one connection in order, by a script, and each only when no more requests have come for
    a while. It keeps their bytes, and for each answer the requests that had come without one."""

    PAUSE = 0.03  # seconds without a byte

    def __init__(self, *answers):
        self.waiting = []
        super().__init__(*answers)

    def serve(self, client):
        answered = 0
        for answer in self.answers:
            self.gather(client, answered)
            self.waiting.append(self.requests[answered:])
            answered += 1
            client.socket.sendall(answer)
        client.socket.settimeout(SECONDS)
        client.more()  # the end, or one request too many

    def gather(self, client, answered):
        """Reads requests until one has no answer yet and nothing more comes."""
        while True:
            client.socket.settimeout(SECONDS if len(self.requests) == answered else self.PAUSE)
            try:
                self.requests.append(b"\r\n\r\n".join(client.next_message()))
            except TimeoutError:
                return


class Proxy(Listener):
    """Passes the exchanges of one connection on to a server. `change(request, response)` gives what is answered, or nothing
    where the connection is cut; it is asked before the server gets the request too, with no response."""

    def __init__(self, port, change):
        self.server_port, self.change = port, change
        super().__init__()

    def serve(self, client):
        server = Connection(self.server_port)
        try:
            self.pass_on(client, server)
        finally:
            server.close()

    def pass_on(self, client, server):
        while True:
            request = b"\r\n\r\n".join(client.next_message())
            if self.change(request, b"") is None:
                return
            server.socket.sendall(request)
            head, answer = server.next_message()
            answer = self.change(request, answer)
            if answer is None:
                return
            head = re.sub(rb"Content-Length: \d+", b"Content-Length: %d" % len(answer), head)
            client.socket.sendall(head + b"\r\n\r\n" + answer)


def replication(program, source, target, id, listed=None, patience=None, skip=False, options=()):
    """The command of a replication from one port to another, of all documents or of those on a list. Without an id it makes its
    own."""
    command = [program, "replicate", "--source", "127.0.0.1:%d" % source, "--target", "127.0.0.1:%d" % target]
    command += [] if id is None else ["--id", id]
    command += [] if listed is None else ["--doc-ids", listed]
    command += ["--skip"] if skip else []
    command += [] if patience is None else ["--patience", str(patience)]
    return command + list(options)


def replicate(program, source, target, id, listed=None, env=None, patience=None, skip=False, options=()):
    """A run of a replication."""
    return run(replication(program, source, target, id, listed, patience, skip, options), "", env)
