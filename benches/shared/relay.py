"""A relay in front of a server, as if the server were far away."""
import collections
import socket
import threading
import time


class Delayed:
    """What comes from one socket goes to another so many seconds later. Pieces on their way don't wait for one another."""

    def __init__(self, source, target, seconds):
        self.source, self.target, self.seconds = source, target, seconds
        self.pieces, self.changed = collections.deque(), threading.Condition()
        for work in self.read, self.write:
            threading.Thread(target=work, daemon=True).start()

    def read(self):
        data = b"."
        while data:
            try:
                data = self.source.recv(65536)
            except OSError:
                data = b""
            with self.changed:
                self.pieces.append((time.monotonic() + self.seconds, data))
                self.changed.notify()

    def write(self):
        data = b"."
        while data:
            with self.changed:
                self.changed.wait_for(lambda: self.pieces)
                due, data = self.pieces.popleft()
            time.sleep(max(0, due - time.monotonic()))
            try:
                self.target.sendall(data) if data else self.target.shutdown(socket.SHUT_WR)
            except OSError:
                return


class Relay:
    """Passes connections on to a port, each byte so many seconds after it came."""

    def __init__(self, port, seconds):
        self.server_port, self.seconds = port, seconds
        self.listener = socket.create_server(("127.0.0.1", 0))
        self.port = self.listener.getsockname()[1]
        threading.Thread(target=self.accept, daemon=True).start()

    def __enter__(self):
        return self

    def __exit__(self, *_):
        self.listener.close()

    def accept(self):
        while True:
            try:
                client, _ = self.listener.accept()
            except OSError:
                return
            server = socket.create_connection(("127.0.0.1", self.server_port))
            for end in client, server:
                end.setsockopt(socket.IPPROTO_TCP, socket.TCP_NODELAY, 1)
            Delayed(client, server, self.seconds)
            Delayed(server, client, self.seconds)

    def round_trip(self, exchanges=15):
        """The median of the seconds that a small exchange takes over a connection that is open."""
        with socket.create_connection(("127.0.0.1", self.port)) as client:
            taken = sorted(self.exchange(client) for _ in range(exchanges))
        return taken[exchanges // 2]

    def exchange(self, client):
        began = time.monotonic()
        client.sendall(b"GET / HTTP/1.1\r\nHost: relay\r\n\r\n")
        data = b""
        while b"Welcome" not in data:
            data += client.recv(4096)
        return time.monotonic() - began
