"""Compares requests a second over 1 to 64 connections with those of a server in plain Rust, of nginx and of redis.

    python3 benches/bench_connections.py [--seconds N] [--rounds N] [--store] [COUCHD]

Reads are GETs of a small document, PUTs are of new ones, each over connections that stay open, sent by wrk. The server in plain
Rust is `connections/plain.rs`: a map under a lock, and nothing kept of what was. nginx answers with `return 200` and as many
bytes, from memory. redis GETs and SETs as many bytes, sent by redis-benchmark, and keeps nothing on disk; couchd neither. nginx
and redis are left out where they are not installed.

All are measured in turns, so often as there are rounds, each with a server of its own, and the median counts. With `--store` the
figures are stored for the plots. The ratios are those of couchd to plain Rust over 16 connections.
"""
import contextlib
import os
import shutil
import socket
import statistics
import subprocess
import sys
import tempfile
import time

from bench_serve import LENGTH, PUT, Couchd, Nginx, load
from shared import BENCHES, machine
from shared.figures import Figures
from shared.ratios import Ratios, with_store

from lib.programs import arguments

CONNECTIONS = [1, 4, 16, 64]
COMPARED = 16  # connections of the ratios that are stored
READ, WRITE = "GET of a document", "PUT of a new document"
REDIS_REQUESTS = {READ: "get", WRITE: "set"}
DOCUMENT = "/db/doc00077"


def by_wrk(port, what, connections, seconds, folder):
    """Requests a second that are answered as done."""
    script = os.path.join(folder, "requests.lua")
    with open(script, "w", encoding="utf-8") as file:
        file.write(PUT)
    target = DOCUMENT if what == READ else "/db/"
    url = "http://127.0.0.1:%d%s" % (port, target)
    requests, rate, _, _, failed = load(url, connections, seconds, script if what == WRITE else None)
    return rate * (requests - failed) / max(requests, 1)


class OverHttp:
    """A server that wrk asks: what runs it, and which of the two it answers."""

    def __init__(self, name, server, answers=(READ, WRITE)):
        self.name, self.server, self.answers = name, server, answers

    def rate(self, what, connections, seconds, folder):
        with self.server.running(folder) as (port, _):
            return by_wrk(port, what, connections, seconds, folder)


class Plain:
    """The server in plain Rust, with the document that is read."""

    def __init__(self, folder):
        self.program = os.path.join(folder, "plain")
        source = os.path.join(BENCHES, "connections", "plain.rs")
        subprocess.run(["rustc", "--edition", "2024", "-C", "opt-level=3", "-o", self.program, source], check=True)

    @contextlib.contextmanager
    def running(self, _folder):
        with subprocess.Popen([self.program], stdout=subprocess.PIPE) as server:
            port = int(server.stdout.readline().rsplit(b":", 1)[1])
            with socket.create_connection(("127.0.0.1", port)) as client:
                body = b'{"n":77,"text":"some words"}'
                client.sendall(b"PUT %s HTTP/1.1\r\nContent-Length: %d\r\n\r\n%s" % (DOCUMENT.encode(), len(body), body))
                client.recv(4096)
            yield port, [server.pid]
            server.kill()


class Redis:
    """A server of values, which keeps nothing on disk."""

    name, answers = "redis", (READ, WRITE)

    def rate(self, what, connections, seconds, folder):
        with socket.socket() as free:
            free.bind(("127.0.0.1", 0))
            port = str(free.getsockname()[1])
        with subprocess.Popen(
            ["redis-server", "--port", port, "--save", "", "--dir", folder], stdout=subprocess.DEVNULL
        ) as server:
            time.sleep(0.5)
            requests = str(20_000 * min(connections, 8) * seconds)
            asked = [
                "-t",
                REDIS_REQUESTS[what],
                "-c",
                str(connections),
                "-n",
                requests,
                "-d",
                str(LENGTH),
                "-r",
                "10000",
                "--csv",
            ]
            text = subprocess.run(["redis-benchmark", "-p", port, *asked], capture_output=True, text=True, check=True).stdout
            server.terminate()
        return float(text.strip().splitlines()[-1].split(",")[1].strip('"'))


def servers(couchd, folder):
    """Couchd first, and all that it is compared with."""
    yield OverHttp("couchd", Couchd(couchd))
    yield OverHttp("plain Rust", Plain(folder))
    if shutil.which("nginx"):
        yield OverHttp("nginx, return 200", Nginx(), (READ,))
    if shutil.which("redis-server") and shutil.which("redis-benchmark"):
        yield Redis()


def measure(compared, what, given, folder):
    """The median rate of each server over each number of connections, measured in turns."""
    asked = [(server, count) for count in CONNECTIONS for server in compared if what in server.answers]
    rates = {key: [] for key in asked}
    for _ in range(given.rounds):
        for server, count in asked:
            with tempfile.TemporaryDirectory(dir=folder) as room:
                rates[server, count].append(server.rate(what, count, given.seconds, room))
    return {(server.name, count): statistics.median(found) for (server, count), found in rates.items()}


def main():
    reader = with_store(arguments(__doc__, "couchd"))
    reader.add_argument("--seconds", type=int, default=2)
    reader.add_argument("--rounds", type=int, default=3)
    given = reader.parse_args()
    for needed in ("wrk", "rustc"):
        if shutil.which(needed) is None:
            sys.exit("bench_connections: %s is not installed" % needed)
    ratios, figures = Ratios("connections", given), Figures("throughput", given)
    with tempfile.TemporaryDirectory() as folder:
        compared = list(servers(given.couchd, folder))
        for what in (READ, WRITE):
            rates = measure(compared, what, given, folder)
            for (name, count), rate in rates.items():
                print("%-22s %3d connections  %-18s %9s a second" % (what, count, name, "{:,.0f}".format(rate)), flush=True)
                figures.add(what, name, count, rate)
            ratio = rates["couchd", COMPARED] / rates["plain Rust", COMPARED]
            ratios.add("%s over %d connections, of plain Rust" % (what, COMPARED), ratio, more_is_better=True)
    print(machine.load())
    figures.store()
    return ratios.report()


if __name__ == "__main__":
    sys.exit(main())
