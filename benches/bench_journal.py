"""Times PUTs of `couchd serve` with and without a journal, beside redis with an append-only file where it is installed.

    python3 benches/bench_journal.py [--seconds N] [--rounds N] [--entries N] [--store] [COUCHD]

It needs wrk. One, 16 and 48 connections PUT new documents: requests a second without `--data`, and for each `--sync`. Beside it
`redis-benchmark` SETs as many bytes over as many connections, for `appendfsync everysec` and `always`. All that a row compares is
measured in turns, so often as there are rounds, and the median of each counts. Then a journal of so many entries (100,000 where
that is not given) is written and read: how long the writes took, and how long the start after them. At last an epoch of as many
documents is full: how long no write is taken until the next one is there.
"""
import contextlib
import os
import shutil
import socket
import statistics
import subprocess
import sys
import tempfile
import time

from bench_serve import PUT, load
from shared import machine
from shared.ratios import Ratios, with_store

from lib.programs import arguments
from lib.server import Connection, Server

CONNECTIONS = (1, 16, 48)
WORKERS = 50
LENGTH = 29  # of a body of the PUTs
BULK = 1000  # so many requests are sent before their answers are read, and so many documents are in one


class Couchd:
    """A server, with a journal or none."""

    def __init__(self, program, sync):
        self.program, self.sync = program, sync
        self.name = "couchd, no journal" if sync is None else "couchd --sync " + sync

    @contextlib.contextmanager
    def running(self, folder):
        kept = {} if self.sync is None else {"data": os.path.join(folder, "data")}
        options = [] if self.sync is None else ["--sync", self.sync]
        with Server(self.program, "--workers", str(WORKERS), *options, **kept) as server:
            yield server.port

    def rate(self, folder, connections, seconds):
        """Writes a second that are answered as done."""
        with self.running(folder) as port:
            script = os.path.join(folder, "requests.lua")
            with open(script, "w") as file:
                file.write(PUT)
            requests, rate, _, _, failed = load("http://127.0.0.1:%d/db/" % port, connections, seconds, script)
            return rate * (requests - failed) / max(requests, 1)


class Redis:
    """A server that appends each command to a file."""

    def __init__(self, policy):
        self.policy = policy
        self.name = "redis, appendfsync " + policy

    def rate(self, folder, connections, seconds):
        with socket.socket() as free:
            free.bind(("127.0.0.1", 0))
            port = free.getsockname()[1]
        words = ["--port", str(port), "--appendonly", "yes", "--appendfsync", self.policy, "--save", "", "--dir", folder]
        with subprocess.Popen(["redis-server", *words], stdout=subprocess.DEVNULL) as server:
            time.sleep(0.5)
            each = 20_000 if self.policy == "everysec" else 500  # that one connection may write in a second
            requests = str(each * min(connections, 16) * seconds)
            sets = ["-t", "set", "-c", str(connections), "-n", requests, "-d", str(LENGTH), "-r", "100000000", "--csv"]
            text = subprocess.run(["redis-benchmark", "-p", str(port), *sets], capture_output=True, text=True, check=True).stdout
            server.terminate()
        return float(text.strip().splitlines()[-1].split(",")[1].strip('"'))


def compared(servers, connections, given, folder):
    """The median rate of each server, by its name, measured in turns."""
    rates = {server.name: [] for server in servers}
    for _ in range(given.rounds):
        for server in servers:
            with tempfile.TemporaryDirectory(dir=folder) as place:
                rates[server.name].append(server.rate(place, connections, given.seconds))
    return {name: statistics.median(found) for name, found in rates.items()}


def compare_all(given, ratios, folder):
    """The rates over each number of connections, and their ratios."""
    plain, second, never, always = (Couchd(given.couchd, sync) for sync in (None, "second", "never", "always"))
    servers = [plain, second, never, always]
    if shutil.which("redis-server"):
        servers += [Redis("everysec"), Redis("always")]
    for connections in CONNECTIONS:
        rates = compared(servers, connections, given, folder)
        for name, rate in rates.items():
            print("%2d connections, %-28s %8s a second" % (connections, name, format(round(rate), ",")), flush=True)
        if connections != 48:
            ratios.add(
                "PUT with --sync second, of none, %d connections" % connections,
                rates[second.name] / rates[plain.name],
                more_is_better=True,
            )
        if servers[-1] is not always:
            ratio = rates[always.name] / rates[servers[-1].name]
            ratios.add("PUT with --sync always, of a SET of redis, %d connections" % connections, ratio, more_is_better=True)


def starts(program, entries, folder):
    """Seconds to write so many entries, seconds of the start after them, and the megabytes of both runs."""
    options, data = ["--sync", "second", "--max-places", "4294967295", "--workers", "2"], os.path.join(folder, "long")
    with Server(program, *options, data=data) as server:
        connection = Connection(server.port)
        began = time.monotonic()
        for at in range(0, entries, BULK):
            for number in range(at, min(at + BULK, entries)):
                connection.send("PUT", "/db/d%d" % number, {"n": number, "text": "some words"})
            for _ in range(at, min(at + BULK, entries)):
                connection.answer()
        written = time.monotonic() - began
        time.sleep(2)  # until the keeper has synced
        before = machine.megabytes(server.process.pid, "VmHWM")
    began = time.monotonic()
    with Server(program, *options, data=data) as server:
        return written, time.monotonic() - began, before, machine.megabytes(server.process.pid, "VmHWM")


def pause(program, documents, folder):
    """Seconds in which no write is taken while an epoch of so many documents ends and the next one begins."""
    bulks = documents // BULK
    options = ["--sync", "second", "--max-places", str(bulks + 1000), "--workers", "2"]
    with Server(program, *options, data=os.path.join(folder, "full")) as server:
        connection = Connection(server.port)
        for bulk in range(bulks):
            docs = [{"_id": "d%d-%d" % (bulk, number), "n": number, "text": "some words"} for number in range(BULK)]
            connection.ask("POST", "/db/_bulk_docs", {"docs": docs})
        number, last, longest, places = 0, time.monotonic(), 0.0, []
        while len(places) < 2 or places[-1] != 100:  # until 100 writes behind the new beginning
            try:
                status, _ = connection.ask("PUT", "/db/p%d" % number, {})
            except (OSError, EOFError):
                connection = Connection(server.port)
                continue
            if status == 503:
                continue
            now = time.monotonic()
            longest, last = max(longest, now - last), now
            if not places or connection.place < places[-1]:
                places.append(connection.place)
            places[-1] = connection.place
            number += 1
        return longest


def main():
    reader = with_store(arguments(__doc__, "couchd"))
    reader.add_argument("--seconds", type=int, default=5)
    reader.add_argument("--rounds", type=int, default=3)
    reader.add_argument("--entries", type=int, default=100_000)
    given = reader.parse_args()
    if shutil.which("wrk") is None:
        sys.exit("bench_journal: wrk is not installed")
    ratios = Ratios("journal", given)
    with tempfile.TemporaryDirectory() as folder:
        compare_all(given, ratios, folder)
        written, read, before, after = starts(given.couchd, given.entries, folder)
        print("%d entries: written in %.1f s, read in %.1f s; %d and %d MB" % (given.entries, written, read, before, after))
        ratios.add("a start to the writes before it", read / written)
        print("a new epoch over %d documents: no write for %.2f s" % (given.entries, pause(given.couchd, given.entries, folder)))
    return ratios.report()


if __name__ == "__main__":
    sys.exit(main())
