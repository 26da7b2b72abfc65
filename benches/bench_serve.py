"""Times `couchd serve` under many connections that stay open, beside nginx where it is installed.

    python3 benches/bench_serve.py [--seconds N] [--rounds N] [--only NAME] [--preload LIBRARY]... [--store] [COUCHD]...

It needs wrk. For GET of a document, PUT of a new one, a bulk of 100 and `_changes` of 100 rows, at 1, 4, 16 and 64 connections:
requests a second, the latency that half and 99 of 100 requests stay under, and the server's processor time a request. Each
program runs once more with each LIBRARY in front of the C library, as another heap. nginx answers the GET alone, with `return
200` and as many bytes.

All that a row of ratios compares is measured in turns, so often as there are rounds, and the best of each counts. A server is
started for each measurement, with 10,000 documents, so that no run is slowed by what another one wrote. The ratios are of the
rates over 16 connections to those over one, and of a GET to nginx.
"""
import contextlib
import os
import re
import shutil
import socket
import subprocess
import sys
import tempfile
import time

from shared import machine
from shared.ratios import Ratios, with_store

from lib.programs import arguments, built, existing
from lib.server import Connection, Server

CONNECTIONS = [1, 4, 16, 64]
COMPARED = 16  # connections of the ratios that are stored
LENGTH = 89  # of the body that answers the GET

# each thread of wrk has ids of its own
NAMES = """
local threads = 0
function setup(thread) thread:set("name", threads); threads = threads + 1 end
function init(args) count = 0 end
"""
PUT = (
    NAMES
    + """
function request()
    count = count + 1
    return wrk.format("PUT", "/db/" .. name .. "-" .. count, nil, '{"n":' .. count .. ',"text":"some words"}')
end
"""
)
BULK = (
    NAMES
    + """
function request()
    count = count + 1
    local docs = {}
    for at = 1, 100 do
        docs[at] = '{"_id":"' .. name .. "-" .. count .. "-" .. at .. '","n":' .. at .. "}"
    end
    return wrk.format("POST", "/db/_bulk_docs", nil, '{"docs":[' .. table.concat(docs, ",") .. "]}")
end
"""
)

# what is asked, and the script that makes its requests
OPERATIONS = {
    "GET": ("/db/doc00077", None),
    "PUT of a new document": ("/db/", PUT),
    "bulk of 100": ("/db/_bulk_docs", BULK),
    "_changes of 100 rows": ("/db/_changes?limit=100&since=100", None),
}


def milliseconds(text):
    number, unit = re.fullmatch(r"([0-9.]+)(us|ms|s)", text).groups()
    return float(number) * {"us": 0.001, "ms": 1, "s": 1000}[unit]


class Couchd:
    """A server with 10,000 documents."""

    def __init__(self, program, preload=None):
        self.program = program
        self.preload = preload
        self.name = os.path.relpath(program) + (" on " + os.path.basename(preload) if preload else "")

    def answers(self, _operation):
        return True

    @contextlib.contextmanager
    def running(self, _folder):
        env = dict(os.environ, LD_PRELOAD=self.preload) if self.preload else None
        with Server(self.program, "--workers", "64", env=env) as server:
            docs = [{"_id": "doc%05d" % at, "n": at, "text": "some words"} for at in range(10_000)]
            client = Connection(server.port)
            for at in range(0, len(docs), 1000):
                client.ask("POST", "/db/_bulk_docs", {"docs": docs[at : at + 1000]})
            client.close()
            yield server.port, [server.process.pid]


class Nginx:
    """A server that answers as many bytes as the GET."""

    name = "nginx, return 200"

    def answers(self, operation):
        return operation == "GET"

    @contextlib.contextmanager
    def running(self, folder):
        with socket.socket() as free:
            free.bind(("127.0.0.1", 0))
            port = free.getsockname()[1]
        text = """
worker_processes 4; daemon off; pid %s/pid; error_log /dev/null;
events { worker_connections 256; }
http { access_log off; keepalive_requests 1000000000; server { listen 127.0.0.1:%d; default_type application/json; return 200 "%s"; } }
""" % (
            folder,
            port,
            "x" * LENGTH,
        )
        path = os.path.join(folder, "nginx.conf")
        with open(path, "w") as file:
            file.write(text)
        with subprocess.Popen(["nginx", "-c", path], stderr=subprocess.DEVNULL) as server:
            time.sleep(0.5)
            workers = subprocess.run(["pgrep", "-P", str(server.pid)], capture_output=True, text=True).stdout.split()
            yield port, [int(worker) for worker in workers]
            server.terminate()


def load(url, connections, seconds, script):
    """Requests, requests a second, p50 and p99 in milliseconds, failures."""
    command = ["wrk", "-t", str(min(connections, 2)), "-c", str(connections), "-d", "%ds" % seconds, "--latency"]
    if script:
        command += ["-s", script]
    text = subprocess.run([*command, url], capture_output=True, text=True, check=True).stdout
    requests = int(re.search(r"(\d+) requests in", text)[1])
    rate = float(re.search(r"Requests/sec:\s+([0-9.]+)", text)[1])
    half, most = (milliseconds(re.search(r"\s%s%%\s+(\S+)" % part, text)[1]) for part in (50, 99))
    failed = re.search(r"Non-2xx or 3xx responses: (\d+)", text)
    return requests, rate, half, most, int(failed[1]) if failed else 0


def measure(server, operation, connections, seconds, folder):
    """Requests a second, p50, p99, microseconds of processor time a request, failures."""
    target, text = OPERATIONS[operation]
    script = os.path.join(folder, "requests.lua")
    with open(script, "w") as file:
        file.write(text or "")
    with server.running(folder) as (port, processes):
        before = sum(map(machine.processor_seconds, processes))
        requests, rate, half, most, failed = load("http://127.0.0.1:%d%s" % (port, target), connections, seconds, text and script)
        spent = sum(map(machine.processor_seconds, processes)) - before
    return rate, half, most, spent / max(requests, 1) * 1e6, failed


def best(measured):
    """The highest rate, the lowest of the rest, and all failures."""
    rates, halves, mosts, spent, failed = zip(*measured)
    return max(rates), min(halves), min(mosts), min(spent), sum(failed)


def ratios_of(server, connections, found):
    """What the rate is of others' that were measured in the same turns."""
    rate = found[server, connections][0]
    yield "%.2f of one connection" % (rate / found[server, CONNECTIONS[0]][0])
    for other, count in found:
        if count == connections and other is not server and other is not None:
            yield "%.2f of %s" % (rate / found[other, count][0], other.name)


def compare(servers, operation, seconds, rounds, folder):
    """Measures the servers at all counts of connections in turns, prints a line for each, and gives the rates."""
    measured = {(server, count): [] for count in CONNECTIONS for server in servers if server.answers(operation)}
    for _ in range(rounds):
        for (server, count), results in measured.items():
            results.append(measure(server, operation, count, seconds, folder))
    found = {key: best(results) for key, results in measured.items()}
    for (server, count), (rate, half, most, spent, failed) in found.items():
        print(
            "%-22s %3d connections %9.0f/s   p50 %7.3f ms   p99 %7.3f ms   %7.2f us of processor time   %s: %s%s"
            % (
                operation,
                count,
                rate,
                half,
                most,
                spent,
                server.name,
                ", ".join(ratios_of(server, count, found)),
                "   %d FAILED" % failed if failed else "",
            ),
            flush=True,
        )
    return {key: measured[0] for key, measured in found.items()}


def add(ratios, operation, rates, server):
    """The ratios of one server's rates, to its own and to nginx's."""
    many, one = rates[server, COMPARED], rates[server, CONNECTIONS[0]]
    ratios.add("%s over %d connections, of one" % (operation, COMPARED), many / one, more_is_better=True)
    for (other, count), rate in rates.items():
        if isinstance(other, Nginx) and count == CONNECTIONS[0]:
            ratios.add("%s over one connection, of nginx" % operation, one / rate, more_is_better=True)


def main():
    reader = with_store(arguments(__doc__))
    reader.add_argument("--seconds", type=int, default=1)
    reader.add_argument("--rounds", type=int, default=5)
    reader.add_argument("--only", default="", help="operations with this in their name")
    reader.add_argument("--preload", action="append", default=[], metavar="LIBRARY")
    reader.add_argument("programs", nargs="*", type=existing, default=[built("couchd")], metavar="COUCHD")
    given = reader.parse_args()
    if not shutil.which("wrk"):
        sys.exit("wrk is not installed")
    servers = [Couchd(program, preload) for program in given.programs for preload in [None, *given.preload]]
    if shutil.which("nginx"):
        servers.append(Nginx())
    ratios = Ratios("serve", given)
    with tempfile.TemporaryDirectory() as folder:
        for operation in OPERATIONS:
            if given.only in operation:
                add(ratios, operation, compare(servers, operation, given.seconds, given.rounds, folder), servers[0])
    print(machine.load())
    return ratios.report()


if __name__ == "__main__":
    sys.exit(main())
