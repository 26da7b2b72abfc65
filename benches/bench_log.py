"""Measures what `couchd serve --log` costs a GET of a small document: processor time of the server, with and without it.

    python3 benches/bench_log.py [--count N] [--rounds N] [--store] [COUCHD]

One worker is asked for one document, so many times one after the other (20,000 where no number is given), over one connection.
Both servers are measured in turns, each with a server of its own that writes its lines into a file, and the least of the rounds
counts. The ratio is of a GET that is logged to one that is not.
"""
import sys

from shared import machine
from shared.ratios import Ratios, with_store

from lib.programs import arguments
from lib.server import Connection, Server

WARM = 2000  # requests before those that count
OPTIONS = {"without --log": [], "with --log": ["--log"]}


def used(couchd, options, count):
    """The processor seconds of one worker for each of so many GETs."""
    with Server(couchd, "--workers", "1", *options) as server:
        client = Connection(server.port)
        client.ask("PUT", "/db/a", {"value": 123})
        for _ in range(WARM):
            client.ask("GET", "/db/a")
        before = machine.thread_seconds(server.process.pid)
        for _ in range(count):
            client.ask("GET", "/db/a")
        return (machine.thread_seconds(server.process.pid) - before) / count


def main():
    reader = with_store(arguments(__doc__, "couchd"))
    reader.add_argument("--count", type=int, default=20000)
    reader.add_argument("--rounds", type=int, default=7)
    given = reader.parse_args()
    least = dict.fromkeys(OPTIONS, float("inf"))
    for _ in range(given.rounds):
        for name, options in OPTIONS.items():
            least[name] = min(least[name], used(given.couchd, options, given.count))
    for name, seconds in least.items():
        print("a GET %s: %.2f microseconds of processor time" % (name, seconds * 1e6), flush=True)
    ratios = Ratios("log", given)
    ratios.add("processor time of a GET with --log, of one without", least["with --log"] / least["without --log"])
    return ratios.report()


if __name__ == "__main__":
    sys.exit(main())
