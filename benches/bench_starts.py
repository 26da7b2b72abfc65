"""Times starts of `couchd serve --data`: over the entries of an epoch, and over the base that the next one begins from.

    python3 benches/bench_starts.py [--documents 10000,100000,300000] [--rounds N] [--store] [COUCHD]

So many documents are PUT over one connection, with `--sync second`, and the server is killed. The next start reads each entry;
after one more write it is killed too, and the start after that reads the base that the epoch began from. A time is that from the
program's start to the line that names its port; the median of the rounds counts. With `--store` the figures are stored for the
plots. The ratio is that of the start over the most entries to the writes before it.
"""
import os
import statistics
import sys
import tempfile
import time

from shared import machine
from shared.figures import Figures
from shared.ratios import Ratios, with_store

from lib.programs import arguments
from lib.server import Server

AT_ONCE = 1000  # so many requests are sent before their answers are read
PUTS, ENTRIES, BASE = "PUTs before it", "start over entries", "start over a base"
SYNCED = 1.5  # seconds in which the keeper has synced what was written


class Journal:
    """A journal in a folder, and how its servers are started."""

    def __init__(self, program, folder):
        self.program, self.folder = program, os.path.join(folder, "data")

    def started(self):
        """A server, and the seconds of its start."""
        began = time.monotonic()
        server = Server(self.program, "--sync", "second", "--workers", "2", "--max-places", "4294967295", data=self.folder)
        return server, time.monotonic() - began

    def write(self, count):
        """The seconds that so many PUTs take."""
        server, _ = self.started()
        with server:
            connection, began = server.connect(), time.monotonic()
            for at in range(0, count, AT_ONCE):
                numbers = range(at, min(at + AT_ONCE, count))
                for number in numbers:
                    connection.send("PUT", "/db/d%d" % number, {"n": number, "text": "some words"})
                for _ in numbers:
                    connection.answer()
            took = time.monotonic() - began
            time.sleep(SYNCED)
            return took

    def start(self):
        """The seconds of a start, behind which one more document is written."""
        server, took = self.started()
        with server:
            server.connect().ask("PUT", "/db/after-%d" % time.monotonic_ns(), {})
            time.sleep(SYNCED)
            return took


def measure(program, count):
    """The seconds of the writes, and of the two starts."""
    with tempfile.TemporaryDirectory() as folder:
        journal = Journal(program, folder)
        return {PUTS: journal.write(count), ENTRIES: journal.start(), BASE: journal.start()}


def main():
    reader = with_store(arguments(__doc__, "couchd"))
    reader.add_argument("--documents", default="10000,100000,300000")
    reader.add_argument("--rounds", type=int, default=3)
    given = reader.parse_args()
    ratios, figures = Ratios("starts", given), Figures("starts", given)
    counts = [int(it) for it in given.documents.split(",")]
    for count in counts:
        found = [measure(given.couchd, count) for _ in range(given.rounds)]
        medians = {name: statistics.median(one[name] for one in found) for name in (PUTS, ENTRIES, BASE)}
        shown = ", ".join("%s %.2f s" % it for it in medians.items())
        print("{:,} documents: {}".format(count, shown), flush=True)
        for name, seconds in medians.items():
            figures.add("Starts of couchd serve --data", name, count, seconds)
        if count == counts[-1]:
            ratios.add("a start over %d entries, of the PUTs before it" % count, medians[ENTRIES] / medians[PUTS])
    print(machine.load())
    figures.store()
    return ratios.report()


if __name__ == "__main__":
    sys.exit(main())
