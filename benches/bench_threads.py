"""Times looks and writes of sessions on threads, and prints two tables.

    python3 benches/bench_threads.py [--writes] [--rounds N] [--preload LIBRARY]... [--store] [PROBE_THREADS]

A round runs each cell of a table once, and there are eleven, or N. A cell has the median of its rates, in the time that goes by,
and the median of its ratios to the first row's run of the same round, since what a machine gives changes from minute to minute.
Looks, with a snapshot of their own and without, are timed beside an `Arc` that is cloned under an `RwLock` in plain Rust, and
beside an `Arc` of each thread's own, which shows what the machine gives. Writes are timed on the C library's heap, on the same
where it grows by 32 MB of huge pages, and with each LIBRARY in front of the C library, as another heap. `--writes` leaves the
looks out. A last line says how much of the processors' time the machine took away meanwhile. The ratios are of the most threads
to one.
"""
import os
import statistics
import subprocess
import sys
import tempfile
import time

from shared import BENCHES
from shared.ratios import Ratios, with_store

from lib.programs import arguments

LOOKS, WRITES = 5_000_000, 40_000
PLAIN = ("", {})
HUGE = (", huge pages", {"GLIBC_TUNABLES": "glibc.malloc.hugetlb=1:glibc.malloc.top_pad=33554432"})


class Cell:
    """A run of a program on a heap, which does so much, and what it must print."""

    def __init__(self, command, work, wanted, heap=PLAIN):
        self.command, self.work, self.wanted, self.env = command, work, wanted, dict(os.environ, **heap[1])
        self.rates = []

    def run(self):
        began = time.perf_counter()
        written = subprocess.run(self.command, check=True, stdout=subprocess.PIPE, text=True, env=self.env).stdout
        ended = time.perf_counter()
        if written != self.wanted:
            sys.exit("%s printed %r, not %r" % (" ".join(self.command[1:]), written, self.wanted))
        self.rates.append(self.work / (ended - began))

    def ratio(self, first):
        """The median of the ratios to the first row's run of the same round."""
        return statistics.median(rate / one for rate, one in zip(self.rates, first.rates))

    def shown(self, first):
        return ["{:,.0f}".format(statistics.median(self.rates)), "%.2f" % self.ratio(first)]


def print_table(name, columns, rounds, rows):
    """Runs the cells in rounds, prints the table, and gives the ratios of the last row. The rows are pairs: a count, and the
    cells."""
    for _ in range(rounds):
        for _, cells in rows:
            for cell in cells:
                cell.run()
    print("| %s | %s |" % (name, " | ".join("%s | to the first row" % column for column in columns)))
    print("|---|%s" % ("---|" * 2 * len(columns)))
    first = rows[0][1]
    for count, cells in rows:
        print(
            "| %d | %s |" % (count, " | ".join(text for cell, one in zip(cells, first) for text in cell.shown(one))), flush=True
        )
    return [cell.ratio(one) for cell, one in zip(rows[-1][1], first)]


def print_looks(program, plain, rounds):
    rows = []
    for threads in range(1, 5):
        count, times = str(threads), str(LOOKS)
        cells = [Cell([program, kind, count, times], threads * LOOKS, "1\n") for kind in ("refreshes", "looks")]
        cells += [Cell([plain, kind, count, times], threads * LOOKS, "") for kind in ("shared", "own")]
        rows.append((threads, cells))
    return print_table("Threads", ["refreshes a second", "looks", "`RwLock`", "nothing shared"], rounds, rows)


def print_writes(program, heaps, rounds):
    kinds = [(gather, heap) for gather in ("1", "32") for heap in heaps]
    rows = []
    for sessions in (1, 4, 16):
        count, times = str(sessions), str(WRITES // sessions)
        command = [program, "writes", count]
        rows.append((sessions, [Cell([*command, gather, times], WRITES, "%d\n" % WRITES, heap) for gather, heap in kinds]))
    return print_table("Sessions", ["writes a second, gather %s%s" % (gather, heap[0]) for gather, heap in kinds], rounds, rows)


def ticks():
    """The ticks of all processors, and those of them that the machine took away."""
    with open("/proc/stat", encoding="ascii") as it:
        counts = [int(word) for word in it.readline().split()[1:9]]
    return sum(counts), counts[7]


def time_looks(program, rounds, ratios):
    with tempfile.TemporaryDirectory() as room:
        plain = os.path.join(room, "plain")
        source = os.path.join(BENCHES, "threads", "locked.rs")
        subprocess.run(["rustc", "--edition", "2024", "-C", "opt-level=3", "-o", plain, source], check=True)
        refreshes, looks, _locked, nothing_shared = print_looks(program, plain, rounds)
    ratios.add("refreshes of 4 threads to one's, of what shares nothing", refreshes / nothing_shared, more_is_better=True)
    ratios.add("looks of 4 threads to one's, of what shares nothing", looks / nothing_shared, more_is_better=True)


def main():
    reader = with_store(arguments(__doc__, "probe_threads"))
    reader.add_argument("--writes", action="store_true")
    reader.add_argument("--rounds", type=int, default=11, metavar="N")
    reader.add_argument("--preload", action="append", default=[], metavar="LIBRARY")
    given = reader.parse_args()
    ratios = Ratios("threads", given)
    began = ticks()
    if not given.writes:
        time_looks(given.probe_threads, given.rounds, ratios)
        print()
    others = [(", " + os.path.basename(library), {"LD_PRELOAD": library}) for library in given.preload]
    found = print_writes(given.probe_threads, [PLAIN, HUGE, *others], given.rounds)
    gathered = found[len(found) // 2]  # on the C library's heap, 32 jobs a batch
    ratios.add("writes of 16 sessions, of one's, gather 32", gathered, more_is_better=True)
    every, taken = (after - before for after, before in zip(ticks(), began))
    print("\nThe machine took away %.1f percent of the processors' time." % (100 * taken / every))
    return ratios.report()


if __name__ == "__main__":
    sys.exit(main())
