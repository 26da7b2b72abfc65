"""Times a compaction by slices, and prints a table.

    python3 benches/bench_compaction.py [--thousands N] [--store] [BENCH_COMPACTION]

There are so many thousand documents of 10 revisions each, 100 where no number is given. The program waits after each step for a
byte, and then its processor time and its memory are read; a time is the least of three runs. How often it asks for memory is
counted in runs of their own, each of which ends after a step. That needs a C compiler. The ratios are of a slice and of the end
to the edits beside them, and of their requests for memory.
"""
import subprocess
import sys

from shared import machine
from shared.ratios import Ratios, with_store

from lib.programs import arguments
from lib.refusals import refuser

RUNS = 3


class Step:
    """What was done between two lines of the program."""

    def __init__(self, line, milliseconds, megabytes):
        self.name, left, visited = line.split()
        self.left, self.visited = int(left), int(visited)
        self.milliseconds, self.megabytes = milliseconds, megabytes


class Program:
    """A run of the program."""

    def __init__(self, path, thousands):
        self.process = subprocess.Popen(
            [path, str(thousands)], stdin=subprocess.PIPE, stdout=subprocess.PIPE, text=True, bufsize=1
        )

    def used(self):
        """Its processor time so far, in milliseconds."""
        return machine.thread_seconds(self.process.pid) * 1e3

    def steps(self):
        used = 0.0
        for line in self.process.stdout:
            now = self.used()
            yield Step(line, now - used, machine.megabytes(self.process.pid, "VmRSS"))
            used = now
            self.process.stdin.write("\n")
            self.process.stdin.flush()
        if self.process.wait():
            sys.exit("the program ended with status %d" % self.process.returncode)


def fastest(path, thousands):
    """Each step, as the run had it that took the least time for it."""
    runs = [list(Program(path, thousands).steps()) for _ in range(RUNS)]
    return [min(same, key=lambda step: step.milliseconds) for same in zip(*runs, strict=True)]


def phases(steps):
    """The runs of steps with one name: the first and the last of each, from 1, and the steps."""
    found = []
    for number, step in enumerate(steps, 1):
        if found and found[-1][2][0].name == step.name:
            found[-1][1] = number
            found[-1][2].append(step)
        else:
            found.append([number, number, [step]])
    return found


class Phase:
    """Steps of one name in a row, and how often they asked for memory."""

    def __init__(self, steps, requests):
        times = [step.milliseconds for step in steps]
        self.name, self.count, self.requests = steps[0].name, len(steps), requests
        self.records = sum(step.visited for step in steps)
        self.milliseconds, self.most, self.megabytes = sum(times), max(times), steps[-1].megabytes

    def row(self):
        return self.name, self.count, self.records, self.milliseconds, self.most, self.requests, self.megabytes


def measured(path, thousands):
    """Each phase, in order."""
    before = 0
    with refuser() as runs:
        for _, last, steps in phases(fastest(path, thousands)):
            _, made = runs.count([path, str(thousands)], "\n" * (last - 1))
            yield Phase(steps, made - before)
            before = made


def main():
    reader = with_store(arguments(__doc__, "bench_compaction"))
    reader.add_argument("--thousands", type=int, default=100)
    given = reader.parse_args()
    print("| Step | times | records | ms in all | most ms | requests for memory | MB after |")
    print("|---|---|---|---|---|---|---|")
    found = {}
    for phase in measured(given.bench_compaction, given.thousands):
        print("| %s | %d | %d | %.1f | %.1f | %d | %.0f |" % phase.row(), flush=True)
        found.setdefault(phase.name, phase)
    sliced, finished, edited = found["sliced"], found["finished"], found["edited"]
    ratios = Ratios("compaction", given)
    ratios.add("the longest slice of 1,000 records, of 1,000 edits", sliced.most / edited.most)
    ratios.add("the end, of 1,000 edits", finished.most / edited.most)
    ratios.add("requests for memory of the slices, for each record", sliced.requests / sliced.records)
    ratios.add("requests for memory of the end, of 1,000 edits", finished.requests / edited.requests)
    return ratios.report()


if __name__ == "__main__":
    sys.exit(main())
