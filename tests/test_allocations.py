"""Counts the requests for memory of runs on the shared map, of reads of a version and of a session's calls, and refuses some.

    python3 tests/test_allocations.py

A node of the map is one block and so is an entry, so calls have to ask for as many blocks as the nodes that they report and the
entries that they insert: a copy that is not counted is seen. With every request refused a version still answers each read, and
the entries of its single edits are copied. With one request of a write or a compaction refused there is a receipt, or out of
memory and no entry, and the next one has that call. With one request of an opening of a closed database refused it is opened, or
out of memory and the next one is opened. A look is answered though its request is refused. With one request of a replication
refused it is done, or out of memory and a new worker finishes it. `lib/refused_rows.py` does the same to rows of statements. The
programs are probe_maps, probe_store, probe_threads, soak_replication and test_store, as the gate built them. It needs a C
compiler.
"""
import re
import sys

from lib import refused_rows
from lib.checks import Checks
from lib.programs import built
from lib.refusals import refuser

KEYS, KEPT = 1000, 500
SCATTER = 0x9E3779B97F4A7C15  # the factor by which the runs make the keys of numbers
DOCUMENTS = 1000

# What the reads of a version of so many documents find.
READS = """\
place {0}
entries {0}
entries copied {0}
next call {1}
revs limit 1000
documents {0} {0}
found {0}
first of the rest {0}
local documents 0
update seq {0}
changes {0}
changes counted {0}
purge seq 0
purges 0
purges counted 0
touched {0}
shared true
records true
""".format(
    DOCUMENTS, DOCUMENTS + 1
)

ENDED = r"{0}, (?:changes since \d|no changes), bulks [01], failures 0 and 0\n"
ENDS = r"source at place \d, .*\ntarget at place \d, .*\n(?:target has .*\n)+"

# What a replication leaves; the target's checkpoint may have been written twice.
REPLICATED = """\
source at place 2, checkpoint 0-1 {{"last_seq":2}}
target at place {place}, checkpoint 0-{counter} {{"last_seq":2}}
target has 2-{b} over 1-{a}
target has 2-{c} over 1-{a}
"""

ONCE, TWICE = (REPLICATED.format(place=counter + 1, counter=counter, a="a" * 32, b="b" * 32, c="c" * 32) for counter in (1, 2))

DONE = "again where memory is refused:\ndone, changes since 0, bulks 1, failures 0 and 0\n" + ONCE
AGAIN = re.compile(
    "again where memory is refused:\n"
    + ENDED.format("out of memory")
    + ENDS
    + ENDED.format("done")
    + "(?:%s|%s)" % (re.escape(ONCE), re.escape(TWICE))
)

RECEIPT = "call 1 place 1\n1\n"  # of a session's first write, and its one entry


class Runs:
    """Runs of the programs, whose requests for memory are counted and refused."""

    def __init__(self, refuser):
        self.refuser = refuser
        self.checks = Checks()
        self.check = self.checks.check

    def count(self, program, *arguments, **orders):
        """The status, the output, and how many requests for memory were made."""
        ran, requests = self.refuser.count([built(program), *map(str, arguments)], "", **orders)
        return ran.status, ran.output, requests

    def answers(self, program, *arguments):
        """What each run of the program prints with one request for memory refused, in turn, and last the one that has all
        memory."""
        return [(ran.status, ran.output) for ran in self.refuser.each([built(program), *map(str, arguments)], "")]

    # ---- the shared map

    def map(self, inserted, removed):
        """How many requests were made by so many insertions and removals, and what was printed: the length and the height of
        the map, the nodes that all calls made, and how many calls made too many."""
        status, output, requests = self.count("probe_maps", "map", inserted, removed)
        assert status == 0, (status, output)
        return (requests - self.idle, *map(int, output.split()))

    def check_each_call(self):
        """Each call asks for its nodes, and an insertion for its entry too."""
        for inserted, removed in [(1, 0), (10, 0), (KEPT, 0), (KEYS, 0), (KEYS, 1), (KEYS, KEPT), (KEYS, KEYS)]:
            requests, length, _, nodes, above = self.map(inserted, removed)
            what = "%d insertions and %d removals" % (inserted, removed)
            self.check(length == inserted - removed, what + " leave the other keys")
            self.check(requests == nodes + inserted, what + " ask for the nodes that they report, and for the entries")
            self.check(above == 0, "each of %s makes at most 4 * (height + 1) nodes" % what)

    def check_last(self):
        """Each request of the last insertion, refused in turn, is answered as out of memory."""
        before, all_requests, height = self.map(KEYS - 1, 0)[0], self.map(KEYS, 0)[0], self.map(KEYS, 0)[2]
        met, most = 0, 8 * (height + 1)
        while met <= most and self.count("probe_maps", "map", KEYS, 0, REFUSE=self.idle + before + met + 1)[:2] == (1, ""):
            met += 1
        print("the last of %d insertions makes %d requests for memory, and may make %d" % (KEYS, met, most))
        self.check(met == all_requests - before, "each request that is refused is answered as out of memory")
        self.check(0 < met <= most, "the last insertion makes at most 8 * (height + 1) requests")

    def check_kept(self):
        """The map after the 500th insertion still walks its keys after all other calls."""
        status, output, _ = self.count("probe_maps", "kept", KEPT, KEYS)
        keys = sorted(number * SCATTER % 2**64 for number in range(KEPT))
        self.check(status == 0 and list(map(int, output.split())) == [0, *keys], "the kept map walks its keys")

    # ---- a version

    def check_reads(self):
        """A version is read in each way with every request for memory refused."""
        status, output, written = self.count("probe_store", "written", DOCUMENTS)
        self.check((status, output) == (0, "") and written > DOCUMENTS, "a version of %d documents" % DOCUMENTS)
        status, output, _ = self.count("probe_store", "read", DOCUMENTS)
        self.check((status, output) == (0, READS), "the reads of %d documents find them" % DOCUMENTS)
        status, output, _ = self.count("probe_store", "read", DOCUMENTS, REFUSE=written + 1, LAST=2**62)
        self.check((status, output) == (0, READS), "the reads of %d documents take no memory" % DOCUMENTS)
        status, _, _ = self.count("probe_store", "read", DOCUMENTS, REFUSE=written)
        self.check(status == 1, "the last request for memory is one of the last write's")

    # ---- sessions

    def check_call(self, word, what, receipt, fault):
        """Each request up to a session's call, refused in turn: the run ends before the call, or the call is answered."""
        again = fault + receipt
        *found, ample = self.answers("probe_threads", word)
        self.check(ample == (0, receipt), "a session has its %s" % what)
        before = found.index((0, again)) if (0, again) in found else len(found)
        print(
            "a %s makes %d requests, of which %d are answered as out of memory"
            % (what, len(found) - before, found.count((0, again)))
        )
        self.check((0, again) in found, "a request of a %s that is refused is answered as out of memory" % what)
        self.check(
            all(it in [(1, ""), (0, receipt)] for it in found[:before]),
            "a run that is refused memory before ends, or has its %s" % what,
        )
        self.check(
            all(it in [(0, receipt), (0, again)] for it in found[before:]), "a %s has an entry, or no entry and no call" % what
        )

    def check_calls(self):
        self.check_call("write", "write", RECEIPT, "out of memory, place 0\n")
        self.check_call("compact", "compaction", "call 4 place 4\n4\n", "out of memory, place 3\n")

    def check_successor(self):
        """Each request up to an opening of a closed database and of it, refused in turn: the run ends before, or the successor is
        opened, at once or the next time, and has its write."""
        opened, written = ("out of memory, place %d\n" % place + RECEIPT for place in (1, 0))
        *found, ample = self.answers("probe_threads", "successor")
        self.check(ample == (0, RECEIPT), "a successor has its write")
        refused = [number for number, it in enumerate(found) if it == (0, opened)]
        self.check(refused != [], "a request of an opening that is refused is answered as out of memory")
        first, last = (refused[0], refused[-1]) if refused else (len(found), len(found))
        print(
            "an opening of a successor makes %d requests, of which %d are answered as out of memory"
            % (last - first + 1, len(refused))
        )
        self.check(
            all(it in [(1, ""), (0, RECEIPT)] for it in found[:first]), "a run that is refused memory before ends, or goes on"
        )
        self.check(
            all(it in [(0, RECEIPT), (0, opened)] for it in found[first:last]), "a successor is opened at once or the next time"
        )
        self.check(
            all(it in [(1, ""), (0, RECEIPT), (0, written)] for it in found[last + 1 :]),
            "then the run ends, or has its write in the end",
        )

    def check_looks(self):
        """Two looks at one version ask for memory once, and are answered where that is refused."""
        *none, _ample = self.answers("probe_threads", "looks", 1, 0)
        *found, ample = self.answers("probe_threads", "looks", 1, 2)
        self.check(ample == (0, "1\n"), "a session looks")
        self.check(len(found) == len(none) + 1, "two looks at one version ask for memory once")
        self.check(
            all(it in [(1, ""), (0, "0\n"), (0, "1\n")] for it in found),
            "a run that is refused memory ends, or its looks are answered",
        )
        self.check(found[-1] == (0, "1\n"), "looks that are refused memory are answered")

    def check_replication(self):
        """Each request up to a replication and of it, refused in turn: the run ends before it, or it is done, at once or by a new
        worker."""
        *found, ample = self.answers("soak_replication", "replicate")
        self.check(ample == (0, DONE), "a replication is done")
        refused = [number for number, (status, output) in enumerate(found) if status == 0 and AGAIN.fullmatch(output)]
        before = refused[0] if refused else len(found)
        print("a replication makes %d requests, of which %d are answered as out of memory" % (len(found) - before, len(refused)))
        self.check(refused != [], "a request of a replication that is refused is answered as out of memory")
        self.check(
            all(it in [(1, ""), (0, DONE)] for it in found[:before]), "a run that is refused memory before ends, or is done"
        )
        others = [it for number, it in enumerate(found[before:], before) if number not in refused and it != (0, DONE)]
        self.check(others == [], "a replication is done, or is out of memory and a new worker finishes it")

    def check_all(self):
        self.idle = self.count("probe_maps", "map", 0, 0)[2]
        self.check_each_call()
        self.check_last()
        self.check_kept()
        self.check_reads()
        self.check_calls()
        self.check_successor()
        self.check_looks()
        self.check_replication()
        refused_rows.check_all(self.refuser, self.check)


def main():
    with refuser() as found:
        runs = Runs(found)
        runs.check_all()
    return runs.checks.report()


if __name__ == "__main__":
    sys.exit(main())
