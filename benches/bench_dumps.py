"""Times the dump of histories and their audit, and what begins and reads the next epoch, and prints two tables.

    python3 benches/bench_dumps.py [--store] [COUCHD REPLAY]

Each history of the first table has so many PUTs of new documents. Of serving them, of dumping their history and of its audit the
table has the processor time, the least of five runs, and the most memory that was held, behind it what that is of the dump. Each
history of the second has so many documents of ten revisions, a merge of a path each, in bulks of 1,000. Of serving them, of the
audit of their dump, of `replay base` over it and of the audit of the line that this writes the table has the same. The ratios are
of an audit to serving and dumping, of its memory to the dump, and of the largest history to the smallest.
"""
import hashlib
import os
import subprocess
import sys
import tempfile

from shared.ratios import Ratios, with_store

from lib.programs import arguments
from lib.requests import merge, request

COUNTS = [25000, 50000, 100000, 200000]
DOCUMENTS = [25000, 50000, 100000]
REVISIONS = 10
BULK = 1000
RUNS = 5


def puts(count):
    return b"".join(request("PUT", "/db/d%d" % i, {"n": i % 900 + 100}) for i in range(count))


def run(command, data):
    """What a run prints, its processor time in seconds, and the most megabytes that it held."""
    with tempfile.TemporaryFile() as source, tempfile.TemporaryFile() as out:
        source.write(data)
        source.seek(0)
        process = subprocess.Popen(command, stdin=source, stdout=out)
        _, status, used = os.wait4(process.pid, 0)
        process.returncode = os.waitstatus_to_exitcode(status)
        out.seek(0)
        return out.read(), used.ru_utime + used.ru_stime, used.ru_maxrss / 1024


def least(command, data):
    runs = [run(command, data) for _ in range(RUNS)]
    return runs[0][0], min(seconds for _, seconds, _ in runs), max(held for _, _, held in runs)


def merges(count):
    """Requests that bring documents of ten revisions."""
    requests = []
    for first in range(0, count, BULK):
        documents = [{"_id": "d%d" % i, "_revisions": path(i), "n": i} for i in range(first, min(first + BULK, count))]
        requests.append(merge(documents))
    return b"".join(requests)


def path(number):
    """The path of a document's newest revision."""
    generations = range(REVISIONS, 0, -1)
    return {"start": REVISIONS, "ids": [hashlib.md5(b"%d %d" % (number, generation)).hexdigest() for generation in generations]}


def print_audits(couchd, replay, ratios):
    each = []  # the seconds of an entry's audit
    print(
        "| Entries | Dump (MB) | `couchd once` (s) | `couchd dump` (s) | `replay check` (s) | memory of the audit (MB), of the dump |"
    )
    print("|---|---|---|---|---|---|")
    for count in COUNTS:
        data = puts(count)
        _, once, _ = least([couchd, "once"], data)
        dump, dumping, _ = least([couchd, "dump"], data)
        said, checking, held = least([replay, "check"], dump)
        assert said == b"legal %d\n" % count, said
        size = len(dump) / 2**20
        each.append(checking / count)
        print(
            "| %d | %.1f | %.2f | %.2f | %.2f | %.0f / %.1f |" % (count, size, once, dumping, checking, held, held / size),
            flush=True,
        )
    ratios.add("audit of %d entries, of serving and dumping them" % count, checking / dumping)
    ratios.add("memory of that audit, of the dump", held / size)
    ratios.add("audit of an entry of %d, of one of %d" % (COUNTS[-1], COUNTS[0]), each[-1] / each[0])


def print_epochs(couchd, replay, ratios):
    print(
        "| Documents | Dump, line (MB) | `couchd once` (s) | `replay check` (s) | `replay base` (s) | `replay check` of the line (s) "
        "| memory of `replay base` (MB), of the dump | of the line's audit (MB), of the line |"
    )
    print("|---|---|---|---|---|---|---|---|")
    for count in DOCUMENTS:
        data = merges(count)
        _, once, _ = least([couchd, "once"], data)
        dump, _, _ = least([couchd, "dump"], data)
        _, checking, _ = least([replay, "check"], dump)
        line, making, held = least([replay, "base"], dump)
        said, reading, read = least([replay, "check"], line)
        assert said == b"legal 0\n", said
        size, width = len(dump) / 2**20, len(line) / 2**20
        print(
            "| %d | %.1f, %.1f | %.2f | %.2f | %.2f | %.2f | %.0f / %.1f | %.0f / %.1f |"
            % (count, size, width, once, checking, making, reading, held, held / size, read, read / width),
            flush=True,
        )
    ratios.add("the line of a base of %d documents read, of serving them" % count, reading / once)
    ratios.add("memory of that reading, of the line", read / width)


def main():
    given = with_store(arguments(__doc__, "couchd", "replay")).parse_args()
    ratios = Ratios("dumps", given)
    print_audits(given.couchd, given.replay, ratios)
    print()
    print_epochs(given.couchd, given.replay, ratios)
    return ratios.report()


if __name__ == "__main__":
    sys.exit(main())
