"""Times `couchd once` over pipes at databases of several sizes, of one build or of some side by side, and prints a table.

    python3 benches/bench_speed.py [--sizes 1000,10000,100000] [--runs N] [--only TEXT]... [--store] [COUCHD ...]

A figure is the processor time of the program for one operation, in microseconds; of several programs they are behind one another,
with the ratio of the last to the first. The requests of a row are cut into pieces, at most 20, which go to each program in turn;
a figure is that of the best piece. Every program runs on the last processor. Requests are sent without waiting for the response
before. The database has so many documents when a row's measurement begins; the rows that write make it larger, and come last. The
ratios are of the largest database to the smallest; with `--store` those of each size are stored for the plots too.

With `--runs`, figures and ratios are the medians of so many runs, each of which begins with empty databases. With `--only`, which
may be given several times, only the rows are measured whose names contain one of the texts, over the documents that are put
first. A program beside others may be any server that reads requests from its standard input when it is run as `PROGRAM once`: a
row that one of them answers with another status is left out, and a line says so.
"""
import hashlib
import json
import random
import statistics
import sys

from shared.figures import Figures
from shared.pipe import OtherStatus, Program, compared, figure, least
from shared.ratios import Ratios, with_store

from lib.programs import arguments, built, existing
from lib.requests import bulk, merge, request

OPERATIONS = 10000  # of the rows for single documents
PIECES = 20
FIRST = "to put the documents, in bulks of 1,000, for each"
MEMORY = "most memory, megabytes"
COMPARED = [
    "GET of a document",
    "PUT of a new document",
    "PUT of a next revision",
    "bulk of 1,000, for each document",
    "merge of 100 conflicts, for each",
]


class Documents:
    """What the program has, as far as the requests need it: of each document its last revision."""

    def __init__(self):
        self.revs = []

    def body(self, number):
        return {"kind": "note", "number": number, "text": "a small document"}

    def id(self, number):
        return "note-%06d" % number

    def next_rev(self, parent, body):
        text = json.dumps(body, separators=(",", ":"), sort_keys=True)
        digest = hashlib.md5(("0,%s,%s" % (parent, text)).encode()).hexdigest()
        return "%d-%s" % (int(parent.split("-")[0] or 0) + 1 if parent else 1, digest)

    def new(self):
        """A document that is not there: its number and its body."""
        number = len(self.revs)
        body = self.body(number)
        self.revs.append(self.next_rev("", body))
        return number, body

    def new_in_bulk(self):
        number, body = self.new()
        return dict(body, _id=self.id(number))

    def edit(self, number):
        """The revision that is there, and a next body."""
        rev = self.revs[number]
        body = dict(self.body(number), edit=rev)
        self.revs[number] = self.next_rev(rev, body)
        return rev, body


def listed(documents, source, size, which):
    """A list of ten documents: that were put one behind another, or that are far apart."""
    first = source.randrange(size - 9)
    numbers = range(first, first + 10) if which == "neighbouring" else source.sample(range(size), 10)
    return {"doc_ids": [documents.id(number) for number in numbers]}


def rows(size, source, documents):
    """Each measurement: its name, the requests, their status, and how many operations each is."""
    loads = [bulk([documents.new_in_bulk() for _ in range(min(1000, size - at))]) for at in range(0, size, 1000)]
    yield FIRST, loads, 201, min(1000, size)

    def some():
        return source.randrange(size)

    def targets(front, count):
        return [request("GET", front % some()) for _ in range(count)]

    yield "GET of a document", [request("GET", "/db/" + documents.id(some())) for _ in range(OPERATIONS)], 200, 1
    yield "GET of an unknown document", targets("/db/no-%d", OPERATIONS), 404, 1
    yield "GET `/db`", [request("GET", "/db")] * 1000, 200, 1
    pages = [request("GET", "/db/_changes?limit=10&since=%d" % source.randrange(size - 9)) for _ in range(1000)]
    yield "`_changes`, a page of 10 rows", pages, 200, 1
    for which in "neighbouring", "scattered":
        asked = [request("POST", "/db/_changes?filter=_doc_ids", listed(documents, source, size, which)) for _ in range(1000)]
        yield "`_changes` of 10 %s documents" % which, asked, 200, 1
    yield "`_changes`, a page of 100 rows", targets("/db/_changes?limit=100&since=%d", 200), 200, 1
    yield "`_changes`, a page of 1,000 rows", targets("/db/_changes?limit=1000&since=%d", 50), 200, 1
    yield "`_all_docs`, for each row", [request("GET", "/db/_all_docs")] * 5, 200, size
    asked = [{documents.id(n): [documents.revs[n], "9-" + "a" * 32] for n in (some() for _ in range(100))} for _ in range(50)]
    yield "`_revs_diff` of 100 documents", [request("POST", "/db/_revs_diff", ids) for ids in asked], 200, 1

    edits = []
    for number in (some() for _ in range(OPERATIONS)):
        rev, body = documents.edit(number)
        edits.append(request("PUT", "/db/%s?rev=%s" % (documents.id(number), rev), body))
    yield "PUT of a next revision", edits, 201, 1
    yield "PUT refused as a conflict", [request("PUT", "/db/" + documents.id(some()), {}) for _ in range(OPERATIONS)], 409, 1
    bulks = [bulk([documents.new_in_bulk() for _ in range(100)]) for _ in range(20)]
    yield "bulk of 100, for each document", bulks, 201, 100
    bulks = [bulk([documents.new_in_bulk() for _ in range(1000)]) for _ in range(5)]
    yield "bulk of 1,000, for each document", bulks, 201, 1000
    merges = [
        merge([{"_id": documents.id(n), "_rev": "1-" + "%032x" % n} for n in (some() for _ in range(100))]) for _ in range(20)
    ]
    yield "merge of 100 conflicts, for each", merges, 201, 100
    puts = []
    for _ in range(OPERATIONS):
        number, body = documents.new()
        puts.append(request("PUT", "/db/" + documents.id(number), body))
    yield "PUT of a new document", puts, 201, 1


def pieces(requests):
    """The requests in pieces of the same size, at most so many."""
    size = -(-len(requests) // PIECES)
    return [requests[at : at + size] for at in range(0, len(requests), size)]


class Bench:
    """Runs of some programs side by side, over the rows whose names contain one of the texts, or over all where there are
    none."""

    def __init__(self, paths, texts):
        self.paths, self.texts = paths, texts
        self.left_out = {}  # by the name of a row, why

    def wants(self, name):
        return name == FIRST or not self.texts or any(text in name for text in self.texts)

    def measure(self, programs, name, requests, status, operations):
        """The figure of each program, or None if the row is left out."""
        try:
            found = least(programs, [(piece, len(piece) * operations) for piece in pieces(requests)], status)
        except OtherStatus as other:
            if name == FIRST or len(programs) == 1:
                raise
            self.left_out[name] = other
            return None
        return [seconds * 1e6 for seconds in found]

    def run(self, size):
        """One run at one size: the figure of each program, by the name of the row."""
        programs = [Program(path) for path in self.paths]
        table = {}
        for row in rows(size, random.Random(size), Documents()):
            if self.wants(row[0]) and row[0] not in self.left_out:
                table[row[0]] = self.measure(programs, *row)
        table[MEMORY] = [each.most_megabytes() for each in programs]
        for program in programs:
            program.close()
        return table


def print_table(sizes, names, runs):
    print("| Operation | " + " | ".join("{:,} documents".format(size) for size in sizes) + " |")
    print("|---" * (len(sizes) + 1) + "|")
    columns = list(zip(*runs))  # of each size the table of each run
    for name in names:
        shown = "{:.0f}".format if name == MEMORY else figure
        print("| %s | %s |" % (name, " | ".join(compared([table[name] for table in tables], shown) for tables in columns)))


def main():
    reader = with_store(arguments(__doc__))
    reader.add_argument("--sizes", default="1000,10000,100000")
    reader.add_argument("--runs", type=int, default=1)
    reader.add_argument("--only", action="append", default=[], metavar="TEXT")
    reader.add_argument("programs", nargs="*", type=existing, default=[built("couchd")])
    given = reader.parse_args()
    sizes = [int(size) for size in given.sizes.split(",")]
    bench = Bench(given.programs, given.only)
    runs = [[bench.run(size) for size in sizes] for _ in range(given.runs)]
    names = [name for name in runs[0][0] if name not in bench.left_out]
    print_table(sizes, names, runs)
    for name, why in bench.left_out.items():
        print("left out: %s: %s" % (name, why))
    ratios, figures = Ratios("speed", given), Figures("growth", given)
    for name in [name for name in COMPARED if name in names]:
        for at, size in enumerate(sizes):
            grown = statistics.median(tables[at][name][-1] / tables[0][name][-1] for tables in runs)
            figures.add("Processor time of an operation", name, size, grown)
        ratios.add("%s, %d documents of %d" % (name, sizes[-1], sizes[0]), grown)
    figures.store()
    return ratios.report()


if __name__ == "__main__":
    sys.exit(main())
