"""Times builds of `couchd once` on large revision trees, side by side, and prints a table.

    python3 benches/bench_trees.py [--conflicts N] [--store] [COUCHD ...]

A figure is the processor time of the program for one operation, in microseconds, or of one bulk in milliseconds; of several
programs they are behind one another, with the ratio of the last to the first. The requests of a row are cut into pieces, which go
to each program in turn, and a figure is that of the best piece; the bulks of N conflicts, 18,700 where none is given, are one
request each. Every program runs on the last processor. The ratios are those of PUTs over long histories to one over a short one.
"""
import hashlib
import json
import sys
import urllib.parse

from shared.pipe import Program, compared, least
from shared.ratios import Ratios, with_store

from lib.programs import arguments, built, existing
from lib.requests import bulk, merge, request

DOCUMENTS = 20  # of each history, and so the requests of a piece
PIECES = 10
CONFLICTS = 100  # of a document that gets them in one bulk, and in one GET of many
CHAIN = 999  # revisions one behind another, below many leaves
LEAVES = 16000  # of that document
EDITED = 20  # of these in one bulk
ASKED = 380  # revisions of the chain in one GET, which a head has just room for
BRANCHES = 100  # of a document, each of as many revisions as are kept
DEEP = 1000
SHORT, LONG, FULL = (
    "PUT over 10 to 20 revisions",
    "PUT over 980 to 990 revisions, below the limit",
    "PUT over 1,000 revisions, at the limit",
)


class Histories:
    """Documents with one leaf each, which are edited in turn."""

    def __init__(self, name):
        self.ids = ["%s-%02d" % (name, number) for number in range(DOCUMENTS)]
        self.revs = [""] * DOCUMENTS

    def next_edit(self, number):
        """The revision that is there, and a next body."""
        rev = self.revs[number]
        body = {"over": rev}
        text = json.dumps(body, separators=(",", ":"))
        digest = hashlib.md5(("0,%s,%s" % (rev, text)).encode()).hexdigest()
        self.revs[number] = "%d-%s" % (int(rev.split("-")[0] or 0) + 1 if rev else 1, digest)
        return rev, body

    def edits(self):
        """A bulk of one edit of each document."""
        made = []
        for number, name in enumerate(self.ids):
            rev, body = self.next_edit(number)
            made.append(dict(body, _id=name, **({"_rev": rev} if rev else {})))
        return bulk(made)

    def grown(self, revisions):
        return [self.edits() for _ in range(revisions)]

    def puts(self):
        """A PUT of each document."""
        made = []
        for number, name in enumerate(self.ids):
            rev, body = self.next_edit(number)
            made.append(request("PUT", "/db/%s?rev=%s" % (name, rev), body))
        return made


class Branches:
    """One document of deep branches, each leaf of which is edited in turn."""

    def __init__(self, name):
        self.name = name
        self.revs = ["%d-%s" % (DEEP, self.hash(branch, DEEP)) for branch in range(BRANCHES)]

    def hash(self, branch, generation):
        return "%032x" % (0x9E3779B97F4A7C15F39CC0605CEDC835 * (branch * DEEP + generation) % 2**128)

    def grown(self):
        """A merge of each branch."""
        paths = [[self.hash(branch, generation) for generation in range(DEEP, 0, -1)] for branch in range(BRANCHES)]
        return [merge([{"_id": self.name, "_revisions": {"start": DEEP, "ids": path}}]) for path in paths]

    def edits(self):
        """A bulk of one edit of each leaf."""
        bodies = [{"over": rev} for rev in self.revs]
        made = [dict(body, _id=self.name, _rev=rev) for body, rev in zip(bodies, self.revs)]
        texts = [json.dumps(body, separators=(",", ":")) for body in bodies]
        digests = [hashlib.md5(("0,%s,%s" % (rev, text)).encode()).hexdigest() for rev, text in zip(self.revs, texts)]
        self.revs = ["%d-%s" % (int(rev.split("-")[0]) + 1, digest) for rev, digest in zip(self.revs, digests)]
        return bulk(made)


def conflict(at):
    return "1-%032x" % (0x9E3779B97F4A7C15 * (at + 1) % 2**128)


def conflicts(name, number):
    """A bulk of so many conflicts of a new document."""
    return merge([{"_id": name, "_rev": conflict(at)} for at in range(number)])


def edited_conflicts(name, number):
    """A bulk of an edit of each of so many conflicts."""
    return bulk([{"_id": name, "_rev": conflict(at)} for at in range(number)])


def opened(name, first):
    """A GET of some of these conflicts, as a replication asks for them."""
    revs = json.dumps([conflict(at) for at in range(first, first + CONFLICTS)])
    return request("GET", "/db/%s?revs=true&latest=true&open_revs=%s" % (name, urllib.parse.quote(revs)))


def link(generation):
    """The revision of the chain of this generation, by its hash."""
    return "%032x" % (0x9E3779B97F4A7C15 * generation % 2**128)


def spread(name):
    """Bulks of the chain, and of the leaves over it."""
    chain = {"start": CHAIN, "ids": [link(generation) for generation in range(CHAIN, 0, -1)]}
    bulks = [[{"_id": name, "_revisions": chain}]]
    for first in range(0, LEAVES, 4000):
        above = [{"start": CHAIN + 1, "ids": ["%032x" % (at + 1), link(CHAIN)]} for at in range(first, first + 4000)]
        bulks.append([{"_id": name, "_revisions": revisions} for revisions in above])
    return [merge(documents) for documents in bulks]


def edited_spread(name, first):
    """A bulk of an edit of each of some of these leaves."""
    return bulk([{"_id": name, "_rev": "%d-%032x" % (CHAIN + 1, at + 1)} for at in range(first, first + EDITED)])


def latest(name):
    """A GET of the latest over the chain's oldest revision."""
    return request("GET", "/db/%s?latest=true&rev=1-%s" % (name, link(1)))


def opened_latest(name):
    """A GET of the latest over many revisions of the chain."""
    revs = json.dumps(["%d-%s" % (generation, link(generation)) for generation in range(1, ASKED + 1)], separators=(",", ":"))
    return request("GET", "/db/%s?latest=true&open_revs=%s" % (name, urllib.parse.quote(revs, safe='[],"')))


def rows(many):
    """Each measurement: its name, what is sent before, its pieces, their status, the operations of a piece, and its unit."""
    short, long, full = Histories("short"), Histories("long"), Histories("full")
    yield SHORT, short.grown(10), [short.puts() for _ in range(PIECES)], 201, DOCUMENTS, 1e6
    yield LONG, long.grown(980), [long.puts() for _ in range(PIECES)], 201, DOCUMENTS, 1e6
    yield FULL, full.grown(1000), [full.puts() for _ in range(PIECES)], 201, DOCUMENTS, 1e6
    wide = [[conflicts("wide-%d" % at, CONFLICTS)] for at in range(PIECES)]
    yield "merge of %d conflicts of one document, for each" % CONFLICTS, [], wide, 201, CONFLICTS, 1e6
    brought = conflicts("w", many)
    yield "bulk of {:,} conflicts, milliseconds".format(many), [], [[brought]], 201, 1, 1e3
    yield "the same bulk again, milliseconds", [], [[brought]], 201, 1, 1e3
    gets = [[opened("w", at * CONFLICTS)] for at in range(PIECES)]
    yield "`open_revs` of %d of them with `latest`, for each" % CONFLICTS, [], gets, 200, CONFLICTS, 1e6
    over = "over {:,} leaves on a chain, milliseconds".format(LEAVES)
    yield "GET with `latest` " + over, spread("spread"), [[latest("spread")] for _ in range(PIECES)], 200, 1, 1e3
    yield "`open_revs` of %d with `latest` %s" % (ASKED, over), [], [
        [opened_latest("spread")] for _ in range(PIECES)
    ], 200, 1, 1e3
    edits = [[edited_spread("spread", at * EDITED)] for at in range(PIECES)]
    yield "edit of one of {:,} leaves on a chain, at the limit, for each".format(LEAVES), [], edits, 201, EDITED, 1e6
    branches = Branches("branches")
    deep = "edit of each leaf of {} branches of {:,} revisions, at the limit, for each".format(BRANCHES, DEEP)
    yield deep, branches.grown(), [[branches.edits()] for _ in range(PIECES)], 201, BRANCHES, 1e6
    last = [request("PUT", "/db/_revs_limit", 1)]
    yield "PUT of a limit of 1, after that many conflicts of another document", [conflicts("n", many)], [last], 200, 1, 1e6
    yield "bulk of an edit of each of {:,} conflicts, at a limit of 1, milliseconds".format(many), [], [
        [edited_conflicts("n", many)]
    ], 201, 1, 1e3


def main():
    reader = with_store(arguments(__doc__))
    reader.add_argument("--conflicts", type=int, default=18700)
    reader.add_argument("programs", nargs="*", type=existing, default=[built("couchd")])
    given = reader.parse_args()
    programs = [Program(path) for path in given.programs]
    print("| Operation | %s |\n|---|---|" % " / ".join(given.programs))
    figures = {}
    for name, before, pieces, status, operations, unit in rows(given.conflicts):
        for program in programs:
            program.answer(before, 201)
        found = [seconds * unit for seconds in least(programs, [(piece, operations) for piece in pieces], status)]
        figures[name] = found[-1]
        print("| %s | %s |" % (name, compared([found])), flush=True)
    for program in programs:
        program.close()
    ratios = Ratios("trees", given)
    for name in LONG, FULL:
        ratios.add("%s, of %s" % (name, SHORT), figures[name] / figures[SHORT])
    return ratios.report()


if __name__ == "__main__":
    sys.exit(main())
