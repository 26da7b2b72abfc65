"""Bounds the memory of long answers and the time of a feed, and has small documents read where the memory for writes is used up.

    python3 tests/test_bounds.py [COUCHD]

A document whose first 999 revisions are a chain has 2,000 leaves at the chain's tip. All of them with their paths are read as one
answer: its length is the one that was announced, its text is that of the rules, and meanwhile the program holds a few pieces of it. So it
is with a document of 18,700 leaves, of which each lists the others as conflicts: 13 GB, of which a beginning is read. The changes of
300,000 documents, and all of these documents, are read as one answer each; the program holds their rows, but not their text.
A continuous feed of 80,000 documents by their ids gives a row of each, in the order of their updates, at a cost that grows with their
number and not with its square.
Then a server that may have 100 MB of address space takes documents until it refuses them, and is read from there on, by connections old
and new: documents of 20 bytes, and of 20 kB, which take more than what a refused write gave back. Its threads have one heap; where each
asks for one of its own, some have none in so little space: they may be refused a write or a read at any time, but are never silent.
"""
import json
import os
import sys
import time
from collections import Counter

from lib.checks import Checks
from lib.programs import arguments, forget_most, memory, processor_seconds
from lib.server import Connection, Server

CHAIN, LEAVES = 999, 2000
CONFLICTS = 18_700  # in one bulk of a megabyte
LISTED, BULK = 80_000, 20_000
DOCUMENTS = 300_000
FEED_SECONDS = 3  # of the server's processor time, on a slow and busy machine; a quadratic cost is many times that
MEGABYTE = 1 << 20
BEGINNING = 200 * MEGABYTE  # of an answer that isn't read to its end
HELD = 32 * MEGABYTE  # at most, for an answer that is longer
HELD_CHANGES, HELD_DOCUMENTS = 60 * MEGABYTE, 24 * MEGABYTE  # the rows of so many documents, and a piece of their text
FIRST_SECONDS = 2  # until an answer begins
SPACE = 102400 * 1024  # bytes of address space
REFUSALS, READS = 20, 1000
LARGE, LARGE_SIZE = 50, 20_000
ONE_HEAP = {"MALLOC_ARENA_MAX": "1"}


def hash_of(number):
    return "%032x" % number


def paths():
    """The path of each leaf, newest first."""
    chain = [hash_of(generation) for generation in range(CHAIN, 0, -1)]
    return [[hash_of(1 << 64 | leaf), *chain] for leaf in range(LEAVES)]


def write_leaves(connection, checks):
    """Writes the document, by bulks of which only the first has the whole chain."""
    all_paths = paths()
    documents = [
        {
            "_id": "p",
            "_rev": "%d-%s" % (CHAIN + 1, path[0]),
            "_revisions": {"start": CHAIN + 1, "ids": path if at == 0 else path[:2]},
        }
        for at, path in enumerate(all_paths)
    ]
    for at in range(0, LEAVES, 1000):
        status, refused = connection.ask(
            "POST", "/db/_bulk_docs", json.dumps({"docs": documents[at : at + 1000], "new_edits": False}).encode()
        )
        checks.check((status, refused) == (201, []), "a bulk of leaves: %d", status)


def expected():
    """The answer, from the rules: leaves by their order, the lowest first."""
    chain = ",".join('"%s"' % hash_of(generation) for generation in range(CHAIN, 0, -1))
    return [
        '{"ok":{"_id":"p","_rev":"%d-%s","_revisions":{"ids":["%s",%s],"start":%d}}}'
        % (CHAIN + 1, path[0], path[0], chain, CHAIN + 1)
        for path in paths()
    ]


def body(connection, length):
    """So many bytes behind a head, which are not copied again for each piece that comes."""
    data = bytearray(connection.next_bytes(min(length, len(connection.rest))))
    while len(data) < length:
        piece = connection.socket.recv(min(MEGABYTE, length - len(data)))
        if not piece:
            raise EOFError("the connection ended in a body")
        data += piece
    return bytes(data)


def read_long(server, target, checks, most=None, may_hold=HELD):
    """A long answer, or its first bytes, at most so many, and the length that was announced. The program holds at most so much for it."""
    connection = Connection(server.port)
    forget_most(server.process.pid)
    before = memory(server.process.pid, "VmRSS")
    began = time.monotonic()
    connection.send("GET", target)
    status, headers = connection.head()
    waited = time.monotonic() - began
    length = int(headers["Content-Length"])
    text = body(connection, length if most is None else min(length, most)).decode()
    held = memory(server.process.pid, "VmHWM") - before
    print("%s: an answer of %d bytes began after %.2f seconds, and %d more were held" % (target, length, waited, held))
    checks.check(status == 200, "%s: status %d", target, status)
    checks.check(waited <= FIRST_SECONDS, "%s: begins after %.2f seconds", target, waited)
    checks.check(held <= may_hold, "%s: %d bytes are held for an answer of %d", target, held, length)
    if most is None:
        status, _ = connection.ask("GET", "/db")
        checks.check(status == 200, "%s: the connection goes on: %d", target, status)
    connection.close()
    return text, length


def long_paths(couchd, checks):
    """Leaves with their paths."""
    with Server(couchd, "--workers", "2") as server:
        write_leaves(Connection(server.port), checks)
        text, _ = read_long(server, "/db/p?open_revs=all&revs=true", checks)
        found = text[1:-1].replace('}},{"ok"', '}}\n{"ok"').split("\n")
        checks.check(sorted(found) == sorted(expected()) and text[0] + text[-1] == "[]", "the text of the leaves")
        checks.check(len(text) > HELD, "an answer of %d bytes is longer than what may be held", len(text))


def many_conflicts(couchd, checks):
    """Leaves of which each lists all but the winner as conflicts."""
    with Server(couchd, "--workers", "2") as server:
        leaves = ["1-" + hash_of(leaf) for leaf in range(CONFLICTS)]
        bulk = {"docs": [{"_id": "c", "_rev": rev} for rev in leaves], "new_edits": False}
        status, refused = Connection(server.port).ask("POST", "/db/_bulk_docs", bulk)
        checks.check((status, refused) == (201, []), "a bulk of conflicts: %d", status)
        text, length = read_long(server, "/db/c?open_revs=all&conflicts=true", checks, BEGINNING)
        winner_first = leaves[::-1]  # the greatest hash of one generation wins
        front = '{"ok":{"_conflicts":[%s],"_id":"c","_rev":' % ",".join('"%s"' % rev for rev in winner_first[1:])
        of_one = len(front + '"%s"}}' % leaves[0])
        whole_ones = len(text) // (of_one + 1)
        checks.check(length == CONFLICTS * (of_one + 1) + 1, "the length of the conflicts: %d", length)
        beginning = "[" + ",".join('%s"%s"}}' % (front, rev) for rev in winner_first[:whole_ones])
        checks.check(text.startswith(beginning) and whole_ones > 200, "the text of the conflicts")


def write_listed(connection, ids, checks):
    """Writes a document of each id, and returns their rows."""
    revs = []
    for at in range(0, len(ids), BULK):
        status, written = connection.ask("POST", "/db/_bulk_docs", {"docs": [{"_id": id} for id in ids[at : at + BULK]]})
        checks.check(status == 201, "a bulk of documents: %d", status)
        revs += [one["rev"] for one in written]
    return ['{"changes":[{"rev":"%s"}],"id":"%s","seq":%d}' % (rev, id, at + 1) for at, (id, rev) in enumerate(zip(ids, revs))]


def many_documents(couchd, checks):
    """The changes of many documents, and all of them: the lists of their rows, in the order of updates and in that of ids."""
    with Server(couchd, "--workers", "2") as server:
        ids = ["k%d" % number for number in range(DOCUMENTS)]
        rows = write_listed(Connection(server.port), ids, checks)
        text, length = read_long(server, "/db/_changes", checks, may_hold=HELD_CHANGES)
        changes = '{"last_seq":%d,"pending":0,"results":[%s]}' % (DOCUMENTS, ",".join(rows))
        checks.check((text, length) == (changes, len(changes)), "the changes of %d documents", DOCUMENTS)
        winners = {id: json.loads(row)["changes"][0]["rev"] for id, row in zip(ids, rows)}
        listed = ['{"id":"%s","key":"%s","value":{"rev":"%s"}}' % (id, id, winners[id]) for id in sorted(ids)]
        text, length = read_long(server, "/db/_all_docs", checks, may_hold=HELD_DOCUMENTS)
        documents = '{"offset":0,"rows":[%s],"total_rows":%d}' % (",".join(listed), DOCUMENTS)
        checks.check((text, length) == (documents, len(documents)), "all of %d documents", DOCUMENTS)


def listed_feed(couchd, checks):
    """A feed of many documents by their ids, up to the last of their rows."""
    with Server(couchd, "--workers", "2") as server:
        ids = ["k%d" % number for number in range(LISTED)]
        rows = write_listed(Connection(server.port), ids, checks)
        before = processor_seconds(server.process.pid)
        feed = Connection(server.port)
        feed.send("POST", "/db/_changes?filter=_doc_ids&feed=continuous&limit=%d" % LISTED, {"doc_ids": ids})
        feed.next_head()
        while feed.more():
            pass
        *given, last, end = feed.rest.decode().split("\n")
        spent = processor_seconds(server.process.pid) - before
        print("a feed of %d listed documents took %.2f seconds of the processor" % (LISTED, spent))
        checks.check(
            (given, last, end) == (rows, '{"last_seq":%d,"pending":0}' % LISTED, ""), "the rows of a feed of listed documents"
        )
        checks.check(spent <= FEED_SECONDS, "a feed of %d listed documents takes %.2f seconds", LISTED, spent)


def full_memory(couchd, checks, heaps):
    """A server whose memory is used up by documents goes on to answer reads."""
    with Server(couchd, "--workers", "4", env=dict(os.environ, **heaps), limits={"as": SPACE}) as server:
        write_large(server.port, checks, 0 if heaps == ONE_HEAP else REFUSALS)
        taken = fill(server.port)
        checks.check(taken > 0, "no document is taken")
        for name, count in ("d", taken), ("large", LARGE):
            for each_anew in (False, True):
                statuses = reads(server.port, name, count, each_anew)
                print("%s: %d documents, then reads of %s: %s" % (heaps, taken, name, dict(statuses)))
                checks.check(set(statuses) <= {200, 507}, "reads: %s", statuses)
                checks.check(heaps != ONE_HEAP or set(statuses) == {200}, "reads with one heap: %s", statuses)


def write_large(port, checks, most_refusals):
    """Writes the large documents while there is memory. Each write may be refused so many times, and is asked again over a new
    connection."""
    connection = Connection(port)
    for number in range(LARGE):
        for refusals in range(most_refusals + 1):
            status, _ = connection.ask("PUT", "/db/large%d" % number, json.dumps({"t": "x" * LARGE_SIZE}).encode())
            if status == 201:
                break
            connection.close()
            connection = Connection(port)
        checks.check(status == 201, "a large document, asked %d times: %d", refusals + 1, status)
    connection.close()


def fill(port):
    """Writes documents until so many in a row are refused, and returns how many were taken."""
    connection, taken, refused = Connection(port), 0, 0
    while refused < REFUSALS:
        status, _ = connection.ask("PUT", "/db/d%d" % taken, b'{"n":1}')
        if status == 201:
            taken, refused = taken + 1, 0
        else:
            connection.close()  # as the server does behind 507
            connection, refused = Connection(port), refused + 1
    return taken


def reads(port, name, documents, each_anew):
    """The statuses of reads of documents, by a connection that stays, or by one each; 0 stands for no answer."""
    statuses = Counter()
    connection = None
    for number in range(READS):
        try:
            if connection is None:
                connection = Connection(port)
            status, _ = connection.ask("GET", "/db/%s%d" % (name, number * 7 % documents))
        except (OSError, EOFError, ValueError):
            status = 0
        statuses[status] += 1
        if connection is not None and (each_anew or status != 200):
            connection.close()
            connection = None
    if connection is not None:
        connection.close()
    return statuses


def main():
    couchd = arguments(__doc__, "couchd").parse_args().couchd
    checks = Checks()
    for bound in long_paths, many_conflicts, many_documents, listed_feed:
        bound(couchd, checks)
    for heaps in ({}, ONE_HEAP):
        full_memory(couchd, checks, heaps)
    return checks.report()


if __name__ == "__main__":
    sys.exit(main())
