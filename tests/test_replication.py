"""Runs `couchd replicate` between two servers, with ends that fail or lie and without memory, and looks at what both hold
afterwards.

    python3 tests/test_replication.py [--seeds N] [--pairs N] [COUCHD]

First a worked row: two conflicting leaves come to an empty target, both ends have one checkpoint, and a second run writes
nothing. Then an end that nobody listens at, and ends that fail or lie, by a proxy between the program and a server: the target
takes the documents and the connection is cut; the source's checkpoint is cut; the source leaves a revision out; the target
lists a refusal, or answers a bulk by what is no list, or no JSON. After each failure a run without it brings all. Then a run
whose standard error is a terminal, which says how far it has come. Then documents that no request can hold, which are named
and, with `--skip`, left out. Then hosts by their names and URLs, ends that are one, and ids that are left out. Then
replications without end: each write is at the target within a second, of a list alone too and both ways at once, and within ten
after the source was killed and started again. Then replications of listed documents: a worked row, ids that have to be escaped,
lists that are none, and a source that answers with a document that isn't on the list, or with no page of changes; and 100 pairs
of databases, each edited at random, between which replications of disjoint lists bring together what one without a list brings,
each what it lists alone, as the reference puts two databases together. Then databases that conflicting writers edit at random,
replicated in both directions until neither has news for the other: each write is taken, some documents have conflicts, and both
hold the same leaves and the same winners. At last each request for memory of a replication is refused in turn, for all
documents and for a list. It needs a C compiler.
"""
import hashlib
import itertools
import json
import os
import pty
import random
import re
import signal
import socket
import subprocess
import sys
import tempfile
import time

from lib.checks import Checks
from lib.ends import Proxy, replicate, replication
from lib.programs import SECONDS, arguments, run
from lib.refusals import refuser, was_refused
from lib.replicas import (
    B,
    End,
    as_list,
    checkpoint,
    checkpoints_are,
    conflict,
    counts,
    edit,
    has_conflict,
    has_documents,
    put,
    ran_as,
    reported,
    settle,
)
from lib.requests import encoded
from lib.server import Server
from reference import bodies, queries
from reference.database import Database, Refused

BATCH = 100  # changes that a replication reads at once
DOCUMENTS = 6  # that the writers of one seed share
EDITS = 12  # of each database before the two meet, and after
LISTS = 4  # at most, of disjoint documents, between the two of one pair

LEAVES = 30_000  # of one document, more than a request holds
MOST_BODY = 1_048_576  # bytes of a request
UNREADABLE = "an answer can't be read"

# what a terminal shows of a replication
PROGRESS = re.compile(r"documents read (\d+), written (\d+); changes left (\d+); (\d+) documents a second\x1b\[K")

# what is reported of a replication of two revisions that is refused memory
OUT_OF_MEMORY = re.compile(r"documents read [0-2], written [0-2]: out of memory\n")


def worked(checks, program):
    """A conflict comes to an empty target, once."""
    with End(checks, program) as source, End(checks, program) as target:
        conflict(source)
        ran_as(checks, replicate(program, source.port, target.port, "r"), 0, reported(2, 2, "done"))
        has_conflict(target)
        checkpoints_are(source, target, "r", ("0-1", 2), ("0-1", 2))
        places = source.place(), target.place()
        ran_as(checks, replicate(program, source.port, target.port, "r"), 0, reported(0, 0, "done"))
        checks.check((source.place(), target.place()) == places, "a second run writes")


def unreachable(checks, program):
    """An end that nobody listens at."""
    with socket.socket() as closed, socket.socket() as other, End(checks, program) as end:
        for bound in closed, other:
            bound.bind(("127.0.0.1", 0))  # so that nobody else takes its port
        port, last = [bound.getsockname()[1] for bound in (closed, other)]
        for source, target, name in (port, last, "source"), (port, end.port, "source"), (end.port, port, "target"):
            ran = replicate(program, source, target, "r")
            wanted = 1, "", "couchd: cannot reach the %s at 127.0.0.1:%d\n" % (name, port)
            checks.check(ran == wanted, "%r where nobody listens as %s", ran, name)


def is_of(request, method, path):
    return request.startswith(b"%s /db/%s" % (method, path))


def cut_after_bulk(request, answer):
    return None if answer and is_of(request, b"POST", b"_bulk_docs") else answer


def cut_before_checkpoint(request, answer):
    return None if is_of(request, b"PUT", b"_local/") else answer


def leave_out(request, answer):
    if not answer or b"open_revs=" not in request.split(b"\r\n", 1)[0]:
        return answer
    return json.dumps([leaf for leaf in json.loads(answer) if leaf["ok"]["_rev"] != "2-" + B]).encode()


REFUSAL = b'[{"error":"forbidden","id":"d","reason":"no"}]'


def answers_bulk(text):
    """Answers a bulk by this text."""
    return lambda request, answer: text if answer and is_of(request, b"POST", b"_bulk_docs") else answer


def failing(checks, program):
    """Each end fails or lies once; then a run without it brings all."""
    rows = [
        (
            "target",
            cut_after_bulk,
            1,
            reported(2, 0, "the target failed"),
            None,
            None,
            reported(0, 0, "done"),
            ("0-1", 2),
            ("0-1", 2),
        ),
        (
            "source",
            cut_before_checkpoint,
            1,
            reported(2, 2, "the source failed"),
            None,
            ("0-1", 2),
            reported(0, 0, "done"),
            ("0-1", 2),
            ("0-2", 2),
        ),
        (
            "source",
            leave_out,
            3,
            reported(1, 0, "an answer can't be read"),
            None,
            None,
            reported(2, 2, "done"),
            ("0-1", 2),
            ("0-1", 2),
        ),
        (
            "target",
            answers_bulk(REFUSAL),
            3,
            reported(2, 0, "a write was refused"),
            None,
            None,
            reported(0, 0, "done"),
            ("0-1", 2),
            ("0-1", 2),
        ),
        (
            "target",
            answers_bulk(b"{}"),
            3,
            reported(2, 0, "a write was refused"),
            None,
            None,
            reported(0, 0, "done"),
            ("0-1", 2),
            ("0-1", 2),
        ),
        (
            "target",
            answers_bulk(b"["),
            3,
            reported(2, 0, "an answer can't be read"),
            None,
            None,
            reported(0, 0, "done"),
            ("0-1", 2),
            ("0-1", 2),
        ),
    ]
    for end, change, status, text, at_source, at_target, again, last_source, last_target in rows:
        with End(checks, program) as source, End(checks, program) as target:
            conflict(source)
            proxy = Proxy(source.port if end == "source" else target.port, change)
            ports = (proxy.port, target.port) if end == "source" else (source.port, proxy.port)
            ran_as(checks, replicate(program, *ports, "r"), status, text)
            proxy.join()
            checkpoints_are(source, target, "r", at_source, at_target)
            ran_as(checks, replicate(program, source.port, target.port, "r"), 0, again)
            has_conflict(target)
            checkpoints_are(source, target, "r", last_source, last_target)


def read_terminal(terminal):
    """All that was written to a terminal that nobody has open any more."""
    text = b""
    while True:
        try:
            piece = os.read(terminal, 65536)
        except OSError:
            return text
        if not piece:
            return text
        text += piece


def progress(checks, program):
    """On a terminal one line on standard error says how far it has come, and is taken away at the end; else nothing is said so
    soon."""
    with End(checks, program) as source, End(checks, program) as target:
        docs = [{"_id": "d%d" % number} for number in range(BATCH + 1)]
        checks.check(source.ask("POST", "/db/_bulk_docs", {"docs": docs})[0] == 201, "no documents are made")
        proxy = Proxy(source.port, lambda request, answer: time.sleep(0.01 if answer else 0) or answer)
        terminal, errors = pty.openpty()
        command = replication(program, proxy.port, target.port, "t")
        ran = subprocess.run(command, stdin=subprocess.DEVNULL, stdout=subprocess.PIPE, stderr=errors, timeout=SECONDS)
        os.close(errors)
        text = read_terminal(terminal).decode()
        os.close(terminal)
        found = ran.returncode, ran.stdout.decode()
        wanted = 0, reported(BATCH + 1, BATCH + 1, "done")
        checks.check(found == wanted, "%r on a terminal in place of %r", found, wanted)
        has_documents(target, *(doc["_id"] for doc in docs))
        before, *lines = text.split("\r")
        checks.check(before == "" and lines[-1:] == ["\x1b[K"], "%r on the terminal", text)
        said = [PROGRESS.fullmatch(line) for line in lines[:-1]]
        checks.check(all(said) and said, "%r on the terminal", text)
        read = [int(line[1]) for line in said if line]
        checks.check(read == sorted(read) and max(read, default=0) <= BATCH + 1, "documents read %r", read)
        checks.check({int(line[3]) for line in said if line} <= {0, 1}, "changes left %r", text)
        ran_as(checks, replicate(program, source.port, target.port, "u"), 0, reported(0, 0, "done"))


def document_around(id):
    """What a document has beside its only member where it is sent."""
    path = '"_rev":"1-%s","_revisions":{"ids":["%s"],"start":1},' % ("0" * 32, "0" * 32)
    return '"_id":"%s",' % id + path


def source_seq(server):
    return server.ask("GET", "/db")[1]["update_seq"]


def fill_wide(server, id, leaves):
    """A document with so many leaves."""
    for first in range(0, leaves, 15000):
        docs = [{"_id": id, "_rev": "1-%032x" % leaf} for leaf in range(first, min(first + 15000, leaves))]
        found = server.ask("POST", "/db/_bulk_docs", {"docs": docs, "new_edits": False})
        server.check(found == (201, []), "no document of %d leaves is made: %r", leaves, found)


def skips(checks, program):
    """A document too large for a bulk, and one with more leaves than a request holds, keep what is behind them from coming, and
    are named; with `--skip` all else comes, and the checkpoints, which are others, say so. Then what comes later comes alone."""
    large, wide = "l" * 20, "w"
    leaf = 'couchd: one request may not hold %d leaves, of which the document "w" has %d\n'
    with End(checks, program) as source, End(checks, program) as strict, End(checks, program) as target:
        put(source, "a")
        text = "x" * (MOST_BODY - len('{"t":""}'))
        checks.check(source.ask("PUT", "/db/" + large, {"t": text})[0] == 201, "no large document is made")
        put(source, "b")
        fill_wide(source, wide, LEAVES)
        put(source, "c")
        ran = replicate(program, source.port, strict.port, None)
        checks.check(ran[:2] == (3, reported(0, 0, UNREADABLE)), "%r of a document with too many leaves", ran)
        checks.check(ran.errors == leaf % (LEAVES + 4, LEAVES), "%r of a document with too many leaves", ran.errors)
        ran = replicate(program, source.port, strict.port, None, "a,b,c," + large)
        checks.check(ran[:2] == (3, reported(4, 3, UNREADABLE)), "%r of a large document", ran)
        length = MOST_BODY + len(document_around(large))
        line = 'couchd: no bulk can hold the document "%s", which has %d bytes\n' % (large, length)
        checks.check(ran.errors == line, "%r of a large document", ran.errors)
        ran = replicate(program, source.port, target.port, None, skip=True)
        checks.check(ran[:2] == (0, reported(4, 3, "done")), "%r of a replication that skips", ran)
        lines = [
            'couchd: the document "w" is skipped: no request can hold its %d leaves' % LEAVES,
            'couchd: the document "%s" is skipped: no bulk can hold its %d bytes' % (large, length),
        ]
        checks.check(ran.errors.splitlines() == lines, "%r of a replication that skips", ran.errors)
        has_documents(target, "a", "b", "c")
        places = "127.0.0.1:%d\n127.0.0.1:%d\n" % (source.port, target.port)
        id, other = [hashlib.md5((places + skip).encode()).hexdigest() for skip in ("skip\n", "")]
        for server in source, target:
            _, mark = server.ask("GET", "/db/_local/" + id)
            checks.check(mark.get("skip") is True and mark["last_seq"] == source_seq(source), "the checkpoint %r", mark)
            checks.check(checkpoint(server, other) is None, "a checkpoint of a replication that skips nothing")
        put(source, "d")
        ran_as(checks, replicate(program, source.port, target.port, None, skip=True), 0, reported(1, 1, "done"))


# ---- ends that are given


def one_end(checks, program):
    """A source that is the target is refused at once, by its name or by where it is reached."""
    with End(checks, program) as server:
        target = ["--target", "127.0.0.1:%d" % server.port]
        for source in "127.0.0.1", "http://127.0.0.1":
            ran = run([program, "replicate", "--source", "%s:%d" % (source, server.port), *target], "")
            checks.check(ran.status == 2 and "'--source' and '--target' are one place" in ran.errors, "%r", ran)
        ran = run([program, "replicate", "--source", "localhost:%d" % server.port, *target], "")
        checks.check(ran == (1, "", "couchd: the source and the target are one\n"), "%r of one end by two names", ran)


def ids_of_ends(checks, program):
    """Without an id each direction, and each list, has checkpoints of its own, under the digest of what it is for."""
    with End(checks, program) as one, End(checks, program) as other:
        put(one, "a", "b")
        put(other, "c")
        ran_as(checks, replicate(program, one.port, other.port, None), 0, reported(2, 2, "done"))
        ran_as(checks, replicate(program, other.port, one.port, None), 0, reported(1, 1, "done"))
        ran_as(checks, replicate(program, one.port, other.port, None), 0, reported(0, 0, "done"))
        here, there = "127.0.0.1:%d" % one.port, "127.0.0.1:%d" % other.port
        for text in "%s\n%s\n" % (here, there), "%s\n%s\n" % (there, here):
            id = hashlib.md5(text.encode()).hexdigest()
            for server in one, other:
                checks.check(checkpoint(server, id) is not None, "no checkpoint for %r", text)
        ran_as(checks, replicate(program, one.port, other.port, None, "b,a,b"), 0, reported(0, 0, "done"))
        id = hashlib.md5(("%s\n%s\nids:1:a1:b" % (here, there)).encode()).hexdigest()
        checks.check(checkpoint(other, id) is not None, "no checkpoint for a list")


def names(checks, program):
    """Hosts by their names, and databases by their URLs."""
    with End(checks, program) as source, End(checks, program) as target:
        put(source, "a")
        places = ["localhost:%d", "http://localhost:%d", "http://127.0.0.1:%d/db", "127.0.0.1:%d"]
        for number, (one, other) in enumerate(itertools.product(places, places)):
            ends = ["--source", one % source.port, "--target", other % target.port]
            ran = run([program, "replicate", *ends, "--id", "n%d" % number], "")
            documents = 1 if number == 0 else 0
            checks.check(ran[:2] == (0, reported(documents, documents, "done")), "%r from %s to %s", ran, one, other)
        ends = ["--source", "no-such-host.invalid:1", "--target", "127.0.0.1:%d" % target.port]
        ran = run([program, "replicate", *ends, "--id", "n"], "")
        wanted = 1, "", "couchd: no address of the source at no-such-host.invalid:1 is found\n"
        checks.check(ran == wanted, "%r of a name without an address", ran)


# ---- without end


def endless(program, source, target, *options):
    """A replication from one port to another that goes on without end."""
    command = replication(program, source, target, None) + ["--continuous", *options]
    return subprocess.Popen(command, stdin=subprocess.DEVNULL, stdout=subprocess.PIPE, stderr=subprocess.PIPE)


def ended(checks, process):
    """What an endless replication wrote on standard error, when a signal has ended it."""
    checks.check(process.poll() is None, "it ended by itself, with status %r", process.poll())
    process.terminate()
    output, errors = process.communicate(timeout=SECONDS)
    checks.check(process.returncode == -signal.SIGTERM, "status %d after a signal", process.returncode)
    checks.check(output == b"", "%r on standard output", output)
    return errors.decode()


def appears(server, id, seconds):
    """Whether a document is at the server within so many seconds."""
    until = time.monotonic() + seconds
    while time.monotonic() < until:
        if server.ask("GET", "/db/" + id)[0] == 200:
            return True
        time.sleep(0.01)
    return False


def continuous(checks, program):
    """Each write is at the target within a second, one of a list alone too, and all of it is marked."""
    for listed in None, ["c%d" % number for number in range(0, 20, 2)]:
        with End(checks, program) as source, End(checks, program) as target:
            ids = None if listed is None else as_list(listed)
            process = endless(program, source.port, target.port, *([] if ids is None else ["--doc-ids", ids]))
            for number in range(20):
                id = "c%d" % number
                put(source, id)
                if listed is None or id in listed:
                    checks.check(appears(target, id, 1), "%s isn't there after a second", id)
            if listed is not None:
                has_documents(target, *listed)
            errors = ended(checks, process)
            checks.check(errors == "", "standard error %r", errors)
            ran_as(checks, replicate(program, source.port, target.port, None, ids), 0, reported(0, 0, "done"))


def both_ways(checks, program):
    """Two servers that replicate to each other without end have what either was given, and nothing goes round."""
    with End(checks, program) as one, End(checks, program) as other:
        processes = endless(program, one.port, other.port), endless(program, other.port, one.port)
        for number in range(20):
            put(one if number % 2 else other, "w%d" % number)
        for number in range(20):
            for server in one, other:
                checks.check(appears(server, "w%d" % number, 2), "w%d isn't there", number)
        time.sleep(1)
        places = one.place(), other.place()
        time.sleep(1)
        checks.check((one.place(), other.place()) == places, "writes go round")
        for process in processes:
            checks.check(ended(checks, process) == "", "something is said")


def comes_back(checks, program):
    """The source is killed and started again: what is written then is at the target within ten seconds, and each failure is
    said."""
    with tempfile.TemporaryDirectory() as folder, End(checks, program) as target:
        port, process = 0, None
        for number in range(3):
            with Server(program, "--sync", "always", "--workers", "3", data=folder, port=port) as server:
                port = server.port
                process = process or endless(program, port, target.port)
                connection = server.connect()
                checks.check(connection.ask("PUT", "/db/k%d" % number, {})[0] == 201, "k%d isn't made", number)
                checks.check(appears(target, "k%d" % number, 10), "k%d isn't there after ten seconds", number)
                connection.close()
            time.sleep(1.5)
        lines = ended(checks, process).splitlines()
        wanted = "couchd: cannot reach the source at 127.0.0.1:%d" % port, "couchd: the next run begins in 1 s"
        checks.check(all(line in lines for line in wanted), "the lines %r", lines)


# ---- listed documents


def listed_documents(checks, program):
    """A document comes alone to an empty target, once, and later its next revision."""
    with End(checks, program) as source, End(checks, program) as target:
        put(source, "a", "b", "c")
        ran_as(checks, replicate(program, source.port, target.port, "r", "b"), 0, reported(1, 1, "done"))
        has_documents(target, "b")
        checkpoints_are(source, target, "r", ("0-1", 3), ("0-1", 3))
        places = source.place(), target.place()
        ran_as(checks, replicate(program, source.port, target.port, "r", "b"), 0, reported(0, 0, "done"))
        checks.check((source.place(), target.place()) == places, "a second run writes")
        for id in "b", "a":
            rev = source.ask("GET", "/db/" + id)[1]["_rev"]
            checks.check(source.ask("PUT", "/db/%s?rev=%s" % (id, rev), {"n": 1})[0] == 201, "%s isn't changed", id)
        ran_as(checks, replicate(program, source.port, target.port, "r", "b"), 0, reported(1, 1, "done"))
        has_documents(target, "b")
        checks.check(source.leaves("b") == target.leaves("b"), "other leaves of b")
        checkpoints_are(source, target, "r", ("0-2", 5), ("0-2", 5))


def lists(checks, program):
    """Ids that are escaped, that come twice, and that no document has; and lists that are none."""
    with End(checks, program) as source, End(checks, program) as target:
        put(source, "x,y", "100%", "é", "other")
        ids = ["é", "100%", "zz", "x,y", "100%"]
        ran_as(checks, replicate(program, source.port, target.port, "r", as_list(ids)), 0, reported(3, 3, "done"))
        has_documents(target, "x,y", "100%", "é")
        ran_as(checks, replicate(program, source.port, target.port, "none", "zz"), 0, reported(0, 0, "done"))
        for listed in "", "a,", ",a", "a,,b", "%ff", "x" * 513:
            status, text, errors = replicate(program, source.port, target.port, "r", listed)
            wanted = "error: the list of documents has an id that is no text of 1 to 512 bytes\n"
            checks.check((status, text) == (2, ""), "status %d, %r for the list %r", status, text, listed)
            checks.check(errors.startswith(wanted), "%r for the list %r", errors, listed)


def is_list_of_changes(request):
    return is_of(request, b"POST", b"_changes?")


def other_row(request, answer):
    """Answers for a list with a document that isn't on it."""
    if not answer or not is_list_of_changes(request):
        return answer
    page = json.loads(answer)
    page["results"] = [{**row, "id": "a"} for row in page["results"]]
    return json.dumps(page).encode()


def no_page(request, answer):
    """Answers for a list with what is no page of changes."""
    return b'{"results":"b"}' if answer and is_list_of_changes(request) else answer


def lying_lists(checks, program):
    """A source answers with another document, or with no page; nothing is written, and a run without it brings the list."""
    for change in other_row, no_page:
        with End(checks, program) as source, End(checks, program) as target:
            put(source, "a", "b")
            proxy = Proxy(source.port, change)
            ran_as(checks, replicate(program, proxy.port, target.port, "r", "b"), 3, reported(0, 0, "an answer can't be read"))
            proxy.join()
            has_documents(target)
            checkpoints_are(source, target, "r", None, None)
            ran_as(checks, replicate(program, source.port, target.port, "r", "b"), 0, reported(1, 1, "done"))
            has_documents(target, "b")


def dealt(dice, ids):
    """The ids, each on one of a few lists, beside one that no document has."""
    lists = [[] for _ in range(dice.randrange(1, LISTS + 1))]
    for id in ids:
        dice.choice(lists).append(id)
    for number, listed in enumerate(lists):
        listed.insert(dice.randrange(len(listed) + 1), "none-%d" % number)
    return lists


def together(checks, id, *servers):
    """What `leaves` gives for a document where all that the servers have of it is in one database, by the reference."""
    database = Database()
    for server in servers:
        _, leaves = server.ask("GET", "/db/%s?open_revs=all&revs=true" % id)
        merges, _ = bodies.bulk_changes(encoded({"docs": [leaf["ok"] for leaf in leaves], "new_edits": False}))
        checks.check(
            not any(isinstance(reply, Refused) for reply in database.bulk(merges)), "the leaves of %s contradict one another", id
        )
    leaves = queries.open_revs(database, id, None, queries.Options(revs=True))
    try:
        winner = queries.get(database, id, None, queries.Options())["_rev"]
    except Refused as refusal:
        winner = refusal.kind
    return sorted(json.dumps(leaf, sort_keys=True) for leaf in leaves), winner


def by_lists(checks, program, source, target, lists, order, pair):
    """Replicates each list in turn, and gives the counts of each run. Behind each run the documents that were listed are those of
    both databases together, and the others are as they were."""
    ids = [id for listed in lists for id in listed]
    held = {id: target.leaves(id) for id in ids}
    parts = []
    for number in order:
        for id in lists[number]:
            held[id] = together(checks, id, target, source)
        parts.append(counts(checks, replicate(program, source.port, target.port, "list-%d" % number, as_list(lists[number]))))
        for id in ids:
            found = target.leaves(id)
            checks.check(found == held[id], "%s of pair %d: %r behind list %d, in place of %r", id, pair, found, number, held[id])
    return parts


def disjoint_lists(checks, program, pairs):
    """What replications of disjoint lists bring together is what one without a list brings to a database that was the same."""
    brought = 0
    for pair in range(pairs):
        dice = random.Random("pair %d" % pair)
        ids = ["p%d" % number for number in range(DOCUMENTS)]
        with End(checks, program) as source, End(checks, program) as some, End(checks, program) as whole:
            for _ in range(dice.randrange(EDITS)):
                edit(whole, dice, ids)
            counts(checks, replicate(program, whole.port, some.port, "before"))
            lists = dealt(dice, ids)
            for _ in range(2):
                for _ in range(EDITS):
                    edit(source, dice, ids)
                order = dice.sample(range(len(lists)), len(lists))
                parts = by_lists(checks, program, source, some, lists, order, pair)
                at_once = counts(checks, replicate(program, source.port, whole.port, "whole"))
                sums = [sum(column) for column in zip(*parts)]
                checks.check(sums == at_once, "pair %d: %r by lists, %r at once", pair, sums, at_once)
                for id in ids:
                    listed, without = some.leaves(id), whole.leaves(id)
                    checks.check(listed == without, "%s of pair %d: %r by lists, %r at once", id, pair, listed, without)
                brought += at_once[1]
    print("disjoint lists: %d documents brought" % brought)
    checks.check(brought > 0 or pairs == 0, "nothing was brought")


# ---- databases that are edited at random


def random_edits(checks, program, seeds):
    conflicts = 0  # documents with more than one leaf that is not deleted
    with End(checks, program) as one, End(checks, program) as other:
        for seed in range(seeds):
            dice = random.Random(seed)
            ids = ["s%d-%d" % (seed, number) for number in range(DOCUMENTS)]
            for _ in range(2):
                for server in (one, other):
                    for _ in range(EDITS):
                        edit(server, dice, ids)
                settle(program, one, other, seed)
            for id in ids:
                here, there = one.leaves(id), other.leaves(id)
                checks.check(here == there, "%s of seed %d: %r here, %r there", id, seed, here, there)
                conflicts += len(one.live(id)) > 1
    print("edits at random: %d documents with a conflict" % conflicts)
    checks.check(conflicts > 0 or seeds == 0, "no document has a conflict")


# ---- memory


def is_out_of_memory(ran):
    return ran.status == 1 and OUT_OF_MEMORY.fullmatch(ran.output) is not None


def check_refused(checks, program, source, target, what, id, ran, listed):
    """What a run reports that was refused memory, and what a run with memory then leaves."""
    is_done = ran[:2] == (0, reported(2, 2, "done"))
    is_right = is_done or is_out_of_memory(ran) or ran[:2] == (1, "")
    checks.check(is_right, "%s refused: status %d, %r, %r", what, *ran)
    again = replicate(program, source.port, target.port, id, listed)
    checks.check(again.status == 0, "after %s: %r", what, again)
    has_conflict(target)
    last = checkpoint(target, id)
    checks.check(last in (("0-1", 2), ("0-2", 2)), "after %s: the target's checkpoint is %r", what, last)
    last = checkpoint(source, id)
    checks.check(last == ("0-1", 2), "after %s: the source's checkpoint is %r", what, last)


def refused(checks, program, runs, name, listed=None):
    """Each request for memory of one replication is refused; a run with memory then comes to the same end. A refusal may be made
    good; else it is reported, or nothing is where it comes before the first request to a server. The servers have all their
    memory."""
    numbers = itertools.count(1)
    with End(checks, program) as source:
        conflict(source)

        def attempt(env):
            number = next(numbers)
            id = "m%d" % number
            with End(checks, program) as target:
                ran = replicate(program, source.port, target.port, id, listed, env)
                if was_refused(ran):
                    check_refused(checks, program, source, target, "request %d of %s" % (number, name), id, ran, listed)
            return ran

        *found, _ample = runs.in_turn(attempt)
    reports = sum(map(is_out_of_memory, found))
    print("%s: %d requests for memory, of which %d are reported as out of memory" % (name, len(found), reports))
    checks.check(reports > 0, "no request of %s that was refused is reported as out of memory", name)


def main():
    checks = Checks()
    reader = arguments(__doc__, "couchd")
    reader.add_argument("--seeds", type=int, default=200)
    reader.add_argument("--pairs", type=int, default=100)
    given = reader.parse_args()
    program = given.couchd
    worked(checks, program)
    unreachable(checks, program)
    failing(checks, program)
    progress(checks, program)
    skips(checks, program)
    names(checks, program)
    one_end(checks, program)
    ids_of_ends(checks, program)
    continuous(checks, program)
    both_ways(checks, program)
    comes_back(checks, program)
    listed_documents(checks, program)
    lists(checks, program)
    lying_lists(checks, program)
    disjoint_lists(checks, program, given.pairs)
    random_edits(checks, program, given.seeds)
    with refuser() as runs:
        refused(checks, program, runs, "a replication")
        refused(checks, program, runs, "a replication of a list", "none,d%2c,d")
    return checks.report()


if __name__ == "__main__":
    sys.exit(main())
