"""Runs `couchd replicate` between two ends that answer by a script, and compares the bytes of the requests that come to them.

    python3 tests/test_peers.py [COUCHD]

What a bulk asks is read by the reference. The same with a list of documents: one that comes alone, ids that have to be escaped
in a path or in JSON, two pages, checkpoints on both ends, and sources that answer with a document off the list, or that take no
filter. Documents are asked for ahead of the answers, within bounds, in order and by the same bytes; a source that is cut within
the answers to them, or gives them in another order, is named; so is one that answers too often, and an end that reads nothing.
A document that no bulk can hold, one with too many leaves to be asked about, and checkpoints past the source's end, are named
on standard error; with `--skip` such documents are left out, and the checkpoints say so. Either end is silent at each of its
calls, and is given up in time and named. An end that ends the connection, or can't serve a call, is asked again over the next
one; one that drips, or whose answer is too long, is given up. Then the source's first answer comes in forms that are read and
in forms that aren't, in pieces, and cut: what the program reports must be right.
"""
import json
import sys
import time
from urllib.parse import quote, quote_plus

from lib import ends
from lib.checks import Checks
from lib.ends import SILENT, Cut, Failing, Gathering, Listener, Scripted, Several
from lib.programs import SECONDS, arguments
from lib.requests import encoded, request
from reference import bodies, revisions
from reference.database import Merge
from reference.json_profile import EMPTY, text

# an id with bytes that have to be escaped in a path
ID = 'a/b %\u00e4+&?#"'

FIRST, SECOND = "1-0123456789abcdef0123456789abcdef", "2-f123456789abcdef0123456789abcdef"

LAST_COUNTER = 4294967295  # of a local document

CHECKS = Checks()
check = CHECKS.check


def answer(value, status="200 OK"):
    body = encoded(value)
    return b"HTTP/1.1 %s\r\nContent-Length: %d\r\n\r\n%s" % (status.encode(), len(body), body)


NOTHING = answer({"error": "not_found", "reason": "missing"}, "404 Not Found")


def checkpoint(counter, last_seq):
    return answer({"_id": "_local/r", "_rev": "0-%d" % counter, "last_seq": last_seq})


def written(counter):
    return answer({"id": "_local/r", "ok": True, "rev": "0-%d" % counter}, "201 Created")


def changes(last_seq, *rows):
    return answer({"last_seq": last_seq, "pending": 0, "results": list(rows)})


def row(seq, id, *revs):
    return {"changes": [{"rev": rev} for rev in revs], "id": id, "seq": seq}


# ---- the requests, as a reader of the formats writes them


def asked(method, target, body=""):
    return request(method, target, body, ["Host: end", "Accept: application/json"])


def segment(id):
    """Each byte is escaped but ASCII letters, digits, `-`, `.`, `_` and `~`."""
    return quote(id, safe="-._~")


def local(id):
    return "/db/_local/" + segment(id)


def changes_asked(since):
    return asked("GET", "/db/_changes?style=all_docs&since=%d&limit=100" % since)


def some_changes_asked(since, body):
    """The same of the documents that the body lists."""
    return asked("POST", "/db/_changes?style=all_docs&filter=_doc_ids&since=%d&limit=100" % since, body)


def replicate(program, source, target, id, listed=None, patience=None, skip=False):
    """A run of the program, for all documents or for a list: its status, what it wrote, and the requests of both ends."""
    ran = ends.replicate(program, source.port, target.port, id, listed, patience=patience, skip=skip)
    return ran, *([with_host(one, end.port) for one in end.all_requests()] for end in (source, target))


def with_host(request, port):
    """A request whose host is what was given, by another name."""
    return request.replace(b"Host: 127.0.0.1:%d\r\n" % port, b"Host: end\r\n")


def are(found, wanted, name):
    check(found == wanted, "%s:\n  wanted %r\n  found  %r", name, wanted, found)


def a_document(program):
    """A deleted document whose id, like that of the checkpoints, has to be escaped comes with its path."""
    document = {"_deleted": True, "_id": ID, "_rev": SECOND, "_revisions": {"ids": [SECOND[2:], FIRST[2:]], "start": 2}}
    source = Scripted(NOTHING, changes(7, row(7, ID, SECOND, FIRST)), answer([{"ok": document}]), written(1), changes(7))
    target = Scripted(NOTHING, answer({ID: {"missing": [SECOND, FIRST]}}), answer([], "201 Created"), written(1))
    ran, of_source, of_target = replicate(program, source, target, ID)
    are(ran, (0, "documents read 1, written 1: done\n", ""), "a document")
    listed = '["%s","%s"]' % (SECOND, FIRST)
    opened = "/db/%s?revs=true&latest=true&open_revs=%s" % (segment(ID), quote_plus(listed, safe="*-._"))
    mark = asked("PUT", local(ID), '{"last_seq":7}')
    are(
        of_source,
        [asked("GET", local(ID)), changes_asked(0), asked("GET", opened), mark, changes_asked(7)],
        "requests to the source",
    )
    are(len(of_target), 4, "the number of requests to the target")
    first, difference, bulk, last = of_target
    quoted = '"%s"' % ID.replace('"', '\\"')
    are((first, last), (asked("GET", local(ID)), mark), "checkpoints of the target")
    are(difference, asked("POST", "/db/_revs_diff", "{%s:%s}" % (quoted, listed)), "a difference")
    body = bulk.split(b"\r\n\r\n", 1)[1]
    are(bulk, asked("POST", "/db/_bulk_docs", body.decode()), "a bulk")
    path = [revisions.parse(SECOND), revisions.parse(FIRST)]
    are(bodies.bulk_changes(body), ([Merge(ID, path, True, EMPTY)], True), "the documents of a bulk")


def later_checkpoints(program):
    """Checkpoints with the largest number are on both ends, and nothing of what comes after them is missing."""
    source = Scripted(checkpoint(LAST_COUNTER, 7), changes(8, row(8, "d", FIRST)), written(1), changes(8))
    target = Scripted(checkpoint(LAST_COUNTER, 9), answer({}), written(1))
    ran, of_source, of_target = replicate(program, source, target, "r-1_x.y")
    are(ran, (0, "documents read 0, written 0: done\n", ""), "later checkpoints")
    first, mark = asked("GET", "/db/_local/r-1_x.y"), asked(
        "PUT", "/db/_local/r-1_x.y", '{"_rev":"0-%d","last_seq":8}' % LAST_COUNTER
    )
    are(of_source, [first, changes_asked(7), mark, changes_asked(8)], "requests to the source")
    are(of_target, [first, asked("POST", "/db/_revs_diff", '{"d":["%s"]}' % FIRST), mark], "requests to the target")


def one_revision(program):
    """One revision is asked for, under an id with no bytes to escape; the id of the checkpoints has other bytes."""
    document = {"_id": "d", "_rev": "2-" + "c" * 32, "_revisions": {"ids": ["c" * 32], "start": 2}}
    source = Scripted(NOTHING, changes(1, row(1, "d", document["_rev"])), answer([{"ok": document}]), written(1), changes(1))
    target = Scripted(NOTHING, answer({"d": {"missing": [document["_rev"]]}}), answer([], "201 Created"), written(1))
    ran, of_source, _ = replicate(program, source, target, "a/b c~*\u00e9")
    are(ran, (0, "documents read 1, written 1: done\n", ""), "one revision")
    first = asked("GET", "/db/_local/a%2Fb%20c~%2A%C3%A9")
    opened = asked("GET", "/db/d?revs=true&latest=true&open_revs=%5B%222-cccccccccccccccccccccccccccccccc%22%5D")
    are(of_source[:3], [first, changes_asked(0), opened], "requests to the source")


def one_segment(program):
    """Two responses come in one segment, and the second is the answer to the second request."""
    source, target = Scripted(NOTHING + changes(0), b""), Scripted(NOTHING)
    ran, of_source, of_target = replicate(program, source, target, "r")
    are(ran, READ, "two responses in one segment")
    first = asked("GET", "/db/_local/r")
    are((of_source, of_target), ([first, changes_asked(0)], [first]), "the requests to both ends")


# ---- requests that are written ahead

MOST_AHEAD = 100, 16384  # requests without an answer, and bytes of them


def opened(id):
    """The request for the first revision of a document whose id has no bytes to escape."""
    return asked("GET", "/db/%s?revs=true&latest=true&open_revs=%%5B%%22%s%%22%%5D" % (id, FIRST))


def given(id):
    return answer([{"ok": {"_id": id, "_rev": FIRST, "_revisions": {"ids": [FIRST[2:]], "start": 1}}}])


def given_large(id, bytes):
    document = {"_id": id, "_rev": FIRST, "_revisions": {"ids": [FIRST[2:]], "start": 1}, "t": "x" * bytes}
    return answer([{"ok": document}])


def ahead(program):
    """The documents of a page are asked for ahead of the answers, in their order and by the same bytes, and only so far ahead
    that they can be written although they aren't read; each answer belongs to the request of its number."""
    for width in (4, 90, 500):
        ids = ["%0*d" % (width, number) for number in range(100)]
        rows = [row(number + 1, id, FIRST) for number, id in enumerate(ids)]
        source = Gathering(NOTHING, changes(100, *rows), *map(given, ids), written(1), changes(100))
        differences = answer({id: {"missing": [FIRST]} for id in ids})
        target = Scripted(NOTHING, differences, answer([], "201 Created"), written(1))
        ran, of_source, of_target = replicate(program, source, target, "r")
        are(ran, (0, "documents read 100, written 100: done\n", ""), "documents that are asked for ahead")
        requests = [opened(id) for id in ids]
        are(of_source[2:-2], requests, "the requests of ids of %d bytes" % width)
        merged = bodies.bulk_changes(of_target[2].split(b"\r\n\r\n", 1)[1])[0]
        are([merge.id for merge in merged], ids, "the documents of ids of %d bytes" % width)
        for number, waiting in enumerate(source.waiting[2:-2]):
            within = len(waiting) <= MOST_AHEAD[0] and sum(map(len, waiting)) <= MOST_AHEAD[1]
            check(within, "%d requests with %d bytes are ahead at document %d", len(waiting), sum(map(len, waiting)), number)
        first = source.waiting[2]
        host = len("127.0.0.1:%d" % source.port) - len("end")
        next_fits = sum(len(request) + host for request in requests[: len(first) + 1]) <= MOST_AHEAD[1]
        check(len(first) == 100 or not next_fits, "only %d requests with ids of %d bytes are ahead at first", len(first), width)


def cut_ahead(program):
    """The connection ends within the answers to requests that were written ahead: it is said, and nothing is written or marked."""
    for count, step in (2, 1), (5, 97):
        ids = ["c%d" % number for number in range(count)]
        page = changes(count, *[row(number + 1, id, FIRST) for number, id in enumerate(ids)])
        answers = b"".join(map(given, ids))
        ends_of = [len(b"".join(map(given, ids[:number]))) for number in range(count + 1)]
        for at in sorted({*range(0, len(answers), step), *ends_of, *[end - 1 for end in ends_of[1:]]} - {len(answers)}):
            read = sum(end <= at for end in ends_of[1:])
            source = Scripted(NOTHING, page, Cut(answers[:at]))
            target = Scripted(NOTHING, answer({id: {"missing": [FIRST]} for id in ids}))
            ran, _, of_target = replicate(program, source, target, "r")
            text = "documents read %d, written 0: the source failed\n" % read
            are(ran[:2], (1, text), "a source that is cut after %d bytes" % at)
            are(len(of_target), 2, "the number of requests to the target of a source that is cut")


def other_order(program):
    """Answers that come in another order than the requests are answers to other requests: nothing is written or marked."""
    ids = ["a", "b", "c"]
    page = changes(3, *[row(number + 1, id, FIRST) for number, id in enumerate(ids)])
    for number, order in enumerate([("b", "a", "c"), ("c", "b", "a"), ("b", "c", "a"), ("a", "c", "b")]):
        source = Scripted(NOTHING, page, *map(given, order))
        target = Scripted(NOTHING, answer({id: {"missing": [FIRST]} for id in ids}))
        ran, _, of_target = replicate(program, source, target, "r")
        read = 2 if order[0] == "a" else 1  # an answer counts although it turns out to be another one's
        are(ran, (3, "documents read %d, written 0: an answer can't be read\n" % read, ""), "order %d of answers" % number)
        are(len(of_target), 2, "the number of requests to the target with answers in another order")


def more_answers(program):
    """An answer too many is the answer to what is asked next, which it can't be: the source isn't marked."""
    ids = ["a", "b"]
    page = changes(2, *[row(number + 1, id, FIRST) for number, id in enumerate(ids)])
    source = Scripted(NOTHING, page, given("a"), given("b") + given("c"), b"")
    target = Scripted(NOTHING, answer({id: {"missing": [FIRST]} for id in ids}), answer([], "201 Created"), written(1))
    ran, of_source, of_target = replicate(program, source, target, "r")
    are(ran, (3, "documents read 2, written 2: an answer can't be read\n", ""), "an answer too many")
    are((len(of_source), len(of_target)), (5, 4), "the number of requests where there is an answer too many")


class Unread(Listener):
    """An end that writes some answers, and reads nothing, or a byte now and then."""

    def __init__(self, *answers, pause=None):
        self.answers, self.pause = answers, pause
        super().__init__()

    def serve(self, client):
        client.socket.sendall(b"".join(self.answers))
        if self.pause is None:
            time.sleep(SECONDS)  # in a thread that ends with the test
            return
        while client.socket.recv(1):
            time.sleep(self.pause)


def unread(program):
    """An end that reads nothing, or a byte now and then, is given up as one that is silent: requests that were written ahead
    don't keep the replication from that, and neither does a bulk that is too long to be held on its way."""
    ids = ["%0500d" % number for number in range(100)]
    page = changes(100, *[row(number + 1, id, FIRST) for number, id in enumerate(ids)])
    missing = answer({id: {"missing": [FIRST]} for id in ids})
    began = time.monotonic()
    ran = ends.replicate(program, Unread(NOTHING, page).port, Scripted(NOTHING, missing).port, "r", patience=1)
    line = "couchd: the source was silent for 1 s at open_revs; documents read 0, written 0\n"
    are(ran, (1, "documents read 0, written 0: the source failed\n", line), "a source that reads nothing")
    large = [given_large(id, 900_000) for id in "abcdefgh"]
    page = changes(8, *[row(number + 1, id, FIRST) for number, id in enumerate("abcdefgh")])
    missing = answer({id: {"missing": [FIRST]} for id in "abcdefgh"})
    line = "couchd: the target was silent for 2 s at _bulk_docs; documents read 8, written 0\n"
    for pause in None, 0.01:
        target = Unread(NOTHING, missing, pause=pause)
        ran = ends.replicate(program, Scripted(NOTHING, page, *large).port, target.port, "r", patience=2)
        are(ran, (1, "documents read 8, written 0: the target failed\n", line), "a target that reads nothing, or byte by byte")
    check(time.monotonic() - began < 30, "ends that read nothing were given up after %.1f s", time.monotonic() - began)


# ---- what keeps a replication from going on


MOST = 1048576  # bytes of a bulk
TOO_LARGE = answer({"error": "too_large", "reason": "body"}, "413 Content Too Large")


def large_document(program):
    """The target refuses a bulk of one document: it is named where no bulk can hold it, and only there."""
    for id, shown in [("d", '"d"'), (ID, '"%s"' % ID.replace('"', '\\"'))]:
        for more in (0, 1):
            document = {"_id": id, "_rev": FIRST, "_revisions": {"ids": [FIRST[2:]], "start": 1}, "t": ""}
            around = len('{"docs":[],"new_edits":false}')
            document["t"] = "x" * (MOST + more - around - len(text(document).encode()))
            length = len(text(document).encode())
            source = Scripted(NOTHING, changes(7, row(7, id, FIRST)), answer([{"ok": document}]))
            target = Scripted(NOTHING, answer({id: {"missing": [FIRST]}}), TOO_LARGE)
            line = "couchd: no bulk can hold the document %s, which has %d bytes\n" % (shown, length) if more else ""
            ran, _, of_target = replicate(program, source, target, "r")
            are(ran, (3, "documents read 1, written 0: an answer can't be read\n", line), "a bulk of %d bytes" % (MOST + more))
            are([len(request.split(b"\r\n\r\n", 1)[1]) for request in of_target[2:]], [MOST + more], "the length of a bulk")


def skipped_document(program):
    """With `--skip` a document that no bulk can hold is named and left out, and the checkpoints say that some may be; what is
    behind it comes."""
    document = {"_id": "d", "_rev": FIRST, "_revisions": {"ids": [FIRST[2:]], "start": 1}, "t": ""}
    around = len('{"docs":[],"new_edits":false}')
    for more in (0, 1):
        document["t"] = ""
        document["t"] = "x" * (MOST + more - around - len(text(document).encode()))
        length = len(text(document).encode())
        page = changes(2, row(1, "d", FIRST), row(2, "e", FIRST))
        source = Scripted(NOTHING, page, answer([{"ok": document}]), given("e"), written(1), changes(2))
        bulks = [answer([], "201 Created")] * (1 if more else 2)
        target = Scripted(NOTHING, answer({id: {"missing": [FIRST]} for id in "de"}), *bulks, written(1))
        ran, of_source, of_target = replicate(program, source, target, "r", skip=True)
        line = 'couchd: the document "d" is skipped: no bulk can hold its %d bytes\n' % length if more else ""
        are(ran, (0, "documents read 2, written %d: done\n" % (1 if more else 2), line), "a bulk of %d bytes" % (MOST + more))
        mark = asked("PUT", "/db/_local/r", '{"last_seq":2,"skip":true}')
        are((of_source[-2], of_target[-1]), (mark, mark), "the checkpoints of a replication that skips")
        merged = [bodies.bulk_changes(request.split(b"\r\n\r\n", 1)[1])[0] for request in of_target[2:-1]]
        are([merge.id for one in merged for merge in one], ["e"] if more else ["d", "e"], "the documents that are sent")


def leaves(number, count):
    """So many leaves, of which each number has others."""
    return ["1-%016x%016x" % (number, leaf) for leaf in range(count)]


def many_leaves(program):
    """The target refuses to be asked about so many leaves: the document with the most of them is named, where so many may be the
    reason."""
    for count, named in (8000, False), (15999, True):
        page = changes(2, row(1, "a", *leaves(1, 2)), row(2, "b", *leaves(2, count)))
        source, target = Scripted(NOTHING, page), Scripted(NOTHING, TOO_LARGE)
        line = 'couchd: one request may not hold %d leaves, of which the document "b" has %d\n' % (count + 2, count)
        ran, _, _ = replicate(program, source, target, "r")
        are(ran, (3, "documents read 0, written 0: an answer can't be read\n", line if named else ""), "%d leaves" % count)


def skipped_leaves(program):
    """With `--skip` nothing is asked about a document with too many leaves, which is named; others are asked about in as many
    parts as they need."""
    for count, skipped in (22700, False), (22701, True):
        rows = row(1, "a", *leaves(1, 2)), row(2, "b", *leaves(2, count)), row(3, "c", *leaves(3, 1))
        pages = [rows, rows[1:], rows[2:]] if not skipped else [rows]
        source = [NOTHING]
        for number, page in enumerate(pages):
            source += [changes(3, *page), written(number + 1)]
        target = [NOTHING] + [one for number in range(len(pages)) for one in (answer({}), written(number + 1))]
        source, target = Scripted(*source, changes(3)), Scripted(*target)
        ran, _, of_target = replicate(program, source, target, "r", skip=True)
        line = 'couchd: the document "b" is skipped: no request can hold its %d leaves\n' % count if skipped else ""
        are(ran, (0, "documents read 0, written 0: done\n", line), "%d leaves that are skipped" % count)
        bodies_of = [json.loads(request.split(b"\r\n\r\n", 1)[1]) for request in of_target[1:]]
        questions, marks = bodies_of[::2], bodies_of[1::2]
        parts = [{"a": leaves(1, 2)}, {"b": leaves(2, count)}, {"c": leaves(3, 1)}]
        whole = [{"a": leaves(1, 2), "b": [], "c": leaves(3, 1)}]
        are(questions, whole if skipped else parts, "what is asked beside %d leaves" % count)
        are([mark["last_seq"] for mark in marks], [3] if skipped else [1, 2, 3], "the checkpoints beside %d leaves" % count)
        are({mark["skip"] for mark in marks}, {True}, "what the checkpoints say of %d leaves" % count)


def past_end(program):
    """The checkpoints are past the source's end: it is said where, and nothing is asked of the target, and nothing marked."""
    line = "couchd: the checkpoint at 9 is past the source's end, which is at 3\n"
    for listed in (None, "b"):
        source, target = Scripted(checkpoint(1, 9), changes(3)), Scripted(checkpoint(2, 11))
        ran, of_source, of_target = replicate(program, source, target, "r", listed)
        are(ran, UNREADABLE[:2] + (line,), "checkpoints past the end")
        are((len(of_source), len(of_target)), (2, 1), "the number of requests with checkpoints past the end")
    for last_seq in (9, 10):
        source, target = Scripted(checkpoint(1, 9), changes(last_seq)), Scripted(checkpoint(2, 11))
        are(replicate(program, source, target, "r")[0], READ, "checkpoints at the end")


# what each end answers to the replication of one document, with what is asked of it and the documents that were read and written by then
OF_SOURCE = [
    (NOTHING, "GET _local", 0, 0),
    (changes(1, row(1, "d", FIRST)), "_changes", 0, 0),
    (answer([{"ok": {"_id": "d", "_rev": FIRST, "_revisions": {"ids": [FIRST[2:]], "start": 1}}}]), "open_revs", 0, 0),
    (written(1), "PUT _local", 1, 1),
    (changes(1), "_changes", 1, 1),
]
OF_TARGET = [
    (NOTHING, "GET _local", 0, 0),
    (answer({"d": {"missing": [FIRST]}}), "_revs_diff", 0, 0),
    (answer([], "201 Created"), "_bulk_docs", 1, 0),
    (written(1), "PUT _local", 1, 1),
]


def silent(program):
    """Either end says nothing more at one of its calls, or in the midst of an answer: it is given up after the time, and named."""
    for end, answers in ("source", OF_SOURCE), ("target", OF_TARGET):
        for at, (whole, name, read, written_by_then) in enumerate(answers):
            for rest in SILENT, [whole[:40], SILENT]:
                script = [given for given, _, _, _ in answers[:at]] + [rest]
                source = Scripted(*(script if end == "source" else [given for given, _, _, _ in OF_SOURCE]))
                target = Scripted(*(script if end == "target" else [given for given, _, _, _ in OF_TARGET]))
                began = time.monotonic()
                ran, _, _ = replicate(program, source, target, "r", patience=1)
                took = time.monotonic() - began
                documents = "documents read %d, written %d" % (read, written_by_then)
                line = "couchd: the %s was silent for 1 s at %s; %s\n" % (end, name, documents)
                are(ran, (1, "%s: the %s failed\n" % (documents, end), line), "a %s that is silent at %s" % (end, name))
                check(1 <= took < 20, "a silent %s was given up after %.1f s", end, took)


# ---- an end that fails once


UNAVAILABLE = answer({"error": "unavailable", "reason": "full"}, "503 Service Unavailable")


def fails_once(end, at, fault):
    """The two ends of the replication of one document, of which one fails once, at one of its calls, and then is reached again."""
    source, target = [given for given, _, _, _ in OF_SOURCE], [given for given, _, _, _ in OF_TARGET]
    failing = source if end == "source" else target
    again = Several([*failing[:at], fault], failing[at:])
    return (again, Scripted(*target)) if end == "source" else (Scripted(*source), again)


def reopened(program):
    """An end ends the connection in place of an answer, or can't serve a call: the call is asked again over the next connection,
    by the same bytes, and the replication is as it would have been."""
    whole = Scripted(*[given for given, _, _, _ in OF_SOURCE]), Scripted(*[given for given, _, _, _ in OF_TARGET])
    ran, *requests = replicate(program, *whole, "r")
    are(ran, (0, "documents read 1, written 1: done\n", ""), "one document")
    for end, answers, number in ("source", OF_SOURCE, 0), ("target", OF_TARGET, 1):
        for at, (whole, name, _, _) in enumerate(answers):
            if name == "PUT _local":
                continue  # which isn't asked twice
            for fault in Cut(b""), Cut(UNAVAILABLE), Cut(whole[:30]), Failing(whole[:30]):
                ran, *found = replicate(program, *fails_once(end, at, fault), "r")
                are(ran, (0, "documents read 1, written 1: done\n", ""), "a %s that fails at %s with %r" % (end, name, fault))
                wanted = list(requests)
                wanted[number] = [*requests[number][: at + 1], *requests[number][at:]]
                are(found, wanted, "the requests of a %s that fails at %s with %r" % (end, name, fault))


def cut_and_asked_again(program):
    """A source that is cut after any byte of the answers to what was asked ahead is asked for the rest over the next connection."""
    ids = ["c%d" % number for number in range(5)]
    page = changes(5, *[row(number + 1, id, FIRST) for number, id in enumerate(ids)])
    answers = b"".join(map(given, ids))
    ends_of = [len(b"".join(map(given, ids[:number]))) for number in range(6)]
    for at in sorted({*range(0, len(answers), 89), *ends_of, *[end - 1 for end in ends_of[1:]]} - {len(answers)}):
        read = sum(end <= at for end in ends_of[1:])
        source = Several([NOTHING, page, Cut(answers[:at])], [*map(given, ids[read:]), written(1), changes(5)])
        target = Scripted(NOTHING, answer({id: {"missing": [FIRST]} for id in ids}), answer([], "201 Created"), written(1))
        ran, of_source, of_target = replicate(program, source, target, "r")
        are(ran, (0, "documents read 5, written 5: done\n", ""), "a source that is cut after %d bytes and is reached again" % at)
        are(of_source[-2 - len(ids[read:]) : -2], [opened(id) for id in ids[read:]], "what is asked again after %d bytes" % at)
        merged = bodies.bulk_changes(of_target[2].split(b"\r\n\r\n", 1)[1])[0]
        are([merge.id for merge in merged], ids, "the documents of a source that is cut after %d bytes" % at)


def unavailable(program):
    """An end can't serve a call, and no other connection is taken: it failed, with status 1, and nothing is written twice."""
    for end, answers in ("source", OF_SOURCE), ("target", OF_TARGET):
        for at, (_, name, read, written_by_then) in enumerate(answers):
            script = [given for given, _, _, _ in answers[:at]] + [Cut(UNAVAILABLE)]
            source = Scripted(*(script if end == "source" else [given for given, _, _, _ in OF_SOURCE]))
            target = Scripted(*(script if end == "target" else [given for given, _, _, _ in OF_TARGET]))
            ran, _, _ = replicate(program, source, target, "r")
            text = "documents read %d, written %d: the %s failed\n" % (read, written_by_then, end)
            line = "couchd: the %s can't serve %s now (503)\n" % (end, name)
            are(ran, (1, text, line), "a %s that can't serve %s" % (end, name))


class Dripping(Scripted):
    """An end that gives its answer byte by byte."""

    def serve(self, client):
        client.next_message()
        for byte in NOTHING:
            client.socket.sendall(bytes([byte]))
            time.sleep(0.2)


def dripping(program):
    """An end gives its answer byte by byte, for longer than it has: it is given up as one that is silent."""
    began = time.monotonic()
    ran, _, _ = replicate(program, Dripping(), Scripted(NOTHING), "r", patience=1)
    took = time.monotonic() - began
    line = "couchd: the source was silent for 1 s at GET _local; documents read 0, written 0\n"
    are(ran, (1, "documents read 0, written 0: the source failed\n", line), "a source that drips")
    check(1 <= took < 10, "a source that drips was given up after %.1f s", took)


class Endless(Scripted):
    """An end whose answer has no end."""

    def serve(self, client):
        client.next_message()
        client.socket.sendall(b"HTTP/1.1 200 OK\r\nContent-Length: 999999999999999999\r\n\r\n")
        for _ in range(200):
            client.socket.sendall(b" " * MOST)


def endless(program):
    """An end answers by more bytes than an answer may have: it is given up, and named."""
    failed = "documents read 0, written 0: the source failed\n"
    ran, _, _ = replicate(program, Endless(), Scripted(NOTHING), "r")
    line = "couchd: the source answered by more than 67108864 bytes at GET _local; documents read 0, written 0\n"
    are(ran, (1, failed, line), "a source without end")
    for most in 50, 5_000_000:
        ran = ends.replicate(program, Endless().port, Scripted(NOTHING).port, "r", options=["--max-answer", str(most)])
        line = "couchd: the source answered by more than %d bytes at GET _local; documents read 0, written 0\n" % most
        are(ran, (1, failed, line), "a source that answers by more than %d bytes" % most)
    source, target = Scripted(NOTHING, changes(0)), Scripted(NOTHING)
    ran = ends.replicate(program, source.port, target.port, "r", options=["--max-answer", "120"])
    are(ran, READ, "answers of at most 120 bytes")


# ---- a list of documents


def one_of_three(program):
    """The second of three documents comes alone, and both ends are marked with the source's update number."""
    document = {"_id": "b", "_rev": FIRST, "_revisions": {"ids": [FIRST[2:]], "start": 1}}
    source = Scripted(NOTHING, changes(3, row(2, "b", FIRST)), answer([{"ok": document}]), written(1), changes(3))
    target = Scripted(NOTHING, answer({"b": {"missing": [FIRST]}}), answer([], "201 Created"), written(1))
    ran, of_source, of_target = replicate(program, source, target, "r", "b")
    are(ran, (0, "documents read 1, written 1: done\n", ""), "one of three")
    first, mark = asked("GET", "/db/_local/r"), asked("PUT", "/db/_local/r", '{"last_seq":3}')
    opened = asked("GET", "/db/b?revs=true&latest=true&open_revs=%%5B%%22%s%%22%%5D" % FIRST)
    listed = b"Host: end\r\nAccept: application/json\r\nContent-Length: 17\r\n\r\n" + b'{"doc_ids":["b"]}'
    pages = [
        b"POST /db/_changes?style=all_docs&filter=_doc_ids&since=%d&limit=100 HTTP/1.1\r\n" % since + listed for since in (0, 3)
    ]
    are(of_source, [first, pages[0], opened, mark, pages[1]], "requests to the source for one of three")
    are(len(of_target), 4, "the number of requests to the target for one of three")
    body = of_target[2].split(b"\r\n\r\n", 1)[1]
    difference, bulk = asked("POST", "/db/_revs_diff", '{"b":["%s"]}' % FIRST), asked("POST", "/db/_bulk_docs", body.decode())
    are(of_target, [first, difference, bulk, mark], "requests to the target for one of three")
    are(bodies.bulk_changes(body), ([Merge("b", [revisions.parse(FIRST)], False, EMPTY)], True), "the document of a bulk")


# ids between commas, and those that they are, one of them twice
LISTED = 'b,a%2cb,100%25,\u00e9,%C3%89,%zz,"\\,a%00%1f/,_design/x,b,\U0001f600 ,%20'
LISTED_IDS = ["b", "a,b", "100%", "\u00e9", "\u00c9", "%zz", '"\\', "a\0\x1f/", "_design/x", "\U0001f600 ", " "]


def two_pages(program):
    """Many documents are listed in one request each time, each once in the order of the bytes, and nothing of them is missing."""
    body = text({"doc_ids": sorted(LISTED_IDS, key=str.encode)})
    are(sorted(bodies.doc_ids(body.encode())), sorted(LISTED_IDS), "the second reading of a list")
    source = Scripted(
        NOTHING,
        changes(4, row(2, "a,b", FIRST), row(4, " ", SECOND)),
        written(1),
        changes(9, row(7, "b", FIRST)),
        written(2),
        changes(9),
    )
    target = Scripted(NOTHING, answer({}), written(1), answer({}), written(2))
    ran, of_source, of_target = replicate(program, source, target, "r", LISTED)
    are(ran, (0, "documents read 0, written 0: done\n", ""), "two pages")
    first, marks = asked("GET", "/db/_local/r"), [
        asked("PUT", "/db/_local/r", mark) for mark in ('{"last_seq":4}', '{"_rev":"0-1","last_seq":9}')
    ]
    pages = [some_changes_asked(since, body) for since in (0, 4, 9)]
    are(of_source, [first, pages[0], marks[0], pages[1], marks[1], pages[2]], "requests to the source for two pages")
    asked_for = ['{" ":["%s"],"a,b":["%s"]}' % (SECOND, FIRST), '{"b":["%s"]}' % FIRST]
    differences = [asked("POST", "/db/_revs_diff", revs) for revs in asked_for]
    are(of_target, [first, differences[0], marks[0], differences[1], marks[1]], "requests to the target for two pages")


def listed_later(program):
    """Checkpoints are on both ends, and none of the listed documents changed after the smaller."""
    source, target = Scripted(checkpoint(1, 7), changes(8)), Scripted(checkpoint(2, 6))
    ran, of_source, of_target = replicate(program, source, target, "r", "b,a")
    are(ran, READ, "a list later")
    first = asked("GET", "/db/_local/r")
    are((of_source, of_target), ([first, some_changes_asked(6, '{"doc_ids":["a","b"]}')], [first]), "requests for a list later")


# answers to the changes of `b` and `d` that can't be read
NO_PAGES = [
    changes(3, row(2, "a", FIRST)),
    changes(3, row(2, "b", FIRST), row(3, "c", FIRST)),
    changes(3, row(1, "B", FIRST), row(2, "b", FIRST)),
    answer({"error": "bad_request", "reason": "parameter"}, "400 Bad Request"),
    answer({"error": "method_not_allowed", "reason": "Method not allowed."}, "405 Method Not Allowed"),
]


def no_pages(program):
    """A source answers with what was not listed, or refuses the request: nothing is asked of the target, and nothing marked."""
    for number, page in enumerate(NO_PAGES):
        source, target = Scripted(NOTHING, page), Scripted(NOTHING)
        ran, of_source, of_target = replicate(program, source, target, "r", "d,b")
        are(ran, UNREADABLE, "page %d of a list" % number)
        are((len(of_source), len(of_target)), (2, 1), "the number of requests with page %d of a list" % number)


# ---- the first answer


FOUND = (
    b"HTTP/1.1 200 OK\r\nContent-Type: application/json\r\nContent-Length: 46\r\nCouch-Place: 3\r\n\r\n"
    b'{"_id":"_local/r","_rev":"0-1", "last_seq": 0}'
)
MISSING = b'HTTP/1.0 404 Not Found\ncontent-length:  0040\n\n{"error":"not_found","reason":"missing"}'

READ = 0, "documents read 0, written 0: done\n", ""
SOURCE_FAILED = 1, "documents read 0, written 0: the source failed\n", ""
UNREADABLE = 3, "documents read 0, written 0: an answer can't be read\n", ""


def with_headers(*lines):
    """What is found, with these lines for its length."""
    return b"HTTP/1.1 200 OK\r\n%s\r\n%s" % (b"".join(line + b"\r\n" for line in lines), FOUND[-46:])


# the source's first answer in many forms, and what is reported
FORMS = [
    (FOUND, READ),
    ([FOUND[at : at + 1] for at in range(len(FOUND))], READ),
    (Failing(FOUND[:60]), SOURCE_FAILED),
    (Cut(b""), SOURCE_FAILED),
    (Cut(FOUND[:40]), SOURCE_FAILED),
    (Cut(FOUND[:-1]), SOURCE_FAILED),
    (MISSING, READ),
    (with_headers(b"Content-Length: 46"), READ),
    (b"HTTQ" + FOUND[4:], UNREADABLE),
    (with_headers(), UNREADABLE),
    (with_headers(b"Content-Length: 46x"), UNREADABLE),
    (with_headers(b"Content-Length: 46", b"Content-Length: 46"), UNREADABLE),
    (with_headers(b"Content-Length: 46", b"Transfer-Encoding: chunked"), UNREADABLE),
    (Cut(with_headers(b"Content-Length: 999999999999999999")), SOURCE_FAILED),
    (with_headers(b"Content-Length: 1000000000000000000"), UNREADABLE),
    (b"HTTP/1.1 200 OK\r\nX: " + b"12345678" * 2048, UNREADABLE),
    (with_headers(b"Content-Length: 80046").replace(b'{"', b"{" + b" " * 80000 + b'"'), READ),
    (FOUND + b"\r\n", READ),
    (FOUND + b"x", UNREADABLE),
]


def first_answers(program):
    for number, (first, wanted) in enumerate(FORMS):
        source, target = Scripted(first, changes(0)), Scripted(NOTHING)
        are(replicate(program, source, target, "r")[0], wanted, "answer %d" % number)


def main():
    program = arguments(__doc__, "couchd").parse_args().couchd
    a_document(program)
    later_checkpoints(program)
    one_revision(program)
    one_segment(program)
    ahead(program)
    cut_ahead(program)
    other_order(program)
    more_answers(program)
    unread(program)
    large_document(program)
    skipped_document(program)
    many_leaves(program)
    skipped_leaves(program)
    past_end(program)
    silent(program)
    reopened(program)
    cut_and_asked_again(program)
    unavailable(program)
    dripping(program)
    endless(program)
    one_of_three(program)
    two_pages(program)
    listed_later(program)
    no_pages(program)
    first_answers(program)
    return CHECKS.report()


if __name__ == "__main__":
    sys.exit(main())
