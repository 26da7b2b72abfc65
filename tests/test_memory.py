"""Refuses each request for memory of serving, of a dump and of its audit in turn, and looks for an answer that becomes another.

    python3 tests/test_memory.py [COUCHD REPLAY]

For each number N the program serves the requests below with its Nth request for memory refused. Either it ends with status 1
and has written nothing, or what it writes is a beginning of the ample answers, whole responses, and then one of the two texts
for out of memory, which closes the connection; or the answers are the ample ones. A feed that goes on may end behind its head
or behind a row. The text for a call that has no entry has the position of the answer before it, 0 where there is none; the text
for a reply that is lost has the position after that. Each of the two must come in some run. A dump of the same requests is the
ample one, or one of its beginnings where the connection was closed, or nothing or that of no entry with status 1; and an audit
of the ample dump says what it says with ample memory, or `no memory` with status 4, or nothing with status 1 as long as its
arguments are not read; so does the base after it, and both of a dump that begins from a base and of one of two entries, which
is legal. `couchd serve` answers a PUT in the same way, and a second connection then sees the entry exactly if the answer was
that of the entry, or out of memory for the reply. It needs a C compiler.
"""
import contextlib
import re
import sys
from typing import NamedTuple

from lib.based_dumps import small_dump
from lib.checks import Checks
from lib.programs import arguments
from lib.refusals import refuser
from lib.requests import request
from lib.server import Server
from reference.history import dump_of

EMPTY = b'{"couch_history":1}\n'  # the dump of a history without entries


def bulk(body):
    return request("POST", "/db/_bulk_docs", body)


def purge(*ids):
    """A purge of the first revisions of these documents."""
    return request("POST", "/db/_purge", {id: ["1-" + A] for id in ids})


def changes_of(ids, more=""):
    """The changes of some documents."""
    return request("POST", "/db/_changes?filter=_doc_ids" + more, {"doc_ids": ids})


LIMIT = "/db/_purged_infos_limit"

A, B, C, D = [digit * 32 for digit in "abcd"]  # hashes of revisions

# ids of documents, and ten documents of which each has one of them
IDS = ["\u00e9", 'x/"y" z', "a", "b", "c", "d", "e", "f", "g", "h"]
TEN = bulk({"docs": [{"_id": id, "_rev": "1-" + A} for id in IDS], "new_edits": False})

# many more strings, of which some are ids of documents, some come twice, and some can't be ids
MANY = ["none-%d" % number for number in range(12)] + IDS[2:] + ["", "x" * 512, "x" * 513, "_local/a"] + IDS[::-1]

INPUTS = {
    "a PUT": request("PUT", "/db/a", "{}"),
    "edits and queries": b"".join(
        [
            request("PUT", "/db/a", '{"n":[1,{"m":"text"}]}'),
            request("PUT", "/db/a", "{}"),
            request("GET", "/db/a?conflicts=true&revs=true&revs_info=true"),
            request("PUT", "/db/_revs_limit", "1"),
            request("GET", "/db/_revs_limit"),
            request("DELETE", "/db/a"),
            request("PUT", "/db/b%2Fc", '{"_id":"b/c","x":null}'),
            request("GET", "/db/b%2Fc"),
            request("PUT", "/db/d", '{"_x":1}'),
            request("GET", "/db"),
            request("GET", "/"),
            request("HEAD", "/"),
        ]
    ),
    "bulks": b"".join(
        [
            bulk('{"docs":[{"_id":"a"},{"_id":"a"},{"_id":"b","n":[{"x":"text"}]}]}'),
            bulk('{"docs":[{"_id":"a","_rev":"1-%s"},{"_id":"a","_rev":"1-%s"}],"new_edits":false}' % (A, B)),
            bulk('{"docs":[{"_id":"a","_revisions":{"ids":["%s","%s"],"start":2}}],"new_edits":false}' % (A, C)),
            bulk('{"docs":[{"_id":"a","_revisions":{"ids":["%s","%s"],"start":2}}],"new_edits":false}' % (A, D)),
            bulk('{"docs":[{"n":1}]}'),
            request("PUT", "/db/_local/r", '{"last_seq":2}'),
            request("PUT", "/db/_local/r?rev=0-1", '{"last_seq":3}'),
            request("DELETE", "/db/_local/r?rev=0-2"),
        ]
    ),
    "purges and compactions": b"".join(
        [
            bulk('{"docs":[{"_id":"d","_revisions":{"ids":["%s","%s"],"start":2}}],"new_edits":false}' % (B, A)),
            bulk(
                '{"docs":[{"_id":"d","_revisions":{"ids":["%s","%s"],"start":2}},{"_id":"e","_rev":"1-%s"}],"new_edits":false}'
                % (C, A, A)
            ),
            bulk('{"docs":[{"_id":"f"},{"_id":"d","_rev":"2-%s","n":1}]}' % C),
            request("POST", "/db/_compact"),
            request("POST", "/db/_purge", '{"d":["2-%s","1-%s","2-%s"],"e":["1-%s"],"g":["1-%s"]}' % (B, A, B, A, A)),
            request("POST", "/db/_purge", '{"d":["x"]}'),
            request("GET", "/db/d?revs_info=true"),
            request("GET", "/db/_changes?feed=longpoll"),
            request("POST", "/db/_compact", "{"),
            request("GET", "/db"),
        ]
    ),
    "every query": b"".join(
        [
            bulk('{"docs":[{"_id":"d","_rev":"2-%s"}],"new_edits":false}' % B),
            bulk('{"docs":[{"_id":"d","_revisions":{"ids":["%s","%s","%s"],"start":3}}],"new_edits":false}' % (C, B, A)),
            bulk('{"docs":[{"_id":"d","_rev":"1-%s"},{"_id":"e","_rev":"1-%s","_deleted":true}],"new_edits":false}' % (D, A)),
            request("PUT", "/db/_local/r", '{"last_seq":2}'),
            request("GET", "/db/d?revs=true&revs_info=true&conflicts=true&deleted_conflicts=true"),
            request("GET", "/db/d?rev=2-%s&latest=true" % B),
            request("GET", "/db/d?open_revs=all&revs=true"),
            request("GET", "/db/d?latest=true&open_revs=%%5B%%221-%s%%22,%%229-%s%%22%%5D" % (A, A)),
            request("POST", "/db/_revs_diff", '{"d":["3-%s","4-%s"],"f":["1-%s"]}' % (C, A, A)),
            request("GET", "/db/_changes?style=all_docs"),
            request("GET", "/db/_changes?limit=1"),
            request("GET", "/db/_changes?since=now"),
            request("GET", "/db/_all_docs"),
            request("GET", "/db/_local/r"),
            request("GET", "/db/_revs_limit"),
            request("GET", "/db"),
        ]
    ),
    # fewer ids than changes, more ids than changes, and what is refused
    "changes of some documents": b"".join(
        [
            TEN,
            changes_of(["b", "a", "zz", "b"]),
            changes_of(["\u00e9", 'x/"y" z', "h"], "&limit=2"),
            changes_of(["c", "h"], "&since=9&feed=longpoll"),
            changes_of(["c", "a"], "&since=9&feed=longpoll"),
            changes_of(MANY, "&style=all_docs&limit=4"),
            changes_of(["a"], "&since=now"),
            changes_of([]),
            request("POST", "/db/_changes?limit=1", "{"),
            request("POST", "/db/_changes?filter=_doc_ids", '{"doc_ids":["a",1]}'),
            request("POST", "/db/_changes?filter=_doc_ids", '{"doc_ids":["a"'),
            request("POST", "/db/_changes?filter=_doc_ids&limit=x", '{"doc_ids":["a"]}'),
            request("GET", "/db/_changes?filter=_doc_ids"),
            request("PUT", "/db/_changes"),
        ]
    ),
    "a feed of a few documents": TEN + changes_of(["b", "zz", "\u00e9", "h"], "&feed=continuous&since=1&limit=2"),
    "a feed of many documents": TEN + changes_of(MANY, "&feed=continuous&style=all_docs"),
    # few purges go and many stay, and many go and few stay
    "the limit of the purge log": b"".join(
        [
            request("GET", LIMIT),
            TEN,
            purge("a", "b", "c"),
            request("PUT", LIMIT, "7"),
            purge("d", "e", "f", "g"),
            request("PUT", LIMIT, "6"),
            request("POST", "/db/_compact"),
            purge("h", "none"),
            request("PUT", LIMIT, "1"),
            request("GET", LIMIT),
            request("PUT", LIMIT, "4294967295"),
            purge("\u00e9", 'x/"y" z'),
            request("POST", "/db/_compact"),
            request("PUT", LIMIT, "0"),
            request("PUT", LIMIT, "x"),
            request("DELETE", LIMIT),
            request("GET", LIMIT),
            request("GET", "/db"),
        ]
    ),
}

LOST = re.compile(
    rb"HTTP/1\.1 507 Insufficient Storage\r\nContent-Type: application/json\r\nContent-Length: \d+\r\n"
    rb"Couch-Place: (\d+)\r\nConnection: close\r\n\r\n"
    rb'\{"error":"no_memory","reason":"(call|reply)"\}\Z'
)
PLACE = re.compile(rb"^Couch-Place: (\d+)\r$", re.M)
NEW_ENTRIES = {b"call": 0, b"reply": 1}  # that a request has made whose answer says this reason

seen = set()  # reasons that were answered


def ends_of(data):
    """Where the responses end, and where the head and the lines of a feed do, which comes last."""
    responses, lines, at = [0], [], 0
    while at < len(data):
        head = data.index(b"\r\n\r\n", at) + 4
        length = re.search(rb"Content-Length: (\d+)", data[at:head])
        if length is None:
            return responses, [head] + [line.end() for line in re.compile(rb"\n").finditer(data, head)]
        is_alone = data[head : head + 4] in (b"", b"HTTP")  # it answers HEAD: no body begins so
        at = head if is_alone else head + int(length.group(1))
        responses.append(at)
    return responses, lines


def is_response(ran, ample):
    """Out of memory, or a beginning of the ample answers, or all of them."""
    if ran.status == 1 and ran.output == b"":
        return True
    if ran.status != 0:
        return False
    if ran.output == ample:
        return True
    responses, lines = ends_of(ample)
    if len(ran.output) in lines and ample.startswith(ran.output):
        return True
    lost = LOST.search(ran.output)
    if lost is None:
        return False
    before, place, reason = ran.output[: lost.start()], int(lost.group(1)), lost.group(2)
    seen.add(reason)
    last_place = int(([b"0"] + PLACE.findall(before))[-1])
    is_beginning = len(before) in responses and ample.startswith(before)
    return is_beginning and place == last_place + NEW_ENTRIES[reason]


def is_dump(ran, ample):
    """Out of memory, or the dump of a beginning of the history, or of all of it. Where memory for the buffer is refused,
    nothing is read, and the history has no entry."""
    if ran.status == 1:
        return ran.output in (b"", EMPTY)
    return ran.status == 0 and ran.output.endswith(b"\n") and ample.startswith(ran.output)


class Audit:
    """What an audit may say. Its arguments are read first: from the first refusal that is reported on, each is."""

    def __init__(self):
        self.refused = 0

    def is_verdict(self, ran, ample):
        """Out of memory, or the verdict; or the line of a base."""
        if (ran.status, ran.output) == (1, b""):
            return self.refused == 0
        is_refused = (ran.status, ran.output) == (4, b"no memory\n")
        self.refused += is_refused
        return is_refused or (ran.status, ran.output) == (0, ample)


class Refusals:
    """Runs with each request for memory refused in turn, and the count of those that are right."""

    def __init__(self, refuser):
        self.refuser = refuser
        self.checks = Checks()

    def run(self, name, command, data, is_right):
        """What the run prints with ample memory."""
        *refused, ample = self.refuser.each(command, data)
        for number, ran in enumerate(refused, 1):
            self.checks.check(
                is_right(ran, ample.output), "%s, request %d refused: status %d, %r", name, number, ran.status, ran.output[-400:]
            )
        print("%s: %d requests for memory" % (name, len(refused)))
        return ample.output


# ---- a server


class Served(NamedTuple):
    """What a server answered to a PUT, nothing if no answer came; how many entries it had then; and what it wrote on standard
    error."""

    answer: object
    entries: int
    errors: str


def put(server):
    """The status and the reason of the answer to a PUT; nothing if none comes."""
    with contextlib.suppress(OSError, EOFError), contextlib.closing(server.connect()) as writer:
        status, value = writer.ask("PUT", "/db/a", b"{}")
        return status, value.get("reason")
    return None


def entries(server):
    """How many entries there are, by the first connection that is answered; nothing if none is."""
    for _ in range(3):
        with contextlib.suppress(OSError, EOFError), contextlib.closing(server.connect()) as reader:
            if reader.ask("GET", "/db")[0] == 200:
                return reader.place
    return None


def served(program, env):
    with Server(program, "--workers", "1", env=env) as server:
        if server.port is None:
            return Served(None, None, server.reported())
        answer = put(server)
        return Served(answer, entries(server), server.reported())


ENTRIES = {(201, None): 1, (507, "call"): 0, (507, "reply"): 1}  # that there are after an answer


def check_server(refusals, program):
    """A PUT over a server of which each request for memory is refused in turn. One that is refused at its start may end."""
    found = []
    for number, ran in enumerate(refusals.refuser.in_turn(lambda env: served(program, env)), 1):
        found.append(ran.answer)
        is_right = ran.entries == ENTRIES.get(ran.answer) if ran.answer else ran.entries in (None, 0)
        refusals.checks.check(is_right, "a server, request %d refused: %r", number, ran)
    print("a server and a PUT: %d requests for memory" % (len(found) - 1))
    for answer in ENTRIES:
        refusals.checks.check(answer in found, "no server answered %r", answer)


def audit(refusals, replay, name, dump):
    """The verdict, with ample memory."""
    verdicts = []
    for what, command in ("an audit of ", "check"), ("the base after ", "base"):
        run = Audit()
        verdicts.append(refusals.run(what + name, [replay, command], dump, run.is_verdict))
        refusals.checks.check(run.refused > 0, "%s%s never reports that memory is refused", what, name)
    return verdicts[0]


def main():
    given = arguments(__doc__, "couchd", "replay").parse_args()
    with refuser() as runs:
        refusals = Refusals(runs)
        for name, data in INPUTS.items():
            refusals.run(name, [given.couchd, "once"], data, is_response)
            dump = refusals.run("a dump of " + name, [given.couchd, "dump"], data, is_dump)
            audit(refusals, given.replay, name, dump)
        check_server(refusals, given.couchd)
        audit(refusals, given.replay, "a dump over a base", small_dump())
        verdict = audit(refusals, given.replay, "a dump of two entries", dump_of(INPUTS["a PUT"] * 2))
        refusals.checks.check(verdict == b"legal 2\n", "a dump of two entries is %r", verdict)
    for reason in NEW_ENTRIES:
        refusals.checks.check(reason in seen, "no run was answered with the reason %r", reason.decode())
    return refusals.checks.report()


if __name__ == "__main__":
    sys.exit(main())
