"""Dumps and audits the history of each transcript, some 10,000 changed dumps, and requests at random.

    python3 tests/test_dumps.py [--seed N] [--requests N] [COUCHD REPLAY]

The dump of each transcript must be that of the reference, and legal. Of each line one reply, one seat and one revision are
changed, and its form; lines are cut, exchanged, repeated and left out: what `replay check` says of each must be what the
reference says, and a changed reply or seat may never be legal. Then a long run of requests at random is dumped and audited.
"""
import os
import random
import re
import sys
from concurrent.futures import ThreadPoolExecutor

from lib import transcripts
from lib.audits import Audits
from lib.checks import Checks
from lib.generators.legal import Maker
from lib.programs import arguments
from lib.requests import request
from reference.history import FIRST_LINE, Recorder, dump_of, line, read_entry, verdict
from reference.once import Connection
from reference.worked import limit_dumps

A1 = b"1-b7a5841aeb59f1be5d0e27b640827094"
PUT = b'{"command":{"bulk":[{"body":{},"deleted":false,"id":"a"}],"new_edits":true},"reply":["%s"],"seat":[0,%d]}\n'
TWO_PUTS = FIRST_LINE + PUT % (A1, 1) + PUT % (b"E1", 2)
B, C, A = b"2-" + b"b" * 32, b"2-" + b"c" * 32, b"1-" + b"a" * 32
PURGE = (
    b'{"command":{"purge":{"d":["%s","%s"],"e":["%s"]}},"reply":{"purge_seq":1,"purged":{"d":["%s"],"e":[]}},"seat":[0,2]}\n'
    % (C, A, A, C)
)

# dumps that were worked by hand, with what is said of them and the exit status
WORKED = [
    (b"", "unreadable line 1", 3),
    (FIRST_LINE, "legal 0", 0),
    (FIRST_LINE[:-1], "unreadable line 1", 3),
    (TWO_PUTS, "legal 2", 0),
    (TWO_PUTS.replace(b"E1", b"E2"), "wrong at 2", 2),
    (TWO_PUTS[:-1], "unreadable line 3", 3),
    (FIRST_LINE + PUT % (b"E1", 2) + PUT % (A1, 1), "wrong at 1", 2),
    (TWO_PUTS.replace(b'{"command":', b'{"command": ', 1), "unreadable line 2", 3),
    (b'{"couch_history":2}\n' + TWO_PUTS[len(FIRST_LINE) :], "unreadable line 1", 3),
    (b'{"couch_history":2}\n', "unreadable line 1", 3),
    (FIRST_LINE + PUT % (b"E1", 2) + (PUT % (A1, 1))[:-1], "unreadable line 3", 3),
    (TWO_PUTS + b"\n", "unreadable line 4", 3),
    *limit_dumps(),
]

ONE_PUT = request("PUT", "/db/a", "{}")

# forms of a line that aren't exactly those of an entry: a part of it, and what replaces that
OTHER_FORMS = [
    (b'"seat":[', b'"seat": ['),
    (b'"seat":[0', b'"seat":[00'),
    (b'"seat":[0', b'"seat":[0.0'),
    (b'"seat":[0', b'"seat":[64'),
    (b'"seat":[0', b'"seat":[-1'),
    (b'"reply":', b'"reply":null,"reply":'),
    (b'{"command":', b'{"also":1,"command":'),
    (b'"deleted":false', b'"deleted":0'),
    (b'"reply":true', b'"reply":1'),
]

# the ends of both limits and what is past them, and whether a limit may be so
ENDS = [(0, False), (1, True), (4294967295, True), (4294967296, False)]


def purge_input():
    """Two leaves of one document in one bulk, and a purge of one of them."""
    path = b'{"_id":"d","_revisions":{"ids":["%s","%s"],"start":2}}'
    docs = b",".join(path % (rev[2:], A[2:]) for rev in (B, C))
    purge = b'{"d":["%s","%s"],"e":["%s"]}' % (C, A, A)
    bulk = b'{"docs":[%s],"new_edits":false}' % docs
    return request("POST", "/db/_bulk_docs", bulk) + request("POST", "/db/_purge", purge)


# ---- changes of a dump


def changes(lines, at):
    """Changed forms of the line of the entry at this place, and whether one of them may be legal."""
    found = lines[at]
    command, reply, [session, call] = read_entry(found)
    yield line(command, other_reply(command, reply), [session, call]), False
    yield line(command, reply, [session, call + 1]), False
    yield line(command, reply, [session + 1, call]), call == 1
    for rev in sorted(set(re.findall(rb"[0-9]+-[0-9a-f]{32}", found))):
        yield found.replace(rev, rev[:-1] + (b"0" if rev.endswith(b"1") else b"1"), 1), True
        yield found.replace(
            rev, rev.replace(rev[-32:], rev[-32:].upper()) if rev[-32:].upper() != rev[-32:] else b"0" + rev, 1
        ), False
    for name in {"limit", "purged_limit"} & set(command):
        for number, is_limit in ENDS:
            yield line({name: number}, reply, [session, call]), is_limit
    for old, new in OTHER_FORMS:
        if old in found:
            yield found.replace(old, new, 1), False
    yield found[:-1], False
    yield found + found, False


def other_reply(command, reply):
    """Another reply of the form of the command's."""
    refusal = "E2"
    if reply is True:
        return False
    if isinstance(reply, list):
        return [refusal if not reply or reply[0] != refusal else "1-" + "0" * 32] + reply[1:]
    if isinstance(reply, dict):
        return dict(reply, purge_seq=reply["purge_seq"] + 1)
    return 1 if isinstance(reply, str) else reply + 1


def changed_dumps(dump):
    """Dumps with one line changed, and whether one may be legal."""
    lines = dump.splitlines(keepends=True)
    for at in range(1, len(lines)):
        for changed, may_be_legal in changes(lines, at):
            yield b"".join([*lines[:at], changed, *lines[at + 1 :]]), may_be_legal
    for at in range(1, len(lines) - 1):
        yield b"".join([*lines[:at], *lines[at + 1 :]]), False
        yield b"".join([*lines[:at], lines[at + 1], lines[at], *lines[at + 2 :]]), False


# ---- what must be


def failures_of(audits, name, data):
    """For each thing that must hold of the dump of these requests, None or the failure."""
    wanted = dump_of(data)
    found = audits.dump(data)
    yield None if found == (wanted, 0) else "%s: dumped\n  %r\nand not\n  %r" % (name, found, wanted)
    yield failure(audits, name, wanted, ("legal %d" % (wanted.count(b"\n") - 1), 0))
    for changed, may_be_legal in changed_dumps(wanted):
        said = verdict(changed)
        if said[1] == 0 and not may_be_legal:
            yield "%s: a changed dump is legal to the reference: %r" % (name, changed)
        yield failure(audits, name, changed, said)


def failure(audits, name, dump, said):
    found = audits.check(dump)
    if found == (said[0] + "\n", said[1]):
        return None
    return "%s: %r is said of %r, and not %r" % (name, found, dump[-2000:], said)


def long_run(seed, requests):
    """The bytes of requests at random that are all whole, and the dump of their history."""
    recorder, pieces = Recorder(), []
    connection, maker = Connection(recorder), Maker(random.Random(seed), recorder.database)
    for _ in range(requests):
        pieces.append(request(*maker.one()))
        for _ in connection.responses(pieces[-1]):
            pass
    return b"".join(pieces), recorder.dump()


def all_failures(audits, seed, requests):
    """None, or the failure, of each thing that must hold."""
    for dump, text, status in WORKED:
        yield failure(audits, "worked by hand", dump, (text, status))
        yield None if verdict(dump) == (text, status) else "the reference says %r of %r" % (verdict(dump), dump)
    found = audits.dump(purge_input())
    yield None if found[0].endswith(b"\n" + PURGE) else "a purge is dumped as %r" % (found,)
    found = audits.dump(b"")
    yield None if found == (FIRST_LINE, 0) else "no requests are dumped as %r" % (found,)
    for length in range(len(ONE_PUT)):
        found = audits.dump(ONE_PUT[:length])
        yield None if found == (FIRST_LINE, 0) else "%d bytes of a request are dumped as %r" % (length, found)
    data, dump = long_run(seed, requests)
    found = audits.dump(data)
    yield None if found == (dump, 0) else "%d requests at random (seed %d) have another dump" % (requests, seed)
    yield failure(audits, "requests at random", dump, ("legal %d" % (dump.count(b"\n") - 1), 0))
    with ThreadPoolExecutor(os.cpu_count()) as threads:
        for failures in threads.map(lambda one: list(failures_of(audits, *one)), transcripts.requests()):
            yield from failures


def main():
    reader = arguments(__doc__, "couchd", "replay")
    reader.add_argument("--seed", type=int, default=1)
    reader.add_argument("--requests", type=int, default=3000)
    given = reader.parse_args()
    checks = Checks()
    for found in all_failures(Audits(given.couchd, given.replay), given.seed, given.requests):
        checks.check(found is None, "%s", found)
    return checks.report()


if __name__ == "__main__":
    sys.exit(main())
