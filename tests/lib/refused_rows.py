"""Rows of statements, run by `test_store` with each request for memory refused in turn, or counted.

Three edits of a machine, event by event: with a request of an event refused, the event is out of memory, and happens when it
comes again, so that all is printed that is printed with ample memory. Every query of a small version: it has its answer, or is
out of memory. The end of a compaction of many documents of which one was edited since: it asks for no more blocks than a few
changes of shared maps.
"""
import os
import re

from reference import rows

from .programs import TESTS, built

ANSWERS = os.path.join(TESTS, "rows", "store", "answers")
QUERIED = ["a path that grew at its root is answered", "every query of one document, of whose path two revisions have no body"]

EDITS = """\
ask 0 edit a - {}
ask 1 edit b - {}
ask 2 edit a - {}
take 3
put -> 0 1 at 1 A1; 1 1 at 2 A1; 2 1 at 3 conflict
-> place 3; update 2 purge 0 [a 1 A1][b 2 A1]
"""
# all else that can happen to a machine, but for what is given up
COMPACTION = """\
ask 0 edit a - {}
ask 1 edit b - {}
take 2
put -> 0 1 at 1 A1; 1 1 at 2 A1
look 2
read 2 all_docs -> 2 at 2 [a A1][b A1]
start 2
slice 2
ask 0 edit a A1 {"n":1}
take 1
put -> 0 2 at 3 A2
catch_up 1
swap -> 2 1 at 4 done
read 2 get a A1 -> 2 at 4 missing
-> place 4; update 3 purge 0 [a 3 A1- A2][b 2 A1]
"""

DOCUMENTS = 1000
COPIED = """\
edit (#### - {} )*%d -> (A1 )*%d
edit (#### A1 {"n":1} )*%d -> (A2 )*%d
|
first slice %d -> 0 left, %d visited
edit 0500 A2 {"n":2} -> A3
"""
# What the end of a copy changes: of the one document its record, its old number and its new one; and the history and the calls.
CHANGES = 5
MORE = 32  # blocks that are no nodes: entries of maps, a record with its tree, and what the history's entry holds


def row(name, kind, lines):
    return rows.row(name, kind, *lines.splitlines())


def has_printed(ran, pieces):
    return ran.status == 0 and rows.pieces(ran.output.removesuffix("\n")) == pieces


def is_refused(ran):
    """It ends where memory was refused, and prints nothing else."""
    reported = re.fullmatch(r"refused\nerror: .*(Memory|AllocError|AllocFailed).*\n", ran.errors)
    return (ran.status, ran.output) == (1, "") and reported is not None


def refusals(refuser, check, one):
    """Runs of a row with each request refused; the one with ample memory must print what is wanted."""
    *refused, ample = refuser.each([built("test_store")], one.input() + "\n")
    check(has_printed(ample, one.wanted), "%s: %r", one.name, ample)
    return refused


def check_steps(refuser, check, one):
    """An event that is refused memory is reported, and then all is printed; a row that is refused memory before or behind prints
    nothing."""
    refused = refusals(refuser, check, one)
    reported = [number for number, ran in enumerate(refused) if has_printed(ran, ["out of memory", *one.wanted])]
    check(reported != [], one.name + ": an event that is refused memory is out of memory")
    first, last = (reported[0], reported[-1]) if reported else (len(refused), len(refused))
    print("%s make %d requests, of which %d are answered as out of memory" % (one.name, last - first + 1, len(reported)))
    for number, ran in enumerate(refused):
        is_event = first <= number <= last
        is_right = has_printed(ran, one.wanted) or (number in reported if is_event else is_refused(ran))
        check(is_right, "%s, request %d refused: %r", one.name, number + 1, ran)


def queries():
    """A row for each query of the small versions."""
    with open(ANSWERS, encoding="utf-8") as file:
        found = {one.name: one for one in rows.read("answers", file.read())}
    for name in QUERIED:
        one = found["answers: " + name]
        for at, statement in enumerate(one.statements):
            if statement.startswith("?"):
                written = [number for number in range(at) if not one.statements[number].startswith("?")]
                yield rows.Row(
                    statement, one.kind, [one.statements[it] for it in [*written, at]], [one.wanted[it] for it in [*written, at]]
                )


def check_queries(refuser, check):
    met = 0
    for one in queries():
        for ran in refusals(refuser, check, one):
            met += 1
            check(is_refused(ran) or has_printed(ran, one.wanted), "%s, where memory is refused: %r", one.name, ran)
    print("queries of a small version, and what is written before, make %d requests" % met)


def bits(number):
    return number.bit_length()


def check_finish(refuser, check):
    """The requests of a copy's end: a run whose end is behind makes all others."""
    asked = []
    for end in "first finish 0 -> behind", "first finish 1 -> place 4, 1 visited":
        one = row("a copy of %d documents" % DOCUMENTS, "copies", COPIED % ((DOCUMENTS,) * 6) + end)
        ran, requests = refuser.count([built("test_store")], one.input() + "\n")
        found = rows.pieces(ran.output)[:-1]  # the last piece is what the copy has then
        check((ran.status, found) == (0, one.wanted), "%s: %d, %r", one.name, ran.status, found[-2:])
        asked.append(requests)
    asks, most = asked[1] - asked[0], CHANGES * 4 * (2 * bits(DOCUMENTS + 1) + 1) + MORE
    print("the end of a copy of %d documents asks for %d blocks, and may ask for %d" % (DOCUMENTS, asks, most))
    check(0 < asks <= most, "the end of a copy asks for few blocks")


def check_all(refuser, check):
    check_steps(refuser, check, row("three edits of three sessions", "steps", EDITS))
    check_steps(refuser, check, row("edits, queries and a compaction", "steps", COMPACTION))
    check_queries(refuser, check)
    check_finish(refuser, check)
