"""Checks the reference, and the stored transcripts, against examples that were worked by hand.

    python3 tests/test_reference.py

Each response is written out here: its status, the position, its body, and further lines of its head. Nothing of the
reference is used to make them.
"""
import hashlib
import sys

from lib.checks import Checks
from lib.transcripts import content
from reference import json_profile, once, queries, revisions, trees, worked, worked_epochs
from reference.database import Database, Merge

STATUS = {
    200: "200 OK",
    201: "201 Created",
    202: "202 Accepted",
    400: "400 Bad Request",
    404: "404 Not Found",
    405: "405 Method Not Allowed",
    409: "409 Conflict",
}


def md5(text):
    return hashlib.md5(text.encode()).hexdigest()


def revision(text):
    """`2-f*` means the generation 2 and the digit f 32 times."""
    return text[:-2] + 32 * text[-2]


A1 = "1-" + md5("0,,{}")
A2 = "2-" + md5("0," + A1 + ',{"n":1}')
A3 = "3-" + md5("0," + A2 + ',{"n":2}')
X2 = "2-" + md5("1," + A1 + ",{}")
X3 = "3-" + md5("0," + X2 + ",{}")
LOWEST = "1-" + md5('0,,{"n":-9223372036854775808}')
NAMES = "1-" + md5('0,,{"":4,"^":3,"`":2,"a_":1}')

CONFLICT = '{"error":"conflict","reason":"Document update conflict."}'
MISSING = '{"error":"not_found","reason":"missing"}'
DELETED = '{"error":"not_found","reason":"deleted"}'
NUMBER = '{"error":"bad_request","reason":"number"}'
DEPTH = '{"error":"bad_request","reason":"depth"}'
JSON = '{"error":"bad_request","reason":"json"}'
SHAPE = '{"error":"bad_request","reason":"shape"}'
PARAMETER = '{"error":"bad_request","reason":"parameter"}'
MEMBER = '{"error":"bad_request","reason":"member"}'
METHOD = '{"error":"method_not_allowed","reason":"Method not allowed."}'
DONE = '{"ok":true}'


def not_allowed(methods, place=0, more=""):
    """The response to HEAD on a route of these methods."""
    return 405, place, METHOD, "Allow: %s\r\n%s" % (methods, more), False


def written(id, rev):
    return '{"id":"%s","ok":true,"rev":"%s"}' % (id, rev)


def info(documents, deleted, update_seq, purge_seq=0):
    return '{"db_name":"db","doc_count":%d,"doc_del_count":%d,"purge_seq":%d,"update_seq":%d}' % (
        documents,
        deleted,
        purge_seq,
        update_seq,
    )


def purged(purge_seq, **leaves):
    listed = ['"%s":[%s]' % (id, ",".join('"%s"' % rev for rev in revs)) for id, revs in leaves.items()]
    return '{"purge_seq":%d,"purged":{%s}}' % (purge_seq, ",".join(listed))


def infos(rev, *statuses):
    """A document whose body has `n` 1, with the statuses of its path."""
    listed = ",".join('{"rev":"%s","status":"%s"}' % pair for pair in statuses)
    return '{"_id":"a","_rev":"%s","_revs_info":[%s],"n":1}' % (rev, listed)


def path(*revs):
    return '"_revisions":{"ids":[%s],"start":%s}' % (",".join('"%s"' % rev[2:] for rev in revs), revs[0][0])


def changes(last_seq, pending, *rows):
    return '{"last_seq":%d,"pending":%d,"results":[%s]}' % (last_seq, pending, ",".join(rows))


def row(id, seq, rev, deleted=""):
    return '{"changes":[{"rev":"%s"}],%s"id":"%s","seq":%d}' % (rev, deleted, id, seq)


ROWS = [row(id, at + 1, A1) for at, id in enumerate("abc")]
ROW_A = row("a", 4, X2, '"deleted":true,')
ROW_B = row("b", 2, A1)
ROW_C = row("c", 3, A1)

PATH_B = path(revision("2-b*"), revision("1-a*"))
PATH_C = path(revision("2-c*"), revision("1-a*"))
OPEN_B = '{"ok":{"_id":"d","_rev":"%s",%s}}' % (revision("2-b*"), PATH_B)
OPEN_C = '{"ok":{"_id":"d","_rev":"%s",%s}}' % (revision("2-c*"), PATH_C)
ROW_D = '{"changes":[{"rev":"%s"},{"rev":"%s"}],"id":"d","seq":2}' % (revision("2-c*"), revision("2-b*"))

# what three documents are answered when they are put
THREE = [(201, at + 1, written(id, A1)) for at, id in enumerate("abc")]
THREE_AND_A_DELETION = THREE + [(200, 4, written("a", X2))]

# of each transcript its responses: status, place, body, further lines of the head, and whether the body is there
WORKED = {
    "first-path/put-once": [(201, 1, written("a", A1))],
    "first-path/put-twice": [(201, 1, written("a", A1)), (409, 2, CONFLICT)],
    "first-path/number-past-i64": [(201, 1, written("n", "1-" + md5('0,,{"n":9223372036854775807}'))), (400, 1, NUMBER)],
    "first-path/put-cut-in-body": [],
    "first-path/put-cut-in-head": [],
    "first-path/put-then-get": [(201, 1, written("a", A1)), (200, 1, '{"_id":"a","_rev":"%s"}' % A1)],
    "first-path/welcome": [(200, 0, '{"couchdb":"Welcome"}')],
    "first-path/nesting-of-a-body": [
        (201, 1, written("a", "1-" + md5('0,,{"n":%s}' % (63 * "[" + 63 * "]")))),
        (200, 1, '{"_id":"a","_rev":"1-%s","n":%s}' % (md5('0,,{"n":%s}' % (63 * "[" + 63 * "]")), 63 * "[" + 63 * "]")),
    ],
    "first-path/depth": [(400, 0, DEPTH)] * 5 + [(404, 0, MISSING)],
    "first-path/depth-past-the-reader": [(400, 0, JSON)] * 2 + [(404, 0, MISSING)],
    "conflicts/winner-is-not-deleted": [
        (201, 1, "[]"),
        (200, 1, '{"_id":"d","_rev":"%s"}' % revision("1-0*")),
        (200, 1, info(1, 0, 2)),
    ],
    "conflicts/conflict-kept": [
        (201, 1, "[]"),
        (201, 2, "[]"),
        (200, 2, '{"_conflicts":["%s"],"_id":"d","_rev":"%s"}' % (revision("1-a*"), revision("1-b*"))),
    ],
    "conflicts/second-parent-refused": [
        (201, 1, "[]"),
        (201, 2, '[{"error":"bad_history","id":"d","reason":"A known revision has another parent."}]'),
        (404, 2, MISSING),
        (200, 2, '{"_id":"d","_rev":"%s"}' % revision("2-b*")),
    ],
    "conflicts/limit-of-one-revision": [
        (200, 1, '{"ok":true}'),
        (201, 2, written("a", A1)),
        (201, 3, written("a", A2)),
        (201, 4, written("a", A3)),
        (200, 4, '{"a":{"missing":["%s","%s"]}}' % (A1, A2)),
        (200, 4, "1"),
    ],
    "conflicts/bulk-in-listed-order": [
        (201, 1, written("a", A1)),
        (201, 2, '[%s,{"error":"conflict","id":"a","reason":"Document update conflict."}]' % written("a", A2)),
        (201, 3, "[]"),
        (200, 3, '{"_id":"a","_rev":"%s","n":1}' % A2),
    ],
    "conflicts/differences": [
        (201, 1, "[]"),
        (201, 2, "[]"),
        (
            200,
            2,
            '{"d":{"missing":["%s","%s"],"possible_ancestors":["%s"]}}' % (revision("3-e*"), revision("2-f*"), revision("2-b*")),
        ),
    ],
    "conflicts/write-after-deletion": [
        (201, 1, written("a", A1)),
        (200, 2, written("a", X2)),
        (404, 3, DELETED),
        (201, 4, written("a", X3)),
        (200, 4, '{"_id":"a","_rev":"%s"}' % X3),
    ],
    "queries/merge-twice-takes-one-number": [(201, 1, "[]"), (201, 2, "[]"), (200, 2, info(1, 0, 1))],
    "queries/path-and-its-status": [
        (201, 1, "[]"),
        (201, 2, "[]"),
        (
            200,
            2,
            '{"_id":"d","_rev":"%s","_revisions":{"ids":["%s","%s","%s"],"start":3},"_revs_info":[%s]}'
            % (
                revision("3-c*"),
                32 * "c",
                32 * "b",
                32 * "a",
                '{"rev":"%s","status":"available"},{"rev":"%s","status":"available"},{"rev":"%s","status":"missing"}'
                % (revision("3-c*"), revision("2-b*"), revision("1-a*")),
            ),
        ),
        (200, 2, info(1, 0, 2)),
    ],
    "queries/local-document": [
        (201, 1, written("_local/r", "0-1")),
        (409, 2, CONFLICT),
        (201, 3, written("_local/r", "0-2")),
        (200, 4, written("_local/r", "0-0")),
        (404, 5, MISSING),
        (200, 5, changes(0, 0)),
    ],
    "queries/changes-in-pages": [
        (201, 1, written("a", A1)),
        (201, 2, written("b", A1)),
        (201, 3, written("c", A1)),
        (200, 4, written("a", X2)),
        (200, 4, changes(3, 1, ROW_B, ROW_C)),
        (200, 4, changes(4, 0, ROW_A)),
        (404, 4, DELETED),
        (
            200,
            4,
            '{"offset":0,"rows":[{"id":"b","key":"b","value":{"rev":"%s"}},{"id":"c","key":"c","value":{"rev":"%s"}}],"total_rows":2}'
            % (A1, A1),
        ),
    ],
    "queries/open-latest-revisions": [
        (201, 1, "[]"),
        (201, 2, "[]"),
        (
            200,
            2,
            '[{"ok":{"_id":"d","_rev":"%s"}},{"ok":{"_id":"d","_rev":"%s"}},{"missing":"%s"}]'
            % (revision("3-c*"), revision("2-b*"), revision("9-9*")),
        ),
    ],
    "queries/changes-followed": [
        (201, 1, written("a", A1)),
        (201, 2, written("b", A1)),
        (201, 3, written("c", A1)),
        (200, 4, written("a", X2)),
        (200, 4, changes(3, 1, ROW_B, ROW_C)),
        (200, 4, changes(4, 0, ROW_A)),
        (200, 4, changes(4, 0)),
    ],
    "queries/differences-of-a-repeated-revision": [
        (201, 1, "[]"),
        (201, 2, "[]"),
        (200, 2, '{"d":{"missing":["%s"],"possible_ancestors":["%s"]}}' % (revision("3-e*"), revision("2-b*"))),
    ],
    "queries/differences-with-the-largest-generation-last": [
        (201, 1, "[]"),
        (201, 2, "[]"),
        (
            200,
            2,
            '{"d":{"missing":["%s","%s"],"possible_ancestors":["%s"]}}' % (revision("2-f*"), revision("3-e*"), revision("2-b*")),
        ),
    ],
    "queries/differences-with-ancestors-in-order": [
        (201, 1, "[]"),
        (201, 2, "[]"),
        (
            200,
            2,
            '{"d":{"missing":["%s"],"possible_ancestors":["%s","%s"]}}' % (revision("4-e*"), revision("2-b*"), revision("3-c*")),
        ),
    ],
    "queries/differences-of-an-unknown-document": [
        (201, 1, "[]"),
        (201, 2, "[]"),
        (200, 2, '{"no":{"missing":["%s","%s"]}}' % (revision("3-e*"), revision("1-a*"))),
    ],
    "queries/latest-of-two-leaves": [(201, 1, "[]"), (201, 2, "[]"), (200, 2, '{"_id":"d","_rev":"%s"}' % revision("3-c*"))],
    "queries/open-listed-of-an-unknown-document": [
        (200, 0, '[{"missing":"%s"}]' % revision("1-a*")),
        (200, 0, '[{"missing":"%s"}]' % revision("1-a*")),
        (200, 0, "[]"),
    ],
    "queries/live-and-deleted-losers": [
        (201, 1, "[]"),
        (
            200,
            1,
            '{"_conflicts":["%s"],"_deleted_conflicts":["%s"],"_id":"d","_rev":"%s"}'
            % (revision("1-0*"), revision("2-f*"), revision("1-b*")),
        ),
        (200, 1, '{"_deleted_conflicts":["%s"],"_id":"d","_rev":"%s"}' % (revision("2-f*"), revision("1-b*"))),
    ],
    "queries/status-of-an-inner-deletion": [
        (201, 1, "[]"),
        (201, 2, "[]"),
        (
            200,
            2,
            '{"_id":"d","_rev":"%s","_revs_info":[{"rev":"%s","status":"available"},{"rev":"%s","status":"deleted"}]}'
            % (revision("2-b*"), revision("2-b*"), revision("1-a*")),
        ),
    ],
    "purges/purge-of-a-leaf": [
        (201, 1, "[]"),
        (201, 2, "[]"),
        (201, 3, purged(1, d=[revision("2-c*")], e=[])),
        (200, 3, info(1, 0, 3, 1)),
        (200, 3, "[%s]" % OPEN_B),
    ],
    "purges/purge-of-an-inner-revision": [
        (201, 1, "[]"),
        (201, 2, "[]"),
        (201, 3, purged(0, d=[])),
        (200, 3, info(1, 0, 2)),
        (200, 3, "[%s,%s]" % (OPEN_C, OPEN_B)),
        (200, 3, changes(2, 0, ROW_D)),
    ],
    "purges/purge-of-an-unknown-document": [
        (201, 1, "[]"),
        (201, 2, "[]"),
        (201, 3, purged(0, no=[])),
        (200, 3, info(1, 0, 2)),
        (200, 3, "[%s,%s]" % (OPEN_C, OPEN_B)),
        (200, 3, changes(2, 0, ROW_D)),
        (404, 3, MISSING),
    ],
    "purges/purge-of-all-leaves": [
        (201, 1, "[]"),
        (201, 2, "[]"),
        (201, 3, purged(1, d=[revision("2-b*"), revision("2-c*")])),
        (200, 3, info(0, 0, 2, 1)),
        (200, 3, "[]"),
        (200, 3, changes(2, 0)),
        (404, 3, MISSING),
        (404, 3, MISSING),
        (200, 3, '{"d":{"missing":["%s","%s"]}}' % (revision("2-b*"), revision("1-a*"))),
        (201, 4, written("d", A1)),
        (200, 4, '{"_id":"d","_rev":"%s",%s}' % (A1, path(A1))),
        (200, 4, info(1, 0, 3, 1)),
        (200, 4, changes(3, 0, row("d", 3, A1))),
    ],
    "purges/purge-in-the-order-asked": [
        (201, 1, "[]"),
        (201, 2, "[]"),
        (201, 3, purged(1, d=[revision("2-c*"), revision("2-b*")])),
    ],
    "purges/purge-by-byte-order": [
        (201, 1, written("b", A1)),
        (201, 2, written("é", A1)),
        (201, 3, written("a", A1)),
        (201, 4, written("B", A1)),
        (201, 5, purged(3, **{"B": [A1], "a": [A1], "b": [], "c": [], "é": [A1]})),
        (200, 5, info(1, 0, 4, 3)),
        (200, 5, changes(4, 0, row("b", 1, A1))),
        (200, 5, '{"offset":0,"rows":[{"id":"b","key":"b","value":{"rev":"%s"}}],"total_rows":1}' % A1),
    ],
    "compactions/compact-drops-old-bodies": [
        (201, 1, written("a", A1)),
        (201, 2, written("a", A2)),
        (200, 2, '{"_id":"a","_rev":"%s"}' % A1),
        (202, 3, DONE),
        (404, 3, MISSING),
        (200, 3, info(1, 0, 2)),
        (200, 3, '{"_id":"a","_rev":"%s","n":1}' % A2),
    ],
    "compactions/compact-and-the-status": [
        (201, 1, written("a", A1)),
        (201, 2, written("a", A2)),
        (200, 2, infos(A2, (A2, "available"), (A1, "available"))),
        (202, 3, DONE),
        (200, 3, infos(A2, (A2, "available"), (A1, "missing")).replace('"_revs_info"', path(A2, A1) + ',"_revs_info"')),
        (200, 3, '[{"missing":"%s"},{"ok":{"_id":"a","_rev":"%s","n":1}}]' % (A1, A2)),
        (200, 3, '[{"ok":{"_id":"a","_rev":"%s",%s,"n":1}}]' % (A2, path(A2, A1))),
    ],
    "compactions/compact-after-purge": [
        (201, 1, written("x", A1)),
        (201, 2, written("y", A1)),
        (201, 3, purged(1, x=[A1])),
        (201, 4, written("y", A2)),
        (202, 5, DONE),
        (200, 5, info(1, 0, 3, 1)),
        (200, 5, changes(3, 0, row("y", 3, A2))),
        (404, 5, MISSING),
        (200, 5, infos(A2, (A2, "available"), (A1, "missing")).replace('"a"', '"y"')),
    ],
    "compactions/method-of-compact": [(405, 0, METHOD, "Allow: POST\r\n")] * 3 + [not_allowed("POST"), (200, 0, info(0, 0, 0))],
    "queries/changes-of-a-long-poll-alone": [
        (200, 0, changes(0, 0)),
        (200, 0, changes(0, 0)),
        (201, 1, written("a", A1)),
        (201, 2, written("b", A1)),
        (201, 3, written("c", A1)),
        (200, 4, written("a", X2)),
        (200, 4, changes(4, 0, ROW_B, ROW_C, ROW_A)),
        (200, 4, changes(2, 2, ROW_B)),
        (200, 4, changes(2, 2, ROW_B)),
        (200, 4, changes(4, 0, ROW_A)),
        (200, 4, changes(4, 0)),
        (200, 4, changes(4, 0)),
        (200, 4, changes(4, 0)),
        (200, 4, changes(4, 0, ROW_B, ROW_C, ROW_A)),
    ],
    "queries/changes-of-some": THREE + [(200, 3, changes(3, 0, ROWS[0], ROWS[2])), (200, 3, changes(2, 1, ROWS[1]))],
    "queries/changes-of-some-followed": THREE
    + [(200, 3, changes(2, 1, ROWS[1])), (200, 3, changes(3, 0, ROWS[2])), (200, 3, changes(3, 0))],
    "queries/changes-of-some-limits": THREE_AND_A_DELETION
    + [(200, 4, changes(3, 1, ROW_C))] * 2
    + [(200, 4, changes(4, 0, ROW_C, ROW_A))] * 3,
    "queries/changes-of-some-since": THREE_AND_A_DELETION
    + [(200, 4, changes(4, 0, ROW_C, ROW_A))] * 2
    + [(200, 4, changes(4, 0, ROW_A))]
    + [(200, 4, changes(4, 0))] * 3
    + [(200, 4, changes(4, 0, ROW_A))],
    "queries/changes-of-some-go-on-from-the-update-number": THREE
    + [(200, 3, changes(3, 0, ROWS[0]))] * 2
    + [(200, 3, changes(1, 1, ROWS[0])), (200, 3, changes(3, 0))],
    "queries/changes-of-none": [(200, 0, changes(0, 0))] + THREE + [(200, 3, changes(3, 0))] * 3,
    "queries/changes-of-unknown-documents": [(200, 0, changes(0, 0))] + THREE + [(200, 3, changes(3, 0))] * 2,
    "queries/changes-of-texts-that-are-no-ids": [
        (201, 1, written("x" * 512, A1)),
        (201, 2, written("é" * 256, A1)),
        (201, 3, written("_local/r", "0-1")),
        (201, 4, written("r", A1)),
        (200, 4, changes(3, 0)),
        (200, 4, changes(3, 0, row("x" * 512, 1, A1))),
        (200, 4, changes(3, 0)),
        (200, 4, changes(3, 0)),
        (200, 4, changes(3, 0, row("é" * 256, 2, A1))),
        *[(200, 4, changes(3, 0))] * 5,
        (200, 4, changes(3, 0, row("x" * 512, 1, A1), row("r", 3, A1))),
    ],
    "queries/changes-of-a-purged-document": THREE
    + [
        (201, 4, purged(1, b=[A1])),
        (200, 4, changes(3, 0, ROWS[0])),
        (201, 5, written("b", A1)),
        (200, 5, changes(4, 0, ROWS[0], row("b", 4, A1))),
        (202, 6, DONE),
        (200, 6, changes(4, 0, ROWS[0], row("b", 4, A1))),
    ],
    "queries/changes-by-post-body-not-read": THREE + [(200, 3, changes(3, 0, *ROWS))] * 8 + [(200, 3, changes(3, 0, ROWS[2]))],
    "queries/filter-body-no-json": THREE + [(400, 3, JSON)] * 13,
    "queries/filter-body-number": [(400, 0, NUMBER)] * 6,
    "queries/filter-body-depth": [(200, 0, changes(0, 0))] * 2 + [(400, 0, DEPTH)] * 2 + [(400, 0, SHAPE), (400, 0, DEPTH)] * 2,
    "queries/filter-body-shape": [(400, 0, SHAPE)] * 22,
    "queries/filter-body-other-members-ignored": THREE + [(200, 3, changes(3, 0, ROWS[1]))] * 4,
    "queries/filter-refused": [(400, 0, PARAMETER)] * 15,
    "queries/filter-taken": THREE + [(200, 3, changes(3, 0, ROWS[1]))] * 7,
    "queries/filter-by-get": THREE + [(400, 3, PARAMETER)] * 6 + [(200, 3, changes(3, 0, *ROWS))] * 2,
    "queries/filter-parameter-before-body": [(400, 0, PARAMETER)] * 11,
    "queries/method-of-changes": [(200, 0, changes(0, 0)), not_allowed("GET, POST")],
    "queries/methods-of-changes": [(405, 0, METHOD, "Allow: GET, POST\r\n")] * 4
    + [not_allowed("GET, POST")] * 2
    + [(405, 0, METHOD, "Allow: GET, POST\r\n")] * 4,
    "purges/purged-limit": [(200, 0, "1000"), (200, 1, DONE), (200, 1, "1"), (400, 1, SHAPE)],
    "purges/purged-limit-ends": [
        (200, 1, DONE),
        (200, 1, "1"),
        (200, 2, DONE),
        (200, 2, "4294967295"),
        *[(400, 2, SHAPE)] * 6,
        (200, 2, "4294967295"),
        (200, 3, DONE),
        (200, 3, "1000"),
    ],
    "purges/purged-limit-body": [(400, 0, JSON)] * 11
    + [(400, 0, NUMBER)] * 6
    + [(400, 0, DEPTH)]
    + [(400, 0, JSON)] * 2
    + [(400, 0, SHAPE)] * 10
    + [(200, 0, "1000"), (400, 0, JSON)],
    "purges/purged-limit-takes-no-number": [
        (201, 1, written("a", A1)),
        (200, 2, DONE),
        (200, 2, info(1, 0, 1)),
        (200, 2, changes(1, 0, ROWS[0])),
        (201, 3, written("b", A1)),
        (200, 3, info(2, 0, 2)),
        (200, 3, changes(2, 0, ROWS[1])),
    ],
    "purges/purged-limit-cuts": THREE
    + [
        (201, 4, written("d", A1)),
        (201, 5, purged(2, a=[A1], b=[A1])),
        (200, 6, DONE),
        (200, 6, info(2, 0, 4, 2)),
        (201, 7, purged(3, c=[A1])),
        (200, 8, DONE),
        (200, 8, "1000"),
        (201, 9, purged(4, a=[], d=[A1])),
        (200, 9, info(0, 0, 4, 4)),
        (200, 9, changes(4, 0)),
        (201, 10, written("a", A1)),
        (200, 10, info(1, 0, 5, 4)),
    ],
    "purges/method-of-purged-limit": [(405, 0, METHOD, "Allow: GET, PUT\r\n")] * 2
    + [not_allowed("GET, PUT")]
    + [(405, 0, METHOD, "Allow: GET, PUT\r\n")] * 2
    + [(200, 0, "1000")],
    "queries/number-below-i64": [
        (201, 1, written("a", LOWEST)),
        (200, 1, '{"_id":"a","_rev":"%s","n":-9223372036854775808}' % LOWEST),
        (400, 1, NUMBER),
    ],
    "queries/names-beside-the-underscore": [
        (201, 1, written("a", NAMES)),
        (200, 1, '{"":4,"^":3,"_id":"a","_rev":"%s","`":2,"a_":1}' % NAMES),
        (400, 1, MEMBER),
    ],
}

HASH, OTHER = "0123456789abcdef0123456789abcdef", "f123456789abcdef0123456789abcdef"
GENERATION = '{"error":"generation","reason":"The generation limit is reached."}'
CLOSED = "Connection: close\r\n"


def bad(*reasons):
    """Requests that are refused before any was taken."""
    return [(400, 0, '{"error":"bad_request","reason":"%s"}' % reason) for reason in reasons]


def later(place, responses):
    """The same at another place."""
    return [(status, place, *rest) for status, _, *rest in responses]


def all_docs(*ids):
    rows = ",".join('{"id":"%s","key":"%s","value":{"rev":"%s"}}' % (id, id, A1) for id in ids)
    return '{"offset":0,"rows":[%s],"total_rows":%d}' % (rows, len(ids))


# of each transcript of requests, targets and bodies at their ends what the rules for it say
AT_ENDS = {
    "ids-in-byte-order": [(201, at + 1, written(id, A1)) for at, id in enumerate(["café", "Za", "Z"])]
    + [(200, 3, '{"_id":"café","_rev":"%s"}' % A1), (200, 3, all_docs("Z", "Za", "café"))],
    "ids-of-sixteen-bytes-and-more": [
        (201, at + 1, written(id, A1)) for at, id in enumerate(["0123456789abcdef0", "1", "0123456789abcdef"])
    ]
    + [(200, 3, '{"_id":"%s","_rev":"%s"}' % (id, A1)) for id in ["0123456789abcdef", "0123456789abcdef0"]]
    + [(200, 3, all_docs("0123456789abcdef", "0123456789abcdef0", "1"))],
    "ids-of-one-to-512-bytes": bad("id")
    + [(201, 1, "[%s]" % written("x", A1)), (201, 2, "[%s]" % written("x" * 512, A1))]
    + later(2, bad("id"))
    + [(200, 2, info(2, 0, 2))],
    "ids-in-targets": [(201, 1, written("a" * 512, A1))] + later(1, bad("id", "id", "id", "id")),
    "numbers-of-bodies": [(201, 1, written("a", "1-" + md5('0,,{"n":9223372036854775807}'))), (409, 2, CONFLICT)]
    + later(2, bad(*["number"] * 7, "json", "json", "shape", "shape", "number", "number", "json")),
    "limits-of-revisions": [(200, 1, DONE), (200, 1, "4294967295")]
    + later(1, bad("shape", "shape", "shape", "shape", "number"))
    + [(200, 2, DONE), (200, 2, "1")],
    "texts-that-are-json": bad(*["json"] * 6, "shape"),
    "values-nested-to-the-limit": bad("shape", "depth", "depth", "json"),
    "last-of-two-members": [
        (201, 1, written("a", "1-" + md5('0,,{"a":{"_x":2},"b":[]}'))),
        (200, 1, '{"_id":"a","_rev":"1-%s","a":{"_x":2},"b":[]}' % md5('0,,{"a":{"_x":2},"b":[]}')),
    ],
    "special-members-among-others": [
        one
        for at, (body, text) in enumerate(
            [
                ("{}", '{"_id":"0","_rev":"%s"}'),
                ('{"A":[2],"a":"x","b":1}', '{"A":[2],"_id":"1","_rev":"%s","a":"x","b":1}'),
                ('{"b":1}', '{"_id":"2","_rev":"%s","b":1}'),
                ('{"":2,"Z":1}', '{"":2,"Z":1,"_id":"3","_rev":"%s"}'),
            ]
        )
        for one in [(201, at + 1, written(str(at), "1-" + md5("0,," + body))), (200, at + 1, text % ("1-" + md5("0,," + body)))]
    ],
    "bodies-with-revisions-of-their-own": [
        (201, at + 1, written(str(at), "1-" + md5("0,," + body)))
        for at, body in enumerate(
            [
                '{"a":[1,{"b":"x"}],"c":null}',
                '{"a":[1,{"b":"x"}],"c":null}',
                "{}",
                '{"a":[1,{"b":"x"}],"d":null}',
                '{"a":[1,{"b":"y"}],"c":null}',
                '{"a":[-1,{"b":"x"}],"c":null}',
                '{"a":[1],"c":null}',
                '{"a":[1,{"b":"x"}],"c":false}',
                '{"a":[1,{"b":"x"}],"c":null,"d":0}',
                "{}",
            ]
        )
    ],
    "revisions-in-order": [(201, 1, "[]"), (201, 2, "[]"), (201, 3, "[]")]
    + [
        (200, 3, "[%s]" % ",".join('{"ok":{"_id":"%s","_rev":"%s"}}' % (id, rev) for rev in revs))
        for id, revs in [("d", (A2, X2)), ("e", (A3, X2))]
    ]
    + [(200, 3, '{"_id":"%s","_rev":"%s"}' % pair) for pair in [("d", A2), ("e", A3)]],
    "revisions-malformed": bad(*["revision"] * 13) + [(404, 0, MISSING)] * 2 + bad("shape", "shape"),
    "targets-of-no-route": [(404, 0, MISSING)] * 11,
    "targets-of-routes": [
        (405, 0, METHOD, "Allow: %s\r\n" % methods)
        for methods in [
            "GET",
            "GET, PUT, DELETE",
            "GET",
            "GET",
            "GET, PUT",
            "GET",
            "POST",
            "GET, POST",
            "POST",
            "POST",
            "GET, PUT, DELETE",
            "POST",
            "GET, PUT, DELETE",
            "GET, PUT, DELETE",
        ]
    ],
    "targets-and-methods": [(404, 0, MISSING)] * 2
    + [(405, 0, METHOD, "Allow: %s\r\n" % methods) for methods in ["GET, PUT"] + ["POST"] * 4]
    + [not_allowed("GET, PUT, DELETE"), not_allowed("GET, PUT, DELETE", 0, CLOSED)],
    "put-faults-in-order": bad("parameter", "revision", "json", "number", "shape", "shape", "member", "revision", "revision"),
    "put-of-all-that-it-takes": [
        (201, 1, written("café/a", A1)),
        (201, 2, written("café/a", "2-" + md5("1," + A1 + ',{"n":1}'))),
        (404, 2, DELETED),
        (200, 2, '{"_deleted":true,"_id":"café/a","_rev":"2-%s","n":1}' % md5("1," + A1 + ',{"n":1}')),
    ],
    "refusal-at-the-twelfth-place": [(201, number + 1, written(str(number), A1)) for number in range(12)]
    + later(12, bad("number")),
    "get-by-flags": [
        (201, 1, "[]"),
        (200, 1, '{"_conflicts":["%s"],"_id":"a","_rev":"%s"}' % (revision("1-a*"), revision("1-b*"))),
        (200, 1, '{"couchdb":"Welcome"}'),
        (200, 1, info(1, 0, 2)),
    ],
    "get-and-close": [(201, 1, written("a", A1)), (200, 1, '{"_id":"a","_rev":"%s"}' % A1, CLOSED)],
    "get-of-a-deletion-and-close": [(201, 1, written("a", A1)), (200, 2, written("a", X2)), (404, 2, DELETED, CLOSED)],
    "delete-over-a-revision": [
        (201, 1, written("a", A1)),
        (200, 2, written("a", X2)),
        (200, 2, '{"_deleted":true,"_id":"a","_rev":"%s"}' % X2),
    ],
    "local-document-of-many-numbers": [(201, number, written("_local/a", "0-%d" % number)) for number in range(1, 8)]
    + [(200, 7, '{"_id":"_local/a","_rev":"0-7"}'), (404, 7, MISSING), (200, 8, written("_local/a", "0-0")), (404, 9, MISSING)],
    "open-revisions-of-capitals": [
        (201, 1, written("a", "1-" + md5('0,,{"Kind":1,"text":[]}'))),
        (
            200,
            1,
            '[{"ok":{"Kind":1,"_id":"a","_rev":"1-%s","text":[]}},{"missing":"1-%s"}]' % (md5('0,,{"Kind":1,"text":[]}'), HASH),
        ),
    ],
    "bulk-faults-in-order": bad("json", "number", *["shape"] * 6, "member", "id", "revision"),
    "merge-paths-at-their-ends": [(201, 1, "[]"), (201, 2, "[]")]
    + later(2, bad(*["shape"] * 7))
    + [
        (
            200,
            2,
            '[{"ok":{"_id":"a","_rev":"4294967295-%s",%s}},{"ok":{"_id":"a","_rev":"1-%s",%s}}]'
            % (
                HASH,
                '"_revisions":{"ids":["%s","%s"],"start":4294967295}' % (HASH, HASH),
                HASH,
                path("1-" + HASH),
            ),
        ),
    ],
    "merge-faults": bad("shape", "shape", "shape", "revision"),
    "merge-of-a-deletion": [
        (201, 1, "[]"),
        (200, 1, '[{"ok":{"_deleted":true,"_id":"a","_rev":"2-%s",%s}}]' % (HASH, path("2-" + HASH, "1-" + OTHER))),
    ],
    "bulk-of-two": [
        (201, 1, "[%s,%s]" % (written("b", A1), written("a", "1-" + md5('0,,{"n":1}')))),
        (200, 1, changes(2, 0, row("b", 1, A1), row("a", 2, "1-" + md5('0,,{"n":1}')))),
    ],
    "bulks-answered": [
        (201, 1, written("b", A1)),
        (201, 2, '[%s,{"error":"conflict","id":"b","reason":"Document update conflict."}]' % written("a", A1)),
        (201, 3, "[]"),
        (201, 4, '[{"error":"bad_history","id":"c","reason":"A known revision has another parent."}]'),
    ],
    "revisions-of-documents-faults": bad(*["json", "number", "shape", "shape", "shape", "id", "revision"] * 2),
    "difference-and-purge-of-two": [
        (200, 0, '{"a":{"missing":["1-%s"]}}' % HASH),
        (201, 1, "[]"),
        (201, 2, purged(1, d=["2-" + HASH], e=[])),
        (201, 3, purged(1, d=[], e=[])),
    ],
    "compact-with-any-body": [(202, 1, DONE), (202, 2, DONE), (200, 2, info(0, 0, 0))],
}
WORKED.update(("wire-edges/" + name, responses) for name, responses in AT_ENDS.items())

NO_ROUTE = (404, 0, MISSING, "", False)
OF_HEAD = {
    "of-each-route": [
        not_allowed(methods)
        for methods in [
            "GET",
            "GET",
            "GET",
            "GET",
            "POST",
            "GET, POST",
            "POST",
            "GET, PUT, DELETE",
            "POST",
            "GET, PUT",
            "POST",
            "GET, PUT",
            "GET, PUT, DELETE",
        ]
    ],
    "of-no-route": [NO_ROUTE] * 5,
    "between-others": [
        (200, 0, '{"couchdb":"Welcome"}'),
        not_allowed("GET"),
        (404, 0, MISSING),
        NO_ROUTE,
        (201, 1, written("a", A1)),
        not_allowed("GET, PUT, DELETE", 1),
        (404, 1, MISSING, "", False),
        (200, 1, '{"_id":"a","_rev":"%s"}' % A1),
    ],
    "with-a-body": [not_allowed("GET, PUT, DELETE"), NO_ROUTE, (404, 0, MISSING)],
    "that-closes": [(201, 1, written("a", A1)), not_allowed("GET, PUT, DELETE", 1, CLOSED)],
    "that-closes-with-no-route": [(404, 0, MISSING, CLOSED, False)],
    "of-version-one-zero": [not_allowed("GET, PUT, DELETE", 0, CLOSED)],
    "cut-in-its-body": [(200, 0, '{"couchdb":"Welcome"}')],
}
WORKED.update(("head-alone/" + name, responses) for name, responses in OF_HEAD.items())

LARGE_HEAD = ("431 Request Header Fields Too Large", 37, '{"error":"too_large","reason":"head"}')
CHUNKS = ("411 Length Required", 68, '{"error":"length_required","reason":"Chunked bodies are not taken."}')
LENGTH = ("400 Bad Request", 41, '{"error":"bad_request","reason":"length"}')
LARGE_BODY = ("413 Content Too Large", 37, '{"error":"too_large","reason":"body"}')

# of each transcript of input that is refused at once with all that follows it: the status, the length and the body
BROKEN = {
    "first-path/no-head": ("400 Bad Request", 39, '{"error":"bad_request","reason":"head"}'),
    "broken-input/sixty-five-headers": LARGE_HEAD,
    "broken-input/sixty-five-headers-without-end": LARGE_HEAD,
    "broken-input/head-of-16385-bytes": LARGE_HEAD,
    "broken-input/empty-lines-without-end": LARGE_HEAD,
    "broken-input/target-not-utf8-without-end": LARGE_HEAD,
    "broken-input/transfer-coding": CHUNKS,
    "broken-input/transfer-coding-and-length": CHUNKS,
    "broken-input/length-twice": LENGTH,
    "broken-input/length-empty": LENGTH,
    "broken-input/length-with-sign": LENGTH,
    "broken-input/length-no-digits": LENGTH,
    "broken-input/length-too-large": LARGE_BODY,
    "broken-input/length-past-any-number": LARGE_BODY,
    "wire-edges/length-of-40-digits": LARGE_BODY,
    "wire-edges/length-of-an-added-one": LENGTH,
    "wire-edges/length-with-a-letter": LENGTH,
    "wire-edges/length-of-a-slash": LENGTH,
    "wire-edges/length-of-a-colon": LENGTH,
    "head-alone/with-no-version": ("400 Bad Request", 39, '{"error":"bad_request","reason":"head"}'),
    "head-alone/with-sixty-five-headers": LARGE_HEAD,
    "head-alone/with-no-length": LENGTH,
    "head-alone/with-a-length-too-large": LARGE_BODY,
}

# lengths that were counted by hand
LENGTHS = [(written("a", A1), 63), (CONFLICT, 57), ('{"_id":"a","_rev":"%s"}' % A1, 55)]


def response(status, place, body, lines="", is_whole=True):
    """A response, or that to HEAD, which is a head alone."""
    head = "HTTP/1.1 %s\r\nContent-Type: application/json\r\nContent-Length: %d\r\nCouch-Place: %d\r\n%s\r\n"
    return (head % (STATUS[status], len(body.encode()), place, lines) + (body if is_whole else "")).encode()


def fed(place, *lines):
    """A feed that goes on, to its end."""
    head = "HTTP/1.1 200 OK\r\nContent-Type: application/json\r\nCouch-Place: %d\r\nConnection: close\r\n\r\n"
    return (head % place + "".join(line + "\n" for line in lines)).encode()


def stored(name, ending):
    return content("tests/transcripts/" + name + ending)


def transcripts():
    for name, responses in WORKED.items():
        wanted = b"".join(response(*parts) for parts in responses)
        yield name, stored(name, ".expected") == wanted and once.run(stored(name, ".http"))[0] == wanted


AT_ENDS_OF_FEEDS = {"feed-that-goes-on-from-none", "feed-of-one-that-was-put", "feed-of-one-of-three", "feed-of-one-from-now"}


def feeds():
    """Feeds, each behind the writes of its documents."""
    three = b"".join(response(*parts) for parts in THREE)
    deletion = b"".join(response(*parts) for parts in THREE_AND_A_DELETION)
    one = response(201, 1, written("a", A1))
    bulk = response(201, 1, "[%s]" % ",".join(written(id, A1) for id in "abc"))
    for name, wanted in [
        ("feed-of-none", fed(0, '{"last_seq":0,"pending":0}')),
        ("feed-limited", three + fed(3, ROWS[0], ROWS[1], '{"last_seq":2,"pending":1}')),
        ("feed-whole", deletion + fed(4, ROW_B, ROW_C, ROW_A, '{"last_seq":4,"pending":0}')),
        ("feed-limit-of-0", three + fed(3, ROWS[0], '{"last_seq":1,"pending":2}')),
        ("feed-limit-reached-at-the-end", three + fed(3, *ROWS, '{"last_seq":3,"pending":0}')),
        ("feed-since", deletion + fed(4, ROW_A, '{"last_seq":4,"pending":0}')),
        ("feed-since-now", three + fed(3, '{"last_seq":3,"pending":0}')),
        ("feed-since-later", three + fed(3, '{"last_seq":9,"pending":0}')),
        ("feed-that-goes-on-from-none", fed(0, '{"last_seq":0,"pending":0}')),
        ("feed-of-one-that-was-put", one + fed(1, ROWS[0], '{"last_seq":1,"pending":0}')),
        ("feed-of-one-of-three", bulk + fed(1, ROWS[1], '{"last_seq":2,"pending":1}')),
        ("feed-of-one-from-now", one + fed(1, '{"last_seq":1,"pending":0}')),
        ("feed-of-some", deletion + fed(4, ROW_C, ROW_A, '{"last_seq":4,"pending":0}')),
        ("feed-of-some-limited", deletion + fed(4, ROW_C, '{"last_seq":3,"pending":1}')),
        ("feed-of-some-limit-of-0", three + fed(3, ROWS[0], '{"last_seq":1,"pending":1}')),
        ("feed-of-some-limit-reached-at-the-end", three + fed(3, ROWS[0], ROWS[1], '{"last_seq":2,"pending":0}')),
        ("feed-of-some-since", deletion + fed(4, ROW_A, '{"last_seq":4,"pending":0}')),
        ("feed-of-some-since-now", three + fed(3, '{"last_seq":3,"pending":0}')),
        ("feed-of-some-since-later", three + fed(3, '{"last_seq":9,"pending":0}')),
        ("feed-of-no-documents", three + fed(3, '{"last_seq":0,"pending":0}')),
        ("feed-of-unknown-documents", three + fed(3, '{"last_seq":1,"pending":0}')),
        ("feed-by-post", three + fed(3, ROWS[0], ROWS[1], '{"last_seq":2,"pending":1}')),
        ("feed-by-post-body-not-read", three + fed(3, *ROWS, '{"last_seq":3,"pending":0}')),
    ]:
        name = ("wire-edges/" if name in AT_ENDS_OF_FEEDS else "queries/") + name
        yield name, stored(name, ".expected") == wanted and once.run(stored(name, ".http"))[0] == wanted


def broken():
    head = "HTTP/1.1 %s\r\nContent-Type: application/json\r\nContent-Length: %d\r\nCouch-Place: 0\r\nConnection: close\r\n\r\n%s"
    for name, parts in BROKEN.items():
        wanted = (head % parts).encode()
        yield name, stored(name, ".expected") == wanted and once.run(stored(name, ".http")) == (wanted, 0)


def literal():
    """The first request and its response, as they are in the description of the program."""
    asked = b"PUT /db/a HTTP/1.1\r\nContent-Length: 2\r\n\r\n{}"
    response = (
        b"HTTP/1.1 201 Created\r\nContent-Type: application/json\r\nContent-Length: 63\r\nCouch-Place: 1\r\n\r\n"
        b'{"id":"a","ok":true,"rev":"' + A1.encode() + b'"}'
    )
    yield "the first request", stored("first-path/put-once", ".http") == asked and len(asked) == 43
    yield "the first response", once.run(asked) == (response, 0)
    for cut in range(1, 44):
        yield "without its last %d bytes" % cut, once.run(asked[: 43 - cut]) == (b"", 0)
    yield "a body that is not whole", once.run(asked.replace(b": 2", b": 3")) == (b"", 0)
    for body, length in LENGTHS:
        yield "the length of " + body, len(body) == length


def digests():
    """Known digests of MD5."""
    for text, digest in [
        ("", "d41d8cd98f00b204e9800998ecf8427e"),
        ("a", "0cc175b9c0f1b6a831c399e269772661"),
        ("abc", "900150983cd24fb0d6963f7d28e17f72"),
    ]:
        yield "the digest of " + repr(text), md5(text) == digest
    empty = json_profile.Body({})
    yield "an identity", revisions.text(revisions.child(None, False, empty)) == A1
    yield "an identity of a deletion", revisions.text(revisions.child(revisions.parse(A1), True, empty)) == X2


def fault(data, deepest=json_profile.MAX_NESTING):
    try:
        json_profile.read(data.encode(), deepest)
    except json_profile.JsonFault as fault:
        return fault.reason
    return None


def nestings():
    for levels, wanted in [(72, None), (73, "depth"), (127, "depth"), (128, "json")]:
        yield "arrays nested %d deep" % levels, fault("[" * levels + "]" * levels) == wanted
    for text, wanted in [
        ('{"n":9223372036854775807}', None),
        ('{"n":9223372036854775808}', "number"),
        ("1e400", "json"),
        ("-0", "number"),
        ("1.0", "number"),
        ("1e3", "number"),
        ("18446744073709551616", "number"),
        (r'"\ud800"', "json"),
        ('{"n":1.5,"n":1}', None),
    ]:
        yield "reading " + text, fault(text) == wanted


def follower():
    """Three documents, then the first deleted: a follower gives two rows, then one, then none."""
    database = Database()
    for id in "abc":
        database.bulk([Merge(id, [revisions.parse(A1)], False, json_profile.EMPTY)])
    database.bulk([Merge("a", [revisions.parse(X2), revisions.parse(A1)], True, json_profile.EMPTY)])
    following = queries.Follower(0, False)
    for wanted in [[("b", 2), ("c", 3)], [("a", 4)], []]:
        found = [(row["id"], row["seq"]) for row in following.next(database, 2)]
        yield "a follower's rows " + str(wanted), found == wanted
    yield "a follower's cursor", following.cursor == 4


def stems():
    """A path of three, and one of two beside it, over one root."""
    tree = trees.graft({}, [(3, "c"), (2, "d"), (1, "a")], json_profile.EMPTY, False)
    tree = trees.graft(tree, [(2, "b"), (1, "a")], json_profile.EMPTY, False)
    for limit, wanted in [(1, {(3, "c"), (2, "b")}), (2, {(3, "c"), (2, "d"), (2, "b"), (1, "a")}), (3, set(tree))]:
        yield "stemmed to %d" % limit, set(trees.stem(tree, limit)) == wanted


def main():
    checks = Checks(1000)
    for part in [transcripts, feeds, broken, literal, digests, nestings, follower, stems, *worked.CHECKS, *worked_epochs.CHECKS]:
        for name, holds in part():
            checks.check(holds, "%s", name)
    return checks.report()


if __name__ == "__main__":
    sys.exit(main())
