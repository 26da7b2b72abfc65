"""Examples of histories that go on from one another, worked by hand. Each check gives names, and whether that holds."""
import hashlib

from . import history, once, queries, revisions
from .bases import LARGEST, NoSuccessor, first_line, is_same, read_first_line, successor
from .compactions import Compaction
from .database import Database, Merge, PurgedInfo
from .epochs import Chronicle, extends, follows, is_right
from .history import Recorder, next_base, verdict
from .json_profile import Body
from .worked import A1, filled, finished, outcome, purge, put
from .worlds import results_after

PUT = b"PUT /db/%s HTTP/1.1\r\nContent-Length: 2\r\n\r\n{}"
CREATED = (
    b"HTTP/1.1 201 Created\r\nContent-Type: application/json\r\nContent-Length: 63\r\nCouch-Place: 1\r\n\r\n"
    b'{"id":"b","ok":true,"rev":"%s"}' % A1.encode()
)
FIRST = (
    b'{"base":{"docs":[{"id":"a","revs":[{"body":{},"deleted":false,"rev":"%s"}],"seq":1}],"limit":1000,"locals":[],'
    b'"purge_seq":0,"purged_limit":1000,"purges":[],"update_seq":1},"couch_history":2}\n' % A1.encode()
)
ENTRY = (
    b'{"command":{"bulk":[{"body":{},"deleted":false,"id":"b"}],"new_edits":true},"reply":["%s"],"seat":[0,1]}\n' % A1.encode()
)
EMPTY = b'{"base":{"docs":[],"limit":1000,"locals":[],"purge_seq":0,"purged_limit":1000,"purges":[],"update_seq":0},"couch_history":2}\n'
NOT_NAMED = b'{"couch_history":1}\n'


def served(recorder, data):
    return b"".join(once.Connection(recorder).responses(data))


def second_history():
    """Two writes of one document, the end of that history, and a write of another document in the next one."""
    first = Recorder()
    served(first, PUT % b"a" + PUT % b"a")
    closed = first.dump()
    second = first.successor()
    yield "the next history has no place", second.place == 0 and second.lines == []
    yield "its base has the document", list(second.database.docs) == ["a"] and second.database.update_seq == 1
    yield "the response to the other document", served(second, PUT % b"b") == CREATED
    yield "its update number", second.database.update_seq == 2 and second.database.docs["b"].seq == 2
    yield "the dump of the next history", second.dump() == FIRST + ENTRY
    yield "the dump of the history that ended", first.dump() == closed and first.place == 2
    yield "the verdict", verdict(second.dump()) == ("legal 1", 0)
    yield "under the number 0", verdict(second.dump().replace(b'"update_seq":1', b'"update_seq":0')) == ("unreadable line 1", 3)
    yield "the base from the dump", next_base(closed) == (FIRST, 0)
    yield "the base after no entry", next_base(FIRST) == (FIRST, 0)
    world = results_after(["edit a - {}", "edit a - {}", "|", "look 0", "read 0 info"])
    yield "a world from there", world[2:] == [
        "0 at 0 live 1 deleted 0 update 1 purge 0",
        "place 0",
        "update 1 purge 0 [a 1 %s]" % A1,
    ]


def places():
    """A history of one entry that is full: the next one has room again."""
    first = Recorder()
    served(first, PUT % b"a")
    second = first.successor()
    answer = served(second, PUT % b"b")
    yield "the place of the first", first.place == 1
    yield "the place of the second is the first of its history", second.place == 1 and answer == CREATED


def named():
    """An empty base that is named is another beginning than none."""
    yield "no base", history.dump_of(b"") == NOT_NAMED and read_first_line(NOT_NAMED) is None
    yield "the base after it", next_base(NOT_NAMED) == (EMPTY, 0)
    yield "it is empty", is_same(read_first_line(EMPTY), Database())
    yield "both are legal", verdict(NOT_NAMED) == verdict(EMPTY) == ("legal 0", 0)
    opened = Chronicle().opened()
    yield "their dumps differ", (Chronicle().dump(), opened.dump()) == (NOT_NAMED, EMPTY)
    yield "the later follows the earlier", follows(opened, Chronicle(), [Chronicle()])
    yield "and the earlier does not begin with the later", not extends(Chronicle(), opened)


def full():
    """A database with something of everything, made by commands."""
    database = filled(*"abxyz")
    put(database, "a", A1, {"n": 1})
    database.bulk(
        [Merge("d", [(2, digit * 32), (1, 32 * "a")], deleted, Body({})) for digit, deleted in [("b", False), ("c", True)]]
    )
    database.compact()
    put(database, "b", A1, {"n": 2})
    database.revs_limit = 1
    database.bulk([Merge("s", [(3, 32 * "c"), (2, 32 * "b"), (1, 32 * "a")], False, Body({"t": "é"}))])
    database.set_purged_infos_limit(2)
    purge(database, "x", "y", "z")
    database.write_local("r", None, Body({"last_seq": 3}))
    database.locals["r"].number = 4294967295
    return database


def goes_on():
    """All of a database goes on, as it was, and what becomes of the next one is nothing to it."""
    database, like = full(), full()
    base = successor(database)
    yield "the base is the database", is_same(base, like) and base is not database
    yield "numbers", (base.update_seq, base.purge_seq) == (10, 3)
    yield "limits", (base.revs_limit, base.purged_infos_limit) == (1, 2)
    yield "the log", [(info.seq, info.id) for info in base.purged_infos] == [(2, "y"), (3, "z")]
    yield "a local document", base.locals["r"].number == 4294967295
    yield "its counter is the last", refused(base.write_local, "r", 4294967295, Body({})) == "generation"
    yield "documents", sorted(base.docs) == ["a", "b", "d", "s"] and len(base.docs["s"].tree) == 1
    for next_step in [
        lambda: put(base, "e"),
        lambda: base.compact(),
        lambda: purge(base, "e"),
        lambda: base.set_purged_infos_limit(1),
    ]:
        next_step()
        yield "the one that ended stays", is_same(database, like)
    yield "and the next went on", (base.update_seq, base.purge_seq, len(base.purged_infos)) == (11, 4, 1)


def refused(step, *arguments):
    found = outcome_of(step, *arguments)
    return found.kind if isinstance(found, history.Refused) else found


def outcome_of(step, *arguments):
    try:
        return step(*arguments)
    except (history.Refused, NoSuccessor) as fault:
        return fault


def texts():
    """A base is read from its line as it was, and its line is the same again."""
    for name, database in [("an empty one", Database()), ("a full one", full()), ("a large one", large(LARGEST, LARGEST))]:
        line = first_line(database)
        yield "the line of " + name, is_same(read_first_line(line), database) and first_line(read_first_line(line)) == line
        yield "the verdict on the line of " + name, verdict(line) == ("legal 0", 0) and next_base(line) == (line, 0)


def large(update_seq, purge_seq):
    """A database of these numbers."""
    database = filled("a")
    database.update_seq, database.purge_seq = update_seq, purge_seq
    database.purged_infos = [PurgedInfo(purge_seq, "x", [revisions.parse(A1)])]
    return database


def largest():
    """Both numbers may be 4611686018427387904, and no more."""
    yield "the most", LARGEST == 4611686018427387904 == 2**62
    yield "both at the most", is_same(successor(large(LARGEST, LARGEST)), large(LARGEST, LARGEST))
    for name, update_seq, purge_seq in [
        ("update", LARGEST + 1, 1),
        ("purge", 1, LARGEST + 1),
        ("each", LARGEST + 1, LARGEST + 1),
    ]:
        database = large(update_seq, purge_seq)
        found = outcome_of(successor, database)
        yield "the %s number past the most" % name, isinstance(found, NoSuccessor)
        yield "and it is as it was", is_same(database, large(update_seq, purge_seq))
        yield "a line of it is none", verdict(first_line(database)) == ("unreadable line 1", 3)
    line, entry = first_line(large(LARGEST, 1)), ENTRY.replace(b'"id":"b"', b'"id":"c"')
    yield "a write past the most is legal", verdict(line + entry) == ("legal 1", 0)
    yield "and has no next history", next_base(line + entry) == (b"no successor\n", 6)
    yield "what is wrong is reported first", next_base(line + entry + entry) == (b"wrong at 2\n", 2)
    yield "what is unreadable too", next_base(line + entry + entry[:-1]) == (b"unreadable line 3\n", 3)


def put_of(id):
    return {"bulk": [{"body": {}, "deleted": False, "id": id}], "new_edits": True}


def following():
    """Two histories that go on from one know nothing of each other, and each follows what was before it."""
    first = Chronicle()
    closed = first.written(0, put_of("a"))
    one, other = closed.opened().written(0, put_of("b")), closed.opened().written(5, put_of("c"))
    third = one.opened().written(0, put_of("d"))
    versions = [first, closed, closed.opened(), one, other, one.opened(), third]
    for name, earlier in [
        ("the first", first),
        ("the closed one", closed),
        ("the base", closed.opened()),
        ("the second", one),
        ("the third", third),
    ]:
        yield "the third follows " + name, follows(third, earlier, versions)
    yield "the third does not follow the other", not follows(third, other, versions)
    yield "the other follows the closed one", follows(other, closed, versions)
    yield "neither of the two follows the other", not follows(one, other, versions) and not follows(other, one, versions)
    yield "the closed one follows neither", not follows(closed, one, versions) and not follows(closed, other, versions)
    yield "an end with no entries follows itself", follows(closed.opened().opened(), closed, versions + [closed.opened()])
    yield "calls begin anew", one.lines[0].endswith(b'"seat":[0,1]}\n') and other.lines[0].endswith(b'"seat":[5,1]}\n')
    yield "numbers go on", third.now().update_seq == 3 and sorted(third.now().docs) == ["a", "b", "d"]
    for chronicle in versions:
        yield "each of them is legal", verdict(chronicle.dump()) == ("legal %d" % len(chronicle.lines), 0)
        yield "and so is the next base", next_base(chronicle.dump()) == (chronicle.opened().dump(), 0)


def row(id, record):
    return queries.row(id, record, False)


def feeds():
    """A follower that goes on over two ends: what it gave is right up to its cursor."""
    database, feed, follower = filled(*"abc"), {}, queries.Follower(0, False)
    for wanted, write in [([1, 2], "d"), ([3, 4], "e"), ([5], "f"), ([6], "g")]:
        rows = follower.next(database, 2)
        feed.update((one["id"], one) for one in rows)
        yield "the rows " + str(wanted), [one["seq"] for one in rows] == wanted
        yield "what it gave is right", is_right(feed, 0, follower.cursor, database, row)
        database = successor(database)
        yield "and stays so", is_right(feed, 0, follower.cursor, database, row)
        put(database, write)
    purge(database, "a")
    yield "where a document is gone too", is_right(feed, 0, follower.cursor, database, row)
    put(database, "a")
    yield "and where it came again, above the cursor", is_right(feed, 0, follower.cursor, database, row)
    yield "but not above that", not is_right(feed, 0, database.update_seq, database, row)


def copies():
    """A compaction in slices that goes on behind the end of a history."""
    database = filled("x", "y")
    copy = Compaction(database)
    yield "one of two is left", copy.slice(1) == 1
    database = successor(database)
    purge(database, "x")
    put(database, "y", A1, {"n": 1})
    yield "the other is sliced", copy.slice(1) == 0
    database = successor(database)
    yield "both are caught up with", outcome(copy.catch_up, database, 64) == 0
    yield "what it leaves is the compacted database", finished(copy, database)
    yield "with their numbers", list(database.docs) == ["y"] and database.docs["y"].seq == 3


def replication():
    """The checkpoint of a replication goes on: nothing is brought twice."""
    source = Recorder()
    served(source, PUT % b"a" + b'PUT /db/_local/r HTTP/1.1\r\nContent-Length: 14\r\n\r\n{"last_seq":1}')
    source = source.successor()
    asked = b"GET /db/_local/r HTTP/1.1\r\n\r\nGET /db/_changes?since=1 HTTP/1.1\r\n\r\n"
    wanted = [b'{"_id":"_local/r","_rev":"0-1","last_seq":1}', b'{"last_seq":1,"pending":0,"results":[]}']
    found = [one.split(b"\r\n\r\n", 1)[1] for one in once.Connection(source).responses(asked)]
    yield "the checkpoint, and nothing above it", found == wanted
    yield "queries take no place", source.place == 0


def digests():
    """The identity of an edit over a revision of the base is the one that it would be in one history."""
    base = successor(filled("a"))
    put(base, "a", A1, {"n": 1})
    a2 = "2-" + hashlib.md5(b'0,%s,{"n":1}' % A1.encode()).hexdigest()
    yield "an edit over the base", revisions.parse(a2) in base.docs["a"].tree and base.docs["a"].tree[
        revisions.parse(a2)
    ].parent == revisions.parse(A1)


CHECKS = [second_history, places, named, goes_on, texts, largest, following, feeds, copies, replication, digests]
