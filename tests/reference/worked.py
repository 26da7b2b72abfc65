"""Examples beside the transcripts that were worked by hand: a follower of some documents, the log of purges, compactions
beside it, a replication of some documents, and dumps of the log's limit. Each check gives names, and whether that holds."""
import hashlib
import json
from urllib.parse import quote

from . import history, once, queries, revisions
from .compactions import Behind, Compaction, Overrun
from .database import Database, Edit, Session
from .json_profile import Body

A1 = "1-" + hashlib.md5(b"0,,{}").hexdigest()


def filled(*ids):
    """A database of these documents, each at its first revision."""
    return fill(Database(), ids)


def fill(store, ids):
    """Puts these documents into a database, or by a session."""
    for id in ids:
        put(store, id)
    return store


def put(store, id, named=None, members=None):
    store.bulk([Edit(id, revisions.parse(named) if named else None, False, Body(members or {}))])


def purge(store, *ids):
    """Purges these documents, each at its first revision."""
    store.purge({id: [revisions.parse(A1)] for id in ids})


def follower_of_some():
    """Three documents, of which a follower of two gives one, then the other, then none."""
    database = filled(*"abc")
    following = queries.Follower(0, False, ["c", "b"])
    for wanted in [[("b", 2)], [("c", 3)], []]:
        found = [(row["id"], row["seq"]) for row in following.next(database, 1)]
        yield "the rows of a follower of some " + str(wanted), found == wanted
    yield "the cursor of a follower of some", following.cursor == 3


def numbers(database):
    return [info.seq for info in database.purged_infos]


def log():
    """The newest purges are kept, as many as the limit lets be."""
    database = filled(*"abcdef")
    yield "no purge is overrun", not database.is_overrun(0) and numbers(database) == []
    purge(database, "a", "b", "c")
    yield "three purges", numbers(database) == [1, 2, 3]
    database.set_purged_infos_limit(2)
    yield "a limit cuts at once", numbers(database) == [2, 3]
    yield "what is overrun by a cut", [database.is_overrun(mark) for mark in range(5)] == [True, False, False, False, False]
    database.set_purged_infos_limit(4294967295)
    yield "a higher limit brings nothing back", numbers(database) == [2, 3] and database.is_overrun(0)
    purge(database, "d")
    yield "and keeps more from then on", numbers(database) == [2, 3, 4]
    database.set_purged_infos_limit(1)
    purge(database, "e", "f")
    yield "one purge is kept", numbers(database) == [6] and database.is_overrun(4) and not database.is_overrun(5)
    yield "purge numbers go on", database.purge_seq == 6
    many = filled(*map(str, range(1001)))
    purge(many, *map(str, range(1001)))
    yield "the newest 1000 at first", numbers(many) == list(range(2, 1002))


def outcome(step, *arguments):
    """What a step of a compaction answers."""
    try:
        return step(*arguments)
    except (Overrun, Behind) as fault:
        return type(fault)


def finished(copy, database, slack=0):
    """Whether the copy ends as the database does that is compacted at once."""
    found = outcome(copy.finish, database, slack)
    database.compact()
    return found == {id: (record.tree, record.seq) for id, record in database.docs.items()}


def compactions():
    """Compactions in slices, beside which documents are purged."""
    database = filled("x", "y")
    copy = Compaction(database)
    yield "one of two is left", copy.slice(1) == 1
    purge(database, "x")
    put(database, "y", A1, {"n": 1})
    yield "a purge and an edit are caught up with", (copy.slice(1), copy.catch_up(database, 64)) == (0, 0) and finished(
        copy, database
    )
    yield "what they leave", list(database.docs) == ["y"] and database.docs["y"].seq == 3

    database = filled("x", "y")
    copy = Compaction(database)
    copy.slice(1)
    purge(database, "x")
    put(database, "x")
    put(database, "y", A1, {"n": 1})
    yield "a document put again is caught up with", (copy.slice(1), copy.catch_up(database, 64)) == (0, 0) and finished(
        copy, database
    )
    yield "what it leaves", (database.docs["x"].seq, database.docs["y"].seq) == (3, 4)

    for count, wanted in [(1001, Overrun), (1000, 0)]:
        ids = list(map(str, range(1001)))
        database = filled(*ids)
        copy = Compaction(database)
        copy.slice(4096)
        purge(database, *ids[:count])
        yield "%d purges beside a compaction" % count, outcome(copy.catch_up, database, 4096) == wanted


def cuts():
    """Compactions in slices, beside which the log is cut."""
    session = fill(Session(), "xy")
    database = session.database
    copy = Compaction(database)
    yield "both are sliced", copy.slice(2) == 0
    session.set_purged_infos_limit(1)
    purge(session, "x", "y")
    yield "a limit and a purge are an entry each", session.place == 4 and database.purge_seq == 2
    yield "a limit of 1 and two purges overrun", outcome(copy.catch_up, database, 64) == Overrun and outcome(
        copy.finish, database, 64
    ) == Overrun
    session.set_purged_infos_limit(1000)
    yield "and a higher limit doesn't help", outcome(copy.catch_up, database, 64) == Overrun

    session = fill(Session(), "xyz")
    database = session.database
    purge(session, "x", "y")
    copy = Compaction(database)
    yield "the third alone is sliced", copy.slice(1) == 0
    session.set_purged_infos_limit(1)
    yield "the fifth entry cuts", session.place == 5 and numbers(database) == [2]
    yield "what was cut lies at or below the mark", outcome(copy.catch_up, database, 64) == 0 and finished(copy, database)
    session.compact()
    yield "the compaction is the sixth entry", session.place == 6 and list(database.docs) == ["z"]

    database = filled("x", "y", "z")
    copy = Compaction(database)
    copy.slice(3)
    purge(database, "x", "y")
    yield "one of two purges is caught up with", copy.catch_up(database, 1) == 1
    database.set_purged_infos_limit(1)
    yield "what was caught up with may be cut", outcome(copy.finish, database, 0) == Behind and outcome(
        copy.catch_up, database, 1
    ) == 0 and finished(copy, database)


def asked(connection, method, target, body=None):
    """The status and the value of one answer."""
    text = b"" if body is None else json.dumps(body).encode()
    head = "%s %s HTTP/1.1\r\nHost: db\r\nAccept: application/json\r\nContent-Length: %d\r\n\r\n" % (method, target, len(text))
    [answer] = connection.responses(head.encode() + text)
    head, body = answer.split(b"\r\n\r\n", 1)
    return int(head.split(b" ")[1]), json.loads(body)


def replicate(source, target, ids):
    """A replication of some documents to an empty target: where it went on from, and what was missing there."""
    since, missing = 0, []
    while True:
        _, page = asked(
            source, "POST", "/db/_changes?style=all_docs&filter=_doc_ids&since=%d&limit=100" % since, {"doc_ids": ids}
        )
        if not page["results"]:
            return since, missing
        revs = {row["id"]: [change["rev"] for change in row["changes"]] for row in page["results"]}
        _, differences = asked(target, "POST", "/db/_revs_diff", revs)
        for id, difference in differences.items():
            listed = quote(json.dumps(difference["missing"]), safe="")
            _, found = asked(source, "GET", "/db/%s?revs=true&latest=true&open_revs=%s" % (id, listed))
            asked(target, "POST", "/db/_bulk_docs", {"docs": [one["ok"] for one in found], "new_edits": False})
            missing.append(id)
        since = page["last_seq"]
        for end in target, source:
            asked(end, "PUT", "/db/_local/r", {"last_seq": since})


def replication():
    """Of three documents one goes to the target, and both ends note the source's update number."""
    source, target = once.Connection(), once.Connection()
    for id in "abc":
        asked(source, "PUT", "/db/" + id, {})
    yield "what is missing of one document", replicate(source, target, ["b"]) == (3, ["b"])
    wanted = {"offset": 0, "rows": [{"id": "b", "key": "b", "value": {"rev": A1}}], "total_rows": 1}
    yield "the target has it alone", asked(target, "GET", "/db/_all_docs") == (200, wanted)
    for name, end in [("source", source), ("target", target)]:
        yield "the checkpoint of the " + name, asked(end, "GET", "/db/_local/r") == (
            200,
            {"_id": "_local/r", "_rev": "0-1", "last_seq": 3},
        )


LIMIT = b'{"couch_history":1}\n{"command":{"purged_limit":%s},"reply":true,"seat":[0,1]}\n'


def limit_dumps():
    """Dumps of a history that sets the limit of the log: what is said of each, and the exit status."""
    one = LIMIT % b"1"
    for value in [b"1", b"4294967295"]:
        yield LIMIT % value, "legal 1", 0
    for value in [
        b"0",
        b"4294967296",
        b"-1",
        b"1.5",
        b"01",
        b" 1",
        b"true",
        b"null",
        b'"1"',
        b"[1]",
        b'1,"x":1',
        b'1,"purged_limit":1',
    ]:
        yield LIMIT % value, "unreadable line 2", 3
    for old, new in [
        (b'{"purged', b'{"limit":1,"purged'),
        (b'{"purged', b'{"compact":true,"purged'),
        (b"purged_limit", b"purged_infos_limit"),
        (b"true", b"false"),
        (b"true", b"1"),
        (b"true", b"{}"),
    ]:
        yield one.replace(old, new), "unreadable line 2", 3
    yield one.replace(b"[0,1]", b"[63,1]"), "legal 1", 0
    yield one.replace(b"[0,1]", b"[0,2]"), "wrong at 1", 2
    yield one.replace(b"purged_limit", b"limit"), "legal 1", 0


def dumps():
    """The dump of the first request of the log's limit, and what is said of others."""
    yield "the dump of a limit", history.dump_of(
        b"PUT /db/_purged_infos_limit HTTP/1.1\r\nContent-Length: 1\r\n\r\n1"
    ) == LIMIT % b"1"
    for dump, text, status in limit_dumps():
        yield "%s of %r" % (text, dump), history.verdict(dump) == (text, status)


CHECKS = [follower_of_some, log, compactions, cuts, replication, dumps]
