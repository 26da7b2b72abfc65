"""A busy database: many clients at once, which write, read, compact and are refused, and followers beside them."""
import random
import threading

from lib.programs import SECONDS

from .checked import guarded

CLIENTS = 32
POLLERS = 4
FEEDS = 4
DOCUMENTS = 24


class Written:
    """The revisions that responses named."""

    def __init__(self, check):
        self.check = check
        self.lock = threading.Lock()
        self.revisions = []  # (id, revision)
        self.won = {}  # (id, parent): revision
        self.newest = {}  # id: revision, a guess

    def add(self, id, parent, revision):
        with self.lock:
            self.revisions.append((id, revision))
            self.newest[id] = revision
            if parent is not None:
                other = self.won.setdefault((id, parent), revision)
                self.check(other == revision, "%s and %s of %s both won the parent %s", other, revision, id, parent)

    def guess(self, id):
        with self.lock:
            return self.newest.get(id)


def with_revision(target, revision):
    return target if revision is None else target + "?rev=" + revision


def write(connection, written, dice, number):
    id = "d%d" % dice.randrange(DOCUMENTS)
    parent = written.guess(id)
    if parent is not None and dice.random() < 0.1:
        status, value = connection.ask("DELETE", with_revision("/db/" + id, parent))
        allowed = (200, 404, 409)
    else:
        status, value = connection.ask("PUT", with_revision("/db/" + id, parent), {"n": number, "by": dice.random().hex()})
        allowed = (201, 409)
    connection.check(status in allowed, "%d for a write: %r", status, value)
    if status in (200, 201):
        written.add(id, parent, value["rev"])


def bulk(connection, written, dice, number):
    chosen = dice.sample(range(DOCUMENTS), 4)
    documents = []
    for at in chosen:
        document = {"_id": "d%d" % at, "n": number, "by": dice.random().hex()}
        parent = written.guess(document["_id"])
        if parent is not None:
            document["_rev"] = parent
        documents.append(document)
    status, value = connection.ask("POST", "/db/_bulk_docs", {"docs": documents})
    connection.check(status == 201, "%d for a bulk", status)
    connection.check([row["id"] for row in value] == [document["_id"] for document in documents], "a bulk answers %r", value)
    for document, row in zip(documents, value):
        if row.get("ok"):
            written.add(row["id"], document.get("_rev"), row["rev"])
        else:
            connection.check(row["error"] == "conflict", "a bulk answers %r", row)


def merge(connection, written, dice, number):
    revision = "1-%032x" % dice.getrandbits(128)
    document = {"_id": "m%d" % dice.randrange(DOCUMENTS), "_rev": revision, "n": number}
    status, value = connection.ask("POST", "/db/_bulk_docs", {"docs": [document], "new_edits": False})
    connection.check((status, value) == (201, []), "%d, %r for a merge", status, value)
    written.add(document["_id"], None, revision)


def local(connection, written, dice, number):
    status, value = connection.ask("PUT", "/db/_local/l%d" % number, {"n": number})
    connection.check((status, value.get("rev")) == (201, "0-1"), "%d, %r for a local document", status, value)
    status, value = connection.ask("GET", "/db/_local/l%d" % number)
    connection.check((status, value.get("n")) == (200, number), "%d, %r of a local document", status, value)


def read(connection, written, dice, number):
    id = "d%d" % dice.randrange(DOCUMENTS)
    known = written.guess(id)
    status, value = connection.ask("GET", "/db/%s?conflicts=true&revs=true" % id)
    connection.check(status in (200, 404), "%d for a document", status)
    if status == 200:
        generation, hash = value["_rev"].split("-")
        path = value["_revisions"]
        is_of_revision = path["start"] == int(generation) and path["ids"][0] == hash
        connection.check(value["_id"] == id and is_of_revision, "%r for the document %s", value, id)
    elif status == 404:
        # nothing is purged here, so a document with a revision that was answered before is there, and may be deleted
        reasons = ("missing", "deleted") if known is None else ("deleted",)
        connection.check(value["reason"] in reasons, "%r for a document with the revision %s", value, known)


def differ(connection, written, dice, number):
    id = "d%d" % dice.randrange(DOCUMENTS)
    missing = "9-%032x" % dice.getrandbits(128)
    status, value = connection.ask("POST", "/db/_revs_diff", {id: [missing]})
    connection.check(status == 200 and value[id]["missing"] == [missing], "%d, %r for differences", status, value)


def look(connection, written, dice, number):
    status, value = connection.ask("GET", "/db")
    connection.check(status == 200 and value["db_name"] == "db", "%d, %r for the database", status, value)
    status, value = connection.ask("GET", "/db/_changes?limit=5&since=%d" % dice.randrange(value["update_seq"] + 1))
    numbers = [row["seq"] for row in value["results"]]
    connection.check(status == 200 and numbers == sorted(set(numbers)), "%d, rows %r", status, numbers)


def everything(connection, written, dice, number):
    status, value = connection.ask("GET", "/db/_all_docs")
    ids = [row["id"] for row in value["rows"]]
    connection.check(status == 200 and ids == sorted(set(ids)) and value["total_rows"] == len(ids), "%d, ids %r", status, ids)


def refuse(connection, written, dice, number):
    status, value = connection.ask("GET", "/db/_bulk_docs")
    connection.check((status, value["error"]) == (405, "method_not_allowed"), "%d, %r for a bad method", status, value)


def compact(connection, written, dice, number):
    status, value = connection.ask("POST", "/db/_compact")
    if status == 503:
        connection.check(value["reason"] in ("behind", "overrun"), "%r for a compaction", value)
    else:
        connection.check((status, value) == (202, {"ok": True}), "%d, %r for a compaction", status, value)


KINDS = [
    (write, 40),
    (read, 20),
    (bulk, 8),
    (merge, 6),
    (local, 5),
    (differ, 5),
    (look, 8),
    (everything, 4),
    (refuse, 3),
    (compact, 1),
]


def client(server, written, dice, name, requests):
    connection = server.connect()
    kinds = [kind for kind, _ in KINDS]
    weights = [weight for _, weight in KINDS]
    for at in range(requests):
        dice.choices(kinds, weights)[0](connection, written, dice, name * requests + at)
    connection.close()


class Follower:
    """A map of the documents, or of those that are listed, kept by the rows of a feed."""

    def __init__(self, check, listed=None):
        self.check = check
        self.listed = listed
        self.last = 0
        self.rows = {}

    def ask(self, connection, target):
        """Asks for the changes that it follows."""
        if self.listed is None:
            connection.send("GET", target)
        else:
            connection.send("POST", target + "&filter=_doc_ids", {"doc_ids": self.listed})

    def wanted(self, rows):
        """Those of the rows that it follows."""
        return {id: row for id, row in rows.items() if self.listed is None or id in self.listed}

    def take(self, row):
        self.check(row["seq"] > self.last, "row %d after %d", row["seq"], self.last)
        self.check(self.listed is None or row["id"] in self.listed, "a row of %s, which is not on the list", row["id"])
        self.last = row["seq"]
        self.rows[row["id"]] = (row["seq"], [change["rev"] for change in row["changes"]], row.get("deleted", False))


def poll(server, follower, ended):
    connection = server.connect()
    while not (ended.is_set() and follower.last >= ended.number):
        follower.ask(connection, "/db/_changes?feed=longpoll&style=all_docs&since=%d&limit=40" % follower.last)
        status, value = connection.answer()
        server.check(status == 200, "%d for a long poll", status)
        server.check(value["results"], "a long poll ends with no row")
        for row in value["results"]:
            follower.take(row)
        is_whole = value["pending"] == 0 and value["last_seq"] >= follower.last
        is_full = value["pending"] > 0 and len(value["results"]) == 40 and value["last_seq"] == follower.last
        server.check(is_whole or is_full, "a long poll ends at %d, with %d left", value["last_seq"], value["pending"])
    connection.close()


def feed(server, follower, ended):
    connection = server.connect()
    follower.ask(connection, "/db/_changes?feed=continuous&style=all_docs")
    status, headers = connection.head()
    server.check(status == 200 and headers["Connection"] == "close", "%d, %r for a feed", status, headers)
    while not (ended.is_set() and follower.last >= ended.number):
        row = connection.line()
        if row is None or "last_seq" in row:
            server.check(False, "a feed ended by itself with %r", row)
            break
        follower.take(row)
    connection.close()


def all_changes(server):
    connection = server.connect()
    status, value = connection.ask("GET", "/db/_changes?style=all_docs")
    server.check(status == 200, "%d for all changes", status)
    follower = Follower(server.check)
    for row in value["results"]:
        server.check(row["id"] not in follower.rows, "%s is twice in the changes", row["id"])
        follower.take(row)
    server.check(value["last_seq"] == follower.last, "changes end at %d, not %d", value["last_seq"], follower.last)
    connection.close()
    return follower


def find_written(server, written):
    """Each revision that was answered is in the path of a leaf."""
    connection = server.connect()
    known = {}
    for id in {id for id, _ in written.revisions}:
        status, value = connection.ask("GET", "/db/%s?open_revs=all&revs=true" % id)
        server.check(status == 200, "%d for the leaves of %s", status, id)
        for leaf in value:
            path = leaf["ok"]["_revisions"]
            known.setdefault(id, set()).update("%d-%s" % (path["start"] - at, hash) for at, hash in enumerate(path["ids"]))
    for id, revision in written.revisions:
        server.check(revision in known.get(id, ()), "%s of %s is lost", revision, id)
    connection.close()


def lists(dice, count):
    """Lists of some documents each, one of them twice, with strings that no document has as its id."""
    ids = ["%s%d" % (kind, at) for kind in "dm" for at in range(DOCUMENTS)]
    for at in range(count):
        listed = dice.sample(ids, 1 + at * 4) + ["last", "none", "", "x" * 513]
        yield dice.sample(listed + listed[:1], len(listed) + 1)


def busy(server, requests, seed):
    """Many clients at once, and followers beside them, half of them of some documents."""
    written, ended = Written(server.check), threading.Event()
    each = requests // CLIENTS
    clients = [
        threading.Thread(
            target=guarded(server.check, client), args=(server, written, random.Random(seed * 1000 + name), name, each)
        )
        for name in range(CLIENTS)
    ]
    listed = lists(random.Random(seed), POLLERS + FEEDS)
    polling = [Follower(server.check) for _ in range(POLLERS)] + [Follower(server.check, next(listed)) for _ in range(POLLERS)]
    fed = [Follower(server.check) for _ in range(FEEDS)] + [Follower(server.check, next(listed)) for _ in range(FEEDS)]
    following = [
        threading.Thread(target=guarded(server.check, poll), args=(server, follower, ended), daemon=True) for follower in polling
    ]
    following += [
        threading.Thread(target=guarded(server.check, feed), args=(server, follower, ended), daemon=True) for follower in fed
    ]
    for thread in following + clients:
        thread.start()
    for thread in clients:
        thread.join()
    connection = server.connect()
    ended.number = connection.ask("GET", "/db")[1]["update_seq"] + 1
    ended.set()
    # the last change, which wakes each follower
    server.check(connection.ask("PUT", "/db/last", {})[0] == 201, "the last write is refused")
    connection.close()
    for thread in following:
        thread.join(SECONDS)
        server.check(not thread.is_alive(), "a follower does not end")
    final = all_changes(server)
    for follower in polling + fed:
        wanted = follower.wanted(final.rows)
        server.check(follower.rows == wanted, "a follower has %d rows of %d", len(follower.rows), len(wanted))
    find_written(server, written)
