"""What comes of the commands, the queries and the follower of a row."""
import copy

from . import queries, revisions
from .bases import NoSuccessor, successor
from .database import Database, Edit, Merge, Refused
from .json_profile import EMPTY, body_of, read, text


class History:
    """A database, an empty one if none is given, what it was before the last command, and whose call each command was."""

    def __init__(self, database=None):
        self.database = Database() if database is None else database
        self.before = None
        self.seats = []
        self.reply = None  # of the last command

    def place(self):
        return len(self.seats)

    def next_call(self, session):
        return sum(of == session for of, _ in self.seats) + 1

    def write(self, session, words):
        """Does a command, and gives its reply."""
        self.before = copy.copy(self)
        self.database, self.seats = copy.deepcopy(self.database), [*self.seats, (session, self.next_call(session))]
        self.reply = reply_to(self.database, words)
        return self.reply

    def reopen(self):
        """Goes on as the next history, and gives what that begins from; the one that ended is kept as `before`."""
        try:
            database = successor(self.database)
        except NoSuccessor:
            return "no successor"
        self.before = copy.copy(self)
        self.database, self.seats, self.reply = database, [], None
        return content(database)


# ---- commands


def optional(word, parse):
    return None if word == "-" else parse(word)


def body(word):
    return body_of(read(word.encode()))


def asked(words):
    """Documents, each with its revisions."""
    parted = (word.split(":") for word in words)
    return {id: [revisions.parse(name) for name in names.split(",")] for id, names in parted}


def reply_to(database, words):
    """What the database answers to the command that these words are, as a string; the database goes on."""
    name, *words = words
    if name == "put_local" or name == "delete_local":
        return local_reply(database, *words)
    if name == "purge":
        removed = database.purge(asked(words))
        return " ".join(
            ["purge %d" % database.purge_seq, *("[%s]" % " ".join([id, *names(revs)]) for id, revs in removed.items())]
        )
    if name == "set_limit":
        database.revs_limit = int(words[0])
        return "done"
    if name == "set_purged_limit":
        database.set_purged_infos_limit(int(words[0]))
        return "done"
    if name == "compact":
        database.compact()
        return "done"
    return " ".join(map(outcome, database.bulk(changes(name, words))))


def changes(name, words):
    if name == "edit":
        return [edit(*words[at : at + 3]) for at in range(0, len(words), 3)]
    if name == "delete":
        return [edit(*words, "{}", deleted=True)]
    id, *path = words
    return [Merge(id, [revisions.parse(rev) for rev in path], {"merge": False, "merge_deleted": True}[name], EMPTY)]


def edit(id, named, text, deleted=False):
    return Edit(id, optional(named, revisions.parse), deleted, body(text))


def local_reply(database, id, named, text=None):
    try:
        return "local %d" % database.write_local(id, optional(named, int), None if text is None else body(text))
    except Refused as refusal:
        return refusal.kind


def outcome(found):
    return found.kind if isinstance(found, Refused) else revisions.text(found)


def names(revs):
    return [revisions.text(rev) for rev in revs]


# ---- reads


def content(database):
    """The last numbers, and each document with its number and its revisions, `-` after one whose body is gone."""
    documents = "".join(stored(id, database.docs[id]) for id in sorted(database.docs))
    return "update %d purge %d %s" % (database.update_seq, database.purge_seq, documents)


def stored(id, record):
    revs = (revisions.text(rev) + ("-" if record.tree[rev].body is None else "") for rev in sorted(record.tree))
    return "[%s]" % " ".join([id, str(record.seq), *revs])


def changed_since(database, since):
    """The records above a number, in the order of their numbers."""
    return sorted((record.seq, id) for id, record in database.docs.items() if record.seq > since)


def logged(database, mark):
    """The purges above a number that are in the log."""
    return [(info.seq, info.id) for info in database.purged_infos if info.seq > mark]


def touched(database, update_mark, purge_mark):
    """The purges and then the records above the marks; None where a purge above its mark is no longer in the log."""
    if len(logged(database, purge_mark)) < database.purge_seq - purge_mark:
        return None
    return logged(database, purge_mark), changed_since(database, update_mark)


def touched_text(database, update_mark, purge_mark):
    found = touched(database, update_mark, purge_mark)
    count = "overrun" if found is None else "%d" % sum(map(len, found))
    return "%s, %d logged" % (count, len(logged(database, purge_mark)))


def read_text(history, name, *words):
    numbers = [int(word) for word in words]
    if name == "content":
        return content(history.database)
    if name == "place":
        return str(history.place())
    if name == "next_call":
        return str(history.next_call(*numbers))
    if name == "seat":
        return "%d %d" % history.seats[numbers[0] - 1] if 1 <= numbers[0] <= history.place() else "none"
    if name == "changed_since":
        rows = changed_since(history.database, *numbers)
        return "%d " % len(rows) + "".join("[%d %s]" % row for row in rows)
    return {"touched_since": touched_text}[name](history.database, *numbers)


# ---- queries


def query_text(database, name, *words):
    """What the database answers to the query that these words are, as a string."""
    try:
        return QUERIES[name](database, *words)
    except Refused as refusal:
        return refusal.kind


def options(words):
    return queries.Options(**{word: True for word in words})


def document_text(found):
    """An answer's document: its id and revision, what is special, and its members if it has any."""
    found = dict(found)
    parts = [found.pop("_id"), found.pop("_rev")]
    special = {name: found.pop(name) for name in list(found) if name.startswith("_")}
    if special.pop("_deleted", False):
        parts.append("deleted")
    if found:
        parts.append(text(found))
    if "_revisions" in special:
        path = special.pop("_revisions")
        parts += ["path", *("%d-%s" % (path["start"] - at, hash) for at, hash in enumerate(path["ids"]))]
    if "_revs_info" in special:
        parts += ["status", *("%(rev)s %(status)s" % info for info in special.pop("_revs_info"))]
    for name in ["_conflicts", "_deleted_conflicts"]:
        if name in special:
            parts += [name[1:], *special.pop(name)]
    assert not special, special
    return " ".join(parts)


def get_text(database, id, rev, *words):
    return document_text(queries.get(database, id, optional(rev, revisions.parse), options(words)))


def opened_text(database, id, revs, *words):
    listed = None if revs == "all" else [revisions.parse(rev) for rev in revs.split(",")]
    answers = queries.open_revs(database, id, listed, options(words))
    return "".join("[%s]" % (document_text(one["ok"]) if "ok" in one else "missing " + one["missing"]) for one in answers)


def differences_text(database, *words):
    return "".join(
        "[%s]" % " ".join(difference_text(id, found)) for id, found in queries.revs_diff(database, asked(words)).items()
    )


def difference_text(id, found):
    yield from [id, "missing", *found["missing"]]
    if "possible_ancestors" in found:
        yield from ["ancestors", *found["possible_ancestors"]]


def row_text(row):
    revs = [change["rev"] for change in row["changes"]]
    return "[%s]" % " ".join([str(row["seq"]), row["id"], *revs, *(["deleted"] if row.get("deleted") else [])])


def page_text(database, since, limit, style, ids=None):
    page = queries.changes(database, int(since), optional(limit, int), is_all(style), ids)
    return "".join(map(row_text, page["results"])) + "[last %(last_seq)d pending %(pending)d]" % page


def is_all(style):
    return {"main_only": False, "all_docs": True}[style]


def all_text(database):
    return "".join("[%s %s]" % (row["id"], row["value"]["rev"]) for row in queries.all_docs(database)["rows"])


def counts_text(database):
    return "live %(doc_count)d deleted %(doc_del_count)d update %(update_seq)d purge %(purge_seq)d" % queries.info(database)


def local_text(database, id):
    found = queries.local_get(database, id)
    number, members = found["_rev"], {name: value for name, value in found.items() if not name.startswith("_")}
    return " ".join([number.removeprefix("0-"), *([text(members)] if members else [])])


QUERIES = {
    "get": get_text,
    "open_revs": opened_text,
    "revs_diff": differences_text,
    "changes": page_text,
    "changes_of": lambda database, texts, *words: page_text(database, *words, ids=texts.split(",")),
    "all_docs": all_text,
    "info": counts_text,
    "get_local": local_text,
    "revs_limit": lambda database: str(database.revs_limit),
    "purged_infos_limit": lambda database: str(database.purged_infos_limit),
}


# ---- rows


def results(statements):
    """What comes of each statement."""
    history, follower = History(), None
    for statement in statements:
        name, *words = statement.split()
        if name == "follow":
            follower = queries.Follower(int(words[0]), is_all(words[1]))
            yield "at %d" % follower.cursor
        elif name == "follow_some":
            follower = queries.Follower(int(words[1]), is_all(words[2]), words[0].split(","))
            yield "at %d" % follower.cursor
        elif name == "pending":
            yield str(len(queries.changes(history.database, follower.cursor, None, False, follower.ids)["results"]))
        elif name == "next":
            rows = follower.next(history.database, int(words[0]))
            yield "%s at %d" % ("".join(map(row_text, rows)), follower.cursor)
        else:
            yield statement_text(history, name, words)


def statement_text(history, name, words):
    if name == "?":
        return query_text(history.database, *words)
    if name == "now":
        return read_text(history, *words)
    if name == "before":
        return read_text(history.before, *words)
    if name == "by":
        return history.write(int(words[0]), words[1:])
    if name == "reopen":
        return history.reopen()
    return history.write(0, [name, *words])
