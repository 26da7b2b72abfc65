"""What each query answers, over a database as it is. The answers are JSON values."""
from dataclasses import dataclass

from . import revisions, trees
from .database import DELETED, MISSING, Refused

LOCAL = "_local/"


@dataclass
class Options:
    """What is asked of a document beside its body; `latest` asks for the newest in the place of a revision."""

    latest: bool = False
    revs: bool = False
    revs_info: bool = False
    conflicts: bool = False
    deleted_conflicts: bool = False


def texts(revs):
    return [revisions.text(rev) for rev in revs]


def document(id, tree, rev, options):
    """A revision whose body is there."""
    found = dict(tree[rev].body.members, _id=id, _rev=revisions.text(rev))
    if tree[rev].deleted:
        found["_deleted"] = True
    path = trees.path_of(tree, rev)
    if options.revs:
        found["_revisions"] = {"ids": [hash for _, hash in path], "start": rev[0]}
    if options.revs_info:
        found["_revs_info"] = [{"rev": revisions.text(r), "status": trees.status_of(tree, r)} for r in path]
    losers = trees.leaves(tree)[1:]
    for asked, name, deleted in [
        (options.conflicts, "_conflicts", False),
        (options.deleted_conflicts, "_deleted_conflicts", True),
    ]:
        listed = [rev for rev in losers if tree[rev].deleted == deleted]
        if asked and listed:
            found[name] = texts(listed)
    return found


def has_body(tree, rev):
    return rev in tree and tree[rev].body is not None


def get(database, id, rev, options):
    tree = database.tree(id)
    if tree is None:
        raise Refused(MISSING)
    if rev is None:
        rev = trees.winner(tree)
        if tree[rev].deleted:
            raise Refused(DELETED)
    elif options.latest:
        rev = (trees.latest_of(tree, rev) or [None])[0]
    if not has_body(tree, rev):
        raise Refused(MISSING)
    return document(id, tree, rev, options)


def open_revs(database, id, asked, options):
    """`asked` is None for all leaves, else a list of revisions."""
    tree = database.tree(id) or {}
    if asked is None:
        listed = trees.leaves(tree)
    elif options.latest:
        listed = latest_each_once(tree, asked)
    else:
        listed = asked
    return [
        {"ok": document(id, tree, rev, options)} if has_body(tree, rev) else {"missing": revisions.text(rev)} for rev in listed
    ]


def latest_each_once(tree, asked):
    """In the place of each known revision its latest ones, none of them twice."""
    listed = []
    for rev in asked:
        if rev in tree:
            listed += [leaf for leaf in trees.latest_of(tree, rev) if leaf not in listed]
        else:
            listed.append(rev)
    return listed


def revs_diff(database, asked):
    """`asked` is a dictionary of lists of revisions."""
    answer = {}
    for id, revs in asked.items():
        tree = database.tree(id) or {}
        missing = []
        for rev in revs:
            if rev not in tree and rev not in missing:
                missing.append(rev)
        if not missing:
            continue
        answer[id] = {"missing": texts(missing)}
        largest = max(generation for generation, _ in missing)
        ancestors = sorted(leaf for leaf in trees.leaves(tree) if leaf[0] < largest)
        if ancestors:
            answer[id]["possible_ancestors"] = texts(ancestors)
    return answer


def winner_is_deleted(tree):
    return tree[trees.winner(tree)].deleted


def row(id, record, all_leaves):
    listed = trees.leaves(record.tree)
    found = {"changes": [{"rev": text} for text in texts(listed if all_leaves else listed[:1])], "id": id}
    found["seq"] = record.seq
    if winner_is_deleted(record.tree):
        found["deleted"] = True
    return found


def changes(database, since, limit, all_leaves, ids=None):
    """Each document once, at its last update; `limit` is None for no limit, and 0 acts as 1. Where `ids` is a list, of the
    documents that it names alone: their order and repeats mean nothing, and a text that is no document's id names none."""
    wanted = set(database.docs if ids is None else ids)
    above = sorted((record.seq, id) for id, record in database.docs.items() if record.seq > since and id in wanted)
    given = above if limit is None else above[: max(limit, 1)]
    left = len(above) - len(given)
    return {
        "last_seq": given[-1][0] if left else database.update_seq,
        "pending": left,
        "results": [row(id, database.docs[id], all_leaves) for _, id in given],
    }


class Follower:
    """Goes on from the last row that it gave."""

    def __init__(self, since, all_leaves, ids=None):
        self.cursor = since
        self.all_leaves = all_leaves
        self.ids = ids

    def next(self, database, limit):
        rows = changes(database, self.cursor, limit, self.all_leaves, self.ids)["results"]
        if rows:
            self.cursor = rows[-1]["seq"]
        return rows


def feed(database, since, limit, all_leaves, ids=None):
    """The rows that there are, and the end: with one session there are no more to wait for."""
    found = changes(database, since, limit, all_leaves, ids)
    rows = found["results"]
    last = rows[-1]["seq"] if rows else since
    return rows + [{"last_seq": last, "pending": found["pending"]}]


def all_docs(database):
    rows = []
    for id in sorted(database.docs):
        tree = database.tree(id)
        if not winner_is_deleted(tree):
            rows.append({"id": id, "key": id, "value": {"rev": revisions.text(trees.winner(tree))}})
    return {"offset": 0, "rows": rows, "total_rows": len(rows)}


def info(database):
    deleted = sum(winner_is_deleted(record.tree) for record in database.docs.values())
    return {
        "db_name": "db",
        "doc_count": len(database.docs) - deleted,
        "doc_del_count": deleted,
        "purge_seq": database.purge_seq,
        "update_seq": database.update_seq,
    }


def local_get(database, id):
    local = database.locals.get(id)
    if local is None:
        raise Refused(MISSING)
    return dict(local.body.members, _id=LOCAL + id, _rev=revisions.local_text(local.number))
