"""The sequential database: what each command answers and leaves."""
from dataclasses import dataclass
from typing import Optional

from . import revisions, trees
from .json_profile import Body


class Refused(Exception):
    """A command's refusal: it is a reply all the same, and changes nothing."""

    def __init__(self, kind):
        super().__init__(kind)
        self.kind = kind


# the kinds of refusals
CONFLICT, BAD_HISTORY, MISSING, DELETED, GENERATION = "conflict", "bad_history", "missing", "deleted", "generation"


@dataclass
class Edit:
    """A new revision of a document, over the one that is named."""

    id: str
    named: Optional[tuple]
    deleted: bool
    body: Body


@dataclass
class Merge:
    """A revision from another replica, with what is known of its ancestors, newest first."""

    id: str
    path: list
    deleted: bool
    body: Body


@dataclass
class Record:
    tree: dict
    seq: int


@dataclass
class Local:
    number: int
    body: Body


@dataclass
class PurgedInfo:
    """The leaves that a document lost, under the number of this purge."""

    seq: int
    id: str
    leaves: list


class Database:
    def __init__(self):
        self.docs = {}
        self.locals = {}
        self.update_seq = 0
        self.purge_seq = 0
        self.revs_limit = 1000
        self.purged_infos = []  # the log of purges: the newest of them, in the order of their numbers
        self.purged_infos_limit = 1000

    def tree(self, id):
        return self.docs[id].tree if id in self.docs else None

    # ---- documents

    def bulk(self, changes):
        """In the order listed: of each change its revision, or why it was refused."""
        return [self.attempt(change) for change in changes]

    def attempt(self, change):
        try:
            return self.edit(change) if isinstance(change, Edit) else self.merge(change)
        except Refused as refusal:
            return refusal
        except trees.BadHistory:
            return Refused(BAD_HISTORY)

    def edit(self, edit):
        parent = self.parent_for(edit)
        rev = revisions.child(parent, edit.deleted, edit.body)
        if rev[0] > revisions.LAST_GENERATION:
            raise Refused(GENERATION)
        path = [rev] if parent is None else [rev, parent]
        self.store(edit.id, path, edit.body, edit.deleted)
        return rev

    def parent_for(self, edit):
        """What an edit becomes the child of."""
        tree = self.tree(edit.id)
        if tree is None:
            if edit.deleted:
                raise Refused(MISSING)
            if edit.named is not None:
                raise Refused(CONFLICT)
            return None
        if edit.named is not None:
            if edit.named not in trees.leaves(tree):
                raise Refused(CONFLICT)
            return edit.named
        best = trees.winner(tree)
        if not tree[best].deleted:
            raise Refused(CONFLICT)
        if edit.deleted:
            raise Refused(DELETED)
        return best

    def merge(self, merge):
        self.store(merge.id, merge.path, merge.body, merge.deleted)
        return merge.path[0]

    def store(self, id, path, body, deleted):
        """Grafts and stems. A record that is as it was takes no update number."""
        before = self.tree(id)
        after = trees.stem(trees.graft(before or {}, path, body, deleted), self.revs_limit)
        if after != before:
            self.update_seq += 1
            self.docs[id] = Record(after, self.update_seq)

    # ---- purges and compactions

    def purge(self, asked):
        """In the order of the identities: of each document asked for, the leaves removed."""
        return {id: self.purge_document(id, asked[id]) for id in sorted(asked)}

    def purge_document(self, id, named):
        """A document that loses a leaf takes a purge number, and an update number where a leaf is left; else it is gone."""
        removed, left = trees.cut(self.tree(id) or {}, named)
        if removed:
            self.purge_seq += 1
            self.purged_infos.append(PurgedInfo(self.purge_seq, id, removed))
            self.cut_log()
            if left:
                self.update_seq += 1
                self.docs[id] = Record(left, self.update_seq)
            else:
                del self.docs[id]
        return removed

    def set_purged_infos_limit(self, limit):
        """The log is cut at once, and under a higher limit gets nothing back. Takes no number."""
        self.purged_infos_limit = limit
        self.cut_log()

    def cut_log(self):
        del self.purged_infos[: -self.purged_infos_limit]

    def is_overrun(self, mark):
        """Whether a purge number above the mark was given and is no longer in the log."""
        kept = {info.seq for info in self.purged_infos}
        return any(number not in kept for number in range(mark + 1, self.purge_seq + 1))

    def compact(self):
        """Takes no number."""
        for record in self.docs.values():
            record.tree = trees.strip(record.tree)

    # ---- local documents

    def write_local(self, id, named, body):
        """The number of the local revision, 0 for a deletion, which has no body."""
        present = self.locals.get(id)
        if present is None:
            if body is None:
                raise Refused(MISSING)
            if named is not None:
                raise Refused(CONFLICT)
            self.locals[id] = Local(1, body)
            return 1
        if named != present.number:
            raise Refused(CONFLICT)
        if body is None:
            del self.locals[id]
            return 0
        if present.number == revisions.LAST_GENERATION:
            raise Refused(GENERATION)
        self.locals[id] = Local(present.number + 1, body)
        return present.number + 1


class Session:
    """One session over a database, an empty one if none is given: each command has the next place, a query the place of the last
    command."""

    def __init__(self, database=None):
        self.database = Database() if database is None else database
        self.place = 0

    def bulk(self, changes, merged=False):
        self.place += 1
        return self.database.bulk(changes)

    def set_limit(self, limit):
        self.place += 1
        self.database.revs_limit = limit

    def set_purged_infos_limit(self, limit):
        self.place += 1
        self.database.set_purged_infos_limit(limit)

    def purge(self, asked):
        """Of each document asked for, the leaves removed."""
        self.place += 1
        return self.database.purge(asked)

    def compact(self):
        self.place += 1
        self.database.compact()

    def write_local(self, id, named, body):
        self.place += 1
        return self.database.write_local(id, named, body)
