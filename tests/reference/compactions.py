"""A second reading of a compaction in slices: a copy, beside which the database goes on."""
from .trees import strip


class Overrun(Exception):
    """The log of purges no longer reaches the mark."""


class Behind(Exception):
    """More is touched than the last step may take over."""


class Compaction:
    """The strips of the records that there were at the start, and what it took over since."""

    def __init__(self, database):
        self.pinned = {id: (record.tree, record.seq) for id, record in database.docs.items()}
        self.copy = {}
        self.update_mark = database.update_seq
        self.purge_mark = database.purge_seq

    def slice(self, most):
        """Strips the next records by their ids; how many are left."""
        for id in sorted(self.pinned)[:most]:
            tree, seq = self.pinned.pop(id)
            self.copy[id] = (strip(tree), seq)
        return len(self.pinned)

    def touched(self, database):
        """The purges above the mark, then the updated documents: a number and an id each."""
        if database.is_overrun(self.purge_mark):
            raise Overrun()
        purges = [(info.seq, info.id) for info in database.purged_infos if info.seq > self.purge_mark]
        updates = [(record.seq, id) for id, record in database.docs.items() if record.seq > self.update_mark]
        return purges, sorted(updates)

    def catch_up(self, database, most):
        """Takes over the first that are touched; how many are left."""
        purges, updates = self.touched(database)
        passed_purges = purges[:most]
        passed_updates = updates[: most - len(passed_purges)]
        for _, id in passed_purges + passed_updates:
            self.take_over(database, id)
        self.purge_mark = max([self.purge_mark] + [seq for seq, _ in passed_purges])
        self.update_mark = max([self.update_mark] + [seq for seq, _ in passed_updates])
        return len(purges) + len(updates) - len(passed_purges) - len(passed_updates)

    def take_over(self, database, id):
        self.copy.pop(id, None)
        if id in database.docs:
            self.copy[id] = (strip(database.tree(id)), database.docs[id].seq)

    def finish(self, database, slack):
        """The records of the compacted database: of each id its tree and its number."""
        purges, updates = self.touched(database)
        if len(purges) + len(updates) > slack:
            raise Behind()
        self.catch_up(database, slack)
        return self.copy
