"""What comes of compactions that are made by slices, beside commands.

A copy has no records here: it is what is left to be sliced and the marks up to which it has come, and its end is a compaction in
one step. So what it leaves is right whatever fell between its slices.
"""
from .versions import History, content, touched


class Copy:
    """A compaction that has begun at a database."""

    def __init__(self, database):
        self.left = len(database.docs)
        self.update_mark, self.purge_mark = database.update_seq, database.purge_seq

    def slice(self, n):
        """How many records are stripped."""
        stripped = min(n, self.left)
        self.left -= stripped
        return stripped

    def touched(self, database):
        """What is to be taken over: None where the log no longer has it."""
        return touched(database, self.update_mark, self.purge_mark)

    def pass_first(self, n, purges, updates):
        """Each mark moves to the last of its kind that is passed, purges before updates."""
        passed_purges, passed_updates = purges[:n], updates[: max(n - len(purges), 0)]
        if passed_purges:
            self.purge_mark = passed_purges[-1][0]
        if passed_updates:
            self.update_mark = passed_updates[-1][0]
        return len(passed_purges) + len(passed_updates)


class Copies:
    """Two copies over one history, of the sessions 1 and 2."""

    def __init__(self, history):
        self.history = history
        self.copies = {"first": (1, Copy(history.database)), "second": (2, Copy(history.database))}

    def result(self, statement):
        name, *words = statement.split()
        if name == "reopen":
            return self.history.reopen()
        if name not in self.copies:
            return self.history.write(0, [name, *words])
        deed, n = words
        return getattr(self, deed)(*self.copies[name], int(n))

    def slice(self, _session, copy, n):
        visited = copy.slice(n)
        return "%d left, %d visited" % (copy.left, visited)

    def catch_up(self, _session, copy, n):
        assert copy.left == 0
        found = copy.touched(self.history.database)
        if found is None:
            return "overrun"
        visited = copy.pass_first(n, *found)
        return "%d left, %d visited" % (sum(map(len, found)) - visited, visited)

    def finish(self, session, copy, slack):
        assert copy.left == 0
        found = copy.touched(self.history.database)
        if found is None:
            return "overrun"
        if sum(map(len, found)) > slack:
            return "behind"
        self.history.write(session, ["compact"])
        return "place %d, %d visited" % (self.history.place(), sum(map(len, found)))


def results(statements):
    """What comes of each statement, and what there is at the end. Both copies begin at the bar."""
    history, bar = History(), statements.index("|")
    for statement in statements[:bar]:
        yield history.write(0, statement.split())
    copies = Copies(history)
    for statement in statements[bar + 1 :]:
        yield copies.result(statement)
    yield content(history.database)
