"""Histories that go on from one another: which follows which, and what stays right across the end of one."""
from .bases import first_line, is_same, successor
from .database import Database
from .history import line, read_entry, replay, reply_to


class Chronicle:
    """A history as a value: the base that is named, or None, and the lines of its entries."""

    def __init__(self, base=None, lines=()):
        self.base = base
        self.lines = tuple(lines)

    def begins(self):
        return Database() if self.base is None else successor(self.base)

    def now(self):
        """The database at its end."""
        return replay(self.begins(), map(read_entry, self.lines))

    def next_call(self, session):
        return sum(read_entry(one)[2][0] == session for one in self.lines) + 1

    def written(self, session, command):
        """It with one more entry."""
        entry = line(command, reply_to(self.now(), command), [session, self.next_call(session)])
        return Chronicle(self.base, [*self.lines, entry])

    def opened(self):
        """The history without entries that begins from its last database."""
        return Chronicle(successor(self.now()))

    def dump(self):
        return first_line(self.base) + b"".join(self.lines)


def extends(later, earlier):
    """It begins with the other."""
    return first_line(later.base) == first_line(earlier.base) and later.lines[: len(earlier.lines)] == earlier.lines


def follows(later, earlier, versions):
    """It extends the other, or its base is the last database of one of these versions that follows the other."""
    reached = [later]
    for one in reached:
        if extends(one, earlier):
            return True
        if one.base is not None:
            reached += [version for version in versions if version not in reached and is_same(version.now(), one.base)]
    return False


def is_right(feed, since, cursor, database, row):
    """A feed has the row of each record with an update number above one number and at most the other."""
    due = {id: row(id, record) for id, record in database.docs.items() if since < record.seq <= cursor}
    return all(feed.get(id) == wanted for id, wanted in due.items())
