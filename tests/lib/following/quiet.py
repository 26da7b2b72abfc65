"""Clients that wait for some documents while others change, and for any."""
import select

from .clients import target

OTHERS = 300  # documents that are written meanwhile
IDLE = 1.5  # seconds in which nothing is written
SOON = 0.2  # seconds in which a change would come


class Quiet:
    """Waits at a server whose only writer this is, so that its place is the update number."""

    def __init__(self, connect, check):
        self.connect, self.check = connect, check
        self.writer = connect()
        self.revisions = {}
        self.waiting = []  # connections that nothing is due to

    def write(self, id, method="PUT"):
        """Writes a document, and answers its row."""
        parent = self.revisions.get(id)
        at = "/db/" + id + ("" if parent is None else "?rev=" + parent)
        status, value = self.writer.ask(method, at, {"n": self.writer.place})
        self.check(status in (200, 201), "%d, %r for a write of %s", status, value, id)
        self.revisions[id] = value["rev"]
        row = {"changes": [{"rev": value["rev"]}], "id": id, "seq": self.writer.place}
        return dict(row, deleted=True) if method == "DELETE" else row

    def asked(self, feed, since, *ids):
        """A connection that asked for changes of these documents, or of any, and waits."""
        connection = self.connect()
        if ids:
            connection.send("POST", target(feed, since, None), {"doc_ids": list(ids)})
        else:
            connection.send("GET", "/db/_changes?feed=%s&since=%s" % (feed, since))
        if feed == "continuous":
            status, _ = connection.head()
            self.check(
                (status, connection.place) == (200, self.writer.place), "a feed begins at %d with %d", connection.place, status
            )
        self.waiting.append(connection)
        return connection

    def nothing_comes(self, seconds, text):
        ready, _, _ = select.select([connection.socket for connection in self.waiting], [], [], seconds)
        early = any(connection.rest for connection in self.waiting)
        self.check(
            not ready and not early, "%d of %d who wait for others get something when %s", len(ready), len(self.waiting), text
        )

    def run(self):
        """A poll and a feed wait for a document, one of each for none that is there, and a poll for any."""
        for id in "abc":
            self.write(id)
        first = self.asked("longpoll", 3)
        poll, feed = self.asked("longpoll", 3, "b", "zz", "b"), self.asked("continuous", 3, "zz", "b")
        self.asked("longpoll", "now", "zz", "x" * 513, "")
        self.asked("continuous", "now", "zz")
        self.nothing_comes(IDLE, "nothing is written")
        self.ends(first, self.write("first"))
        for number in range(OTHERS):
            self.write("other-%d" % number)
        for id in "ac":
            self.write(id)
        self.nothing_comes(SOON, "others are written")
        self.change_comes(poll, feed)
        for connection in self.waiting + [first, poll, self.writer]:
            connection.close()

    def ends(self, poll, row):
        """A poll that was asked before the write of this row is answered by it."""
        self.waiting.remove(poll)
        status, page = poll.answer()
        wanted = {"last_seq": row["seq"], "pending": 0, "results": [row]}
        self.check(
            (status, page, poll.place) == (200, wanted, row["seq"]), "a poll is answered %d, %r at %d", status, page, poll.place
        )

    def change_comes(self, poll, feed):
        """What is written of the document comes at once, to a poll once."""
        row = self.write("b")
        self.ends(poll, row)
        line = feed.line()
        self.check(line == row, "a feed has %r in place of %r", line, row)
        self.write("c")
        self.nothing_comes(SOON, "another one is written")
        row, line = self.write("b", "DELETE"), feed.line()
        self.check(line == row, "a feed has %r in place of %r", line, row)
        self.nothing_comes(SOON, "all has come")
