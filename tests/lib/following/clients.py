"""One client that writes as planned, and others that follow some documents meanwhile."""
import threading
import time

PAUSES = 40  # of the writer, in which the followers wait with nothing to look at
PAUSE = 0.02  # seconds

TARGET = "/db/_changes?filter=_doc_ids&feed=%s&since=%s"


def target(feed, since, limit):
    return TARGET % (feed, since) + ("" if limit is None else "&limit=%d" % limit)


def shown(ids):
    """The first of some ids, for the text of a failure."""
    return ", ".join(id[:9] for id in sorted(ids)[:9])


class Following:
    """The plan, how far its writes are, and how many clients came to its end. `connect` gives a new connection, and `check`
    counts."""

    def __init__(self, plan, connect, check):
        self.plan, self.connect, self.check = plan, connect, check
        self.begun = self.answered = 0  # writes that were sent, and that were answered
        self.polls = self.feeds = 0  # that were answered
        self.ended = 0  # clients that came to the end
        self.lock = threading.Lock()

    def count(self, name):
        with self.lock:
            setattr(self, name, getattr(self, name) + 1)

    def write(self):
        """Makes the writes, some of them after a pause."""
        connection = self.connect()
        for number in range(1, self.plan.last + 1):
            if number % (self.plan.last // PAUSES + 1) == 0:
                time.sleep(PAUSE)
            self.begun = number
            reply = connection.ask(*self.plan.requests[number])
            self.check(reply == self.plan.reply(number), "write %d is answered %r", number, reply)
            self.answered = number
        connection.close()

    # ---- long polls

    def poll(self, listed, since, limit):
        """Follows the listed documents by long polls, each answered with the page at its place, which has a row."""
        wanted, connection = set(listed), self.connect()
        while since == "now" or since < self.plan.last:
            answered = self.answered
            status, page = connection.ask("POST", target("longpoll", since, limit), {"doc_ids": listed})
            place = connection.place
            asked = "a poll of %s above %s, at most %s" % (shown(listed), since, limit)
            self.check(answered <= place <= self.begun, "%s is answered at %d, after %d writes were", asked, place, answered)
            is_page = status == 200 and any(
                page == self.plan.page(wanted, number, limit, place) for number in self.places_of(since, answered, place)
            )
            self.check(is_page, "%s is answered %d, %r at %d", asked, status, page, place)
            self.check(page["results"], "%s is answered at %d with no row", asked, place)
            since = page["last_seq"]
            self.count("polls")
        connection.close()
        self.count("ended")

    def places_of(self, since, answered, place):
        """The numbers that `since` may mean: `now` is that of what the request saw first."""
        return range(answered, place + 1) if since == "now" else [since]

    # ---- feeds that go on

    def feed(self, listed, since, limit):
        """Follows the listed documents by feeds, each of which ends behind so many rows, or is given up behind the last write."""
        wanted = set(listed)
        while since < self.plan.last:
            answered, connection = self.answered, self.connect()
            connection.send("POST", target("continuous", since, limit), {"doc_ids": listed})
            status, headers = connection.head()
            self.check((status, headers.get("Connection")) == (200, "close"), "%d, %r for a feed", status, headers)
            self.check(
                answered <= connection.place <= self.begun,
                "a feed begins at %d, after %d writes were answered",
                connection.place,
                answered,
            )
            since = self.take_rows(connection, wanted, since, limit)
            connection.close()
            self.count("feeds")
        self.count("ended")

    def take_rows(self, connection, wanted, since, limit):
        """Takes the rows of a feed, each the first of the wanted ones at a place that comes no earlier than that of the row
        before, and its last line. It answers the number of the last row."""
        least, rows = connection.place, 0
        while since < self.plan.last:
            line = connection.line()
            if rows == limit:
                self.last_line(connection, line, wanted, since, least)
                return since
            number = line.get("seq", 0) if line is not None else 0
            is_row = since < number <= self.plan.last and line == self.plan.rows[number] and line["id"] in wanted
            places = self.plan.places_of_row(wanted, since, number, least) if is_row else None
            if places is None:
                raise ValueError("a feed of %s above %d can't go on with %r" % (shown(wanted), since, line))
            least = places[0]
            self.check(least <= self.begun, "a feed has row %d after %d, before write %d was made", number, since, least)
            since, rows = number, rows + 1
        return since

    def last_line(self, connection, line, wanted, since, least):
        """A feed that gave as many rows as it was asked for says where it is and how many rows are left, and ends."""
        left = {len(self.plan.above(wanted, since, place)) for place in range(least, self.begun + 1)}
        is_last = (
            line is not None and set(line) == {"last_seq", "pending"} and line["last_seq"] == since and line["pending"] in left
        )
        self.check(is_last, "a feed ends behind row %d with %r, where %r may be left", since, line, sorted(left))
        self.check(connection.line() is None, "a feed goes on behind its last line")
