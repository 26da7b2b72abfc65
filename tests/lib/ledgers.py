"""What clients sent and what they were answered, and whether a server that began anew holds all of that."""
import random
import threading
import time
from typing import NamedTuple

from reference import revisions
from reference.json_profile import Body

from .server import Connection


class Write:
    """A write, which gives each of its keys a state: the revision of a document, or of a local one."""

    def __init__(self, writer, states):
        self.writer, self.states = writer, states
        self.sent, self.answered, self.status = time.monotonic(), None, None

    def is_answered_by(self, at):
        return self.answered is not None and self.answered <= at


class Ledger:
    """Of each key the states that it got, in order, each with its write. A key belongs to one writer, and has no state twice."""

    def __init__(self):
        self.lock = threading.Lock()
        self.states = {}  # key: [(write, state)], from what is there without one
        self.writes = []

    def begin(self, write):
        with self.lock:
            self.writes.append(write)
            for key, state in write.states.items():
                self.states.setdefault(key, [(None, None)]).append((write, state))

    def drop(self, write):
        """It had no effect."""
        with self.lock:
            self.writes.remove(write)
            for key in write.states:
                self.states[key] = [pair for pair in self.states[key] if pair[0] is not write]

    def count(self):
        """How many writes were answered."""
        return sum(write.answered is not None for write in self.writes)

    def check(self, seen, at):
        """What is wrong with what was found after an end at this time; and the writes that were answered and are lost."""
        wrong, found = [], {}
        for key in seen.keys() - self.states.keys():
            wrong.append("%s was never written" % key)
        for key, states in self.states.items():
            index = next((place for place, (_, state) in enumerate(states) if state == seen.get(key)), None)
            if index is None or (index > 0 and states[index][0] is not None and states[index][0].sent > at):
                wrong.append("%s has %s, which it never had" % (key, seen.get(key)))
            found[key] = index or 0
        lost, gone = [], set()
        for write in self.writes:
            if write.sent > at:
                continue
            there = {found[key] >= self.place_of(key, write) for key in write.states}
            if len(there) == 2:
                wrong.append("a write of %s is there in part" % list(write.states))
            if there == {True} and write.writer in gone:
                wrong.append("%s is there, and something that was written before it isn't" % list(write.states))
            if there == {False} and write.is_answered_by(at):
                lost.append(write)
                gone.add(write.writer)
        return wrong, lost

    def place_of(self, key, write):
        return next(place for place, (one, _) in enumerate(self.states[key]) if one is write)

    def settle(self, seen):
        """Goes on from what a server has."""
        self.states = {key: [(None, seen.get(key))] for key in self.states}
        self.writes = []


def look(connection, ledger):
    """What a server has, as a ledger says it."""
    seen, since, page = {}, 0, {"pending": 1}
    while page["pending"]:
        _, page = connection.ask("GET", "/db/_changes?limit=5000&since=%d" % since)
        seen.update((row["id"], row["changes"][0]["rev"]) for row in page["results"])
        since = page["last_seq"]
    for key in ledger.states:
        if key.startswith("_local/"):
            status, value = connection.ask("GET", "/db/" + key)
            if status == 200:
                seen[key] = value["_rev"]
    return seen


class Request(NamedTuple):
    """A write as it is sent, and the state that each of its keys gets."""

    method: str
    target: str
    body: dict
    states: dict
    deletes: bool = False


class Writer(threading.Thread):
    """Writes documents of its own, one write after another, over as many connections as that takes, until it is stopped. A
    document that a write without an answer was about isn't written again."""

    def __init__(self, port, ledger, name, pause=0):
        super().__init__(daemon=True)
        self.port, self.ledger, self.label, self.pause = port, ledger, name, pause
        self.dice = random.Random(name)
        self.stopped = threading.Event()
        self.known = {}  # id: revision, of documents that are not deleted
        self.local = None  # a local document and its number
        self.count = 0
        self.refusals = []

    def run(self):
        while not self.stopped.is_set():
            try:
                connection = Connection(self.port)
                while not self.stopped.wait(self.pause):
                    self.write(connection)
            except (OSError, EOFError):
                time.sleep(0.002)

    def write(self, connection):
        request = self.dice.choice([self.new, self.new, self.next, self.next, self.delete, self.bulk, self.put_local])()
        write = Write(self.label, request.states)
        self.ledger.begin(write)
        known = {id: self.known.pop(id, None) for id in request.states}
        local, self.local = self.local, None
        status, value = connection.ask(request.method, request.target, request.body)
        if status == 503:
            self.refusals.append(value["reason"])
            if value["reason"] == "full":  # which changed nothing
                self.ledger.drop(write)
                self.known.update((id, rev) for id, rev in known.items() if rev is not None)
            return
        write.status, write.answered = status, time.monotonic()
        self.local = local
        for id, state in request.states.items():
            if id.startswith("_local/"):
                self.local = (id, int(state.removeprefix("0-")))
            elif not request.deletes:
                self.known[id] = state

    def next_count(self):
        self.count += 1
        return self.count

    def fresh(self, parent=None):
        """A body, and the revision that it gives over a parent."""
        body = {"n": self.next_count(), "pad": "x" * self.dice.randrange(200)}
        return body, revision(parent, body)

    def new_id(self):
        return "%s-%d" % (self.label, self.next_count())

    def new(self):
        id, (body, rev) = self.new_id(), self.fresh()
        return Request("PUT", "/db/" + id, body, {id: rev})

    def next(self):
        if not self.known:
            return self.new()
        id = self.dice.choice(list(self.known)[-20:])
        body, rev = self.fresh(self.known[id])
        return Request("PUT", "/db/%s?rev=%s" % (id, self.known[id]), body, {id: rev})

    def delete(self):
        if not self.known:
            return self.new()
        id = self.dice.choice(list(self.known))
        rev = revision(self.known[id], {}, True)
        return Request("DELETE", "/db/%s?rev=%s" % (id, self.known[id]), None, {id: rev}, True)

    def bulk(self):
        made = {self.new_id(): self.fresh() for _ in range(self.dice.randint(2, 5))}
        documents = [{"_id": id, **body} for id, (body, _) in made.items()]
        return Request("POST", "/db/_bulk_docs", {"docs": documents}, {id: rev for id, (_, rev) in made.items()})

    def put_local(self):
        id, number = self.local or ("_local/" + self.new_id(), 0)
        body = {"_rev": "0-%d" % number} if number else {}
        return Request("PUT", "/db/" + id, body, {id: "0-%d" % (number + 1)})


def revision(parent, body, deleted=False):
    """The revision that a body gives over a parent."""
    over = None if parent is None else revisions.parse(parent)
    return revisions.text(revisions.child(over, deleted, Body(body)))


class Reader(threading.Thread):
    """Looks at the feed all the time, and keeps the number that it was shown each time."""

    def __init__(self, port):
        super().__init__(daemon=True)
        self.port, self.stopped = port, threading.Event()
        self.shown = [(0, 0)]  # (time, number)

    def run(self):
        while not self.stopped.is_set():
            try:
                connection = Connection(self.port)
                while not self.stopped.is_set():
                    status, page = connection.ask("GET", "/db/_changes?limit=100&since=%d" % self.shown[-1][1])
                    if status == 200:
                        self.shown.append((time.monotonic(), page["last_seq"]))
                    time.sleep(0.001)
            except (OSError, EOFError):
                time.sleep(0.002)

    def shown_by(self, at):
        """The largest number that was shown up to a time."""
        return max(number for time, number in self.shown if time <= at)


class Clients:
    """Writers and a reader, who work until they are stopped."""

    def __init__(self, port, ledger, name, count, pause=0):
        self.writers = [Writer(port, ledger, "%s-%d" % (name, at), pause) for at in range(count)]
        self.reader = Reader(port)
        for one in [*self.writers, self.reader]:
            one.start()

    def stop(self):
        """None of them asks again."""
        for one in [*self.writers, self.reader]:
            one.stopped.set()

    def join(self):
        for one in [*self.writers, self.reader]:
            one.join()

    def refusals(self):
        return {reason for writer in self.writers for reason in writer.refusals}
