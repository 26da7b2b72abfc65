"""What the events of an interleaving complete: jobs that wait, a batch, the view of each session, and one compaction.

An event whose condition fails, or whose session there is not, does nothing.
"""
from .bases import successor
from .copies import Copy
from .versions import History, content, query_text

SESSIONS, QUEUE, GATHER, SLACK, MAX_PLACES = 3, 4, 4, 0, 100


class World:
    """From an empty database if none is given."""

    def __init__(self, database=None):
        self.history = History(database)
        self.databases = [self.history.database]  # at each place
        self.waiting = []  # each with its session
        self.batch = []
        self.views = {session: 0 for session in range(SESSIONS)}  # places
        self.open = set()  # the sessions with a call that goes on
        self.copy = self.compacting = None
        self.completed = []

    def is_free(self, session):
        return session in self.views and session not in self.open

    def write(self, session, words):
        """An entry, and the call that it completes."""
        call = self.history.next_call(session)
        reply = self.history.write(session, words)
        self.databases.append(self.history.database)
        self.completed.append("%d %d at %d %s" % (session, call, self.history.place(), reply))

    def free(self, *sessions):
        """Their calls are completed: each sees the last place."""
        for session in sessions:
            self.open.remove(session)
            self.views[session] = self.history.place()

    # ---- jobs

    def ask(self, session, *words):
        session = int(session)
        if self.is_free(session) and words[0] != "compact" and len(self.waiting) < QUEUE:
            self.waiting.append((session, words))
            self.open.add(session)

    def take(self, n):
        if not self.batch:
            size = min(int(n), GATHER)
            self.batch, self.waiting = self.waiting[:size], self.waiting[size:]

    def put(self):
        if self.batch and self.history.place() + len(self.batch) <= MAX_PLACES:
            for session, words in self.batch:
                self.write(session, words)
            self.free(*(session for session, _ in self.batch))
            self.batch = []

    def give_up(self):
        for session, _ in self.batch:
            self.open.remove(session)
        self.batch = []

    # ---- reads

    def look(self, session):
        if self.is_free(int(session)):
            self.views[int(session)] = self.history.place()

    def read(self, session, *words):
        session = int(session)
        if self.is_free(session):
            place = self.views[session]
            self.completed.append("%d at %d %s" % (session, place, query_text(self.databases[place], *words)))

    # ---- a compaction

    def start(self, session):
        session = int(session)
        if self.copy is None and self.is_free(session):
            self.copy, self.compacting = Copy(self.history.database), session
            self.open.add(session)

    def slice(self, n):
        if self.copy is not None:
            self.copy.slice(int(n))

    def touched(self):
        """What the sliced copy is to take over; where the log no longer has it, the compaction ends."""
        if self.copy is None or self.copy.left > 0:
            return None
        found = self.copy.touched(self.history.database)
        if found is None:
            self.abort()
        return found

    def catch_up(self, n):
        found = self.touched()
        if found is not None:
            self.copy.pass_first(int(n), *found)

    def swap(self):
        found = self.touched() if self.history.place() < MAX_PLACES else None
        if found is not None and sum(map(len, found)) <= SLACK:
            self.write(self.compacting, ["compact"])
            self.free(self.compacting)
            self.copy = None

    def abort(self):
        if self.copy is not None:
            self.open.remove(self.compacting)
            self.copy = None


def results(statements):
    """The completed calls, how many entries there are, and what the database has."""
    return results_of(World(), statements)


def results_after(statements):
    """What each command in front of the bar is answered, and then what the events behind it do in a world that begins from the
    successor of what the commands leave."""
    history, bar = History(), statements.index("|")
    replies = [history.write(0, statement.split()) for statement in statements[:bar]]
    return replies + results_of(World(successor(history.database)), statements[bar + 1 :])


def results_of(world, statements):
    for statement in statements:
        name, *words = statement.split()
        getattr(world, name)(*words)
    return [*world.completed, "place %d" % world.history.place(), content(world.history.database)]
