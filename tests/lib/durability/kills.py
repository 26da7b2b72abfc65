"""The end of the process, by each signal: nothing that was answered is lost, and no number is given twice."""
import signal
import time

from lib.durability.given import POLICIES
from lib.journals import RAISE, ids_since, lacks, neighbours, put
from lib.ledgers import Clients, Ledger, look

WRITERS = 8
ONCE = {"always": 4, "second": 20, "never": 8}  # runs of one write and a signal at once
SIGNALS = signal.SIGTERM, signal.SIGINT, signal.SIGHUP


def kills(given):
    heed_signals()
    for policy in POLICIES:
        for options in ((), ("--max-places", "300")):
            at_random(given, policy, options)
        for by in SIGNALS:
            at_once(given, policy, by)


def heed_signals():
    """A shell has what it runs in the background ignore some signals, and what that starts ignores them too: they end a server again."""
    for by in SIGNALS:
        if signal.getsignal(by) == signal.SIG_IGN:
            signal.signal(by, signal.SIG_DFL)


def at_random(given, policy, options):
    """The server is killed at random moments under clients with all kinds of writes."""
    ledger, shown, answered, cut_starts = Ledger(), 0, 0, 0
    with given.room() as room:
        for number in range(4 * given.rounds):
            with room.serve(policy, "--workers", "12", *options) as server:
                given.check(server.port is not None, "%s: no start after a kill: %s", policy, server.reported())
                if server.port is None:
                    return
                if number:
                    most = RAISE * (1 + cut_starts) if not options else 100 * RAISE
                    check_start(given, policy, server, ledger, ended, (shown, most))
                clients = Clients(server.port, ledger, "k%d" % number, WRITERS)
                time.sleep(given.dice.uniform(0.05, 0.8))
                clients.stop()
                server.stop(given.dice.choice([signal.SIGKILL, signal.SIGKILL, signal.SIGTERM]))
                ended = time.monotonic()
                clients.join()
            answered += ledger.count()
            shown = max(shown, clients.reader.shown_by(ended))
            given.check(clients.refusals() <= {"full"}, "%s: writes are refused as %r", policy, clients.refusals())
            given.check(set(write.status for write in ledger.writes) <= {200, 201, None}, "%s: a write was refused", policy)
            if given.dice.random() < 0.3:
                cut_starts += 1
                killed_in_its_start(given, room, policy)
        found = neighbours(given.replay, room.folder)
        given.check(found and None not in found, "%s: files don't go on from those before: %r", policy, found)
        given.check(options or sum(found) <= cut_starts, "%s: numbers are raised behind kills: %r", policy, found)
    given.check(answered > 30 * given.rounds, "%s: only %d writes were answered", policy, answered)


def killed_in_its_start(given, room, policy):
    with room.serve(policy, seconds=given.dice.uniform(0, 0.05)):
        pass


def check_start(given, policy, server, ledger, ended, bounds):
    """All that was answered is there and nothing else, and the numbers go on where they were, or raised where the end came
    between a file and its mark."""
    connection = server.connect()
    seen = look(connection, ledger)
    wrong, lost = ledger.check(seen, ended)
    given.check(not wrong, "%s: after a kill %s", policy, wrong[:2])
    given.check(
        not lost, "%s: after a kill %d answered writes are lost, as %s", policy, len(lost), [list(one.states) for one in lost[:1]]
    )
    number = connection.ask("GET", "/db")[1]["update_seq"]
    shown, most = bounds
    given.check(shown <= number < most, "%s: after a kill the numbers go on from %d, where %d was shown", policy, number, shown)
    ledger.settle(seen)
    ledger.states = {key: states for key, states in ledger.states.items() if states[0][1] is not None}


def at_once(given, policy, by):
    """A write behind another one, and at once a signal: both are there."""
    lost = 0
    for number in range(ONCE[policy] * given.rounds):
        with given.room() as room:
            with room.serve(policy) as server:
                told = put(server.connect(), "a", 2)
                server.stop(by)
                given.check(len(told) == 2, "%s: a write isn't answered", policy)
            with room.serve(policy) as server:
                connection = server.connect()
                lost += bool(lacks(connection, told))
                put(connection, "b", 1)
                given.check(ids_since(connection, 2) == ["b0"], "%s: a follower misses a write after %s", policy, by.name)
    given.check(lost == 0, "%s: %s loses an answered write in %d of %d runs", policy, by.name, lost, ONCE[policy] * given.rounds)
