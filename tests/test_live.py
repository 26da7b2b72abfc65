"""Replicates three servers live to one another, kills them and cuts their connections meanwhile, and looks that all are equal.

    python3 tests/test_live.py [--seconds N] [--seed N] [COUCHD]

Each server keeps its history in a folder, and begins an epoch after some hundred entries. Between each two are two continuous
replications, through relays that end connections after a number of bytes at random, also in the midst of a request or an answer.
Writers edit the same documents on all three, and now and then a server is killed and started again. At the end all have the same
leaves and winners, and know each revision that was answered; then nobody writes any more, and each replication still runs.
"""
import os
import random
import signal
import socket
import subprocess
import sys
import tempfile
import threading
import time

from lib.checks import Checks
from lib.ends import replication
from lib.programs import SECONDS, arguments
from lib.server import Connection, Server

SERVERS = 3
PLACES = 400  # of an epoch
DOCUMENTS = 40  # and one more for each two seconds, so that no revision is stemmed
MOST_BYTES = 60_000  # of a connection that is cut
SETTLES = 150  # seconds at most until all are equal, which is more than the longest pause


def free_port():
    with socket.create_server(("127.0.0.1", 0)) as listener:
        return listener.getsockname()[1]


class Relay:
    """Passes connections on to a port, and ends each after a number of bytes at random, until it is told to cut no more."""

    def __init__(self, port, dice):
        self.server_port, self.dice, self.cuts = port, dice, True
        self.listener = socket.create_server(("127.0.0.1", 0))
        self.port = self.listener.getsockname()[1]
        threading.Thread(target=self.accept, daemon=True).start()

    def accept(self):
        while True:
            client, _ = self.listener.accept()
            try:
                server = socket.create_connection(("127.0.0.1", self.server_port))
            except OSError:
                client.close()
                continue
            room = [self.dice.randrange(MOST_BYTES)]
            for one, other in (client, server), (server, client):
                threading.Thread(target=self.pass_on, args=(one, other, room), daemon=True).start()

    def pass_on(self, one, other, room):
        try:
            while data := one.recv(65536):
                if self.cuts:
                    data, room[0] = data[: room[0]], max(0, room[0] - len(data))
                other.sendall(data)
                if self.cuts and not room[0]:
                    break
        except OSError:
            pass
        for end in one, other:
            try:
                end.shutdown(socket.SHUT_RDWR)
            except OSError:
                pass


class Node:
    """A server over a folder, on one port, that is killed and started again."""

    def __init__(self, program, dice):
        self.folder, self.port = tempfile.TemporaryDirectory(), free_port()
        self.program, self.server = program, None
        self.relay = Relay(self.port, dice)
        self.start()

    def start(self):
        options = ["--workers", "24", "--max-places", str(PLACES), "--keep", "3"]
        self.server = Server(self.program, *options, data=self.folder.name, port=self.port)

    def kill(self):
        self.server.stop()

    def ask(self, method, target, body=None):
        """The status and the value of a response; nothing where none comes."""
        try:
            connection = Connection(self.port)
            try:
                return connection.ask(method, target, body)
            finally:
                connection.close()
        except (OSError, EOFError, ValueError):
            return 0, None

    def surely(self, method, target, body=None):
        """The same, asked again while none comes, or where it can't be served now."""
        until = time.monotonic() + SECONDS
        while True:
            status, value = self.ask(method, target, body)
            if status not in (0, 503) or time.monotonic() > until:
                return status, value
            time.sleep(0.05)

    def epoch(self):
        """The number of the newest epoch."""
        return max(int(name.split(".")[0]) for name in os.listdir(self.folder.name) if name.endswith(".dump"))

    def state(self, ids):
        """The leaves of each document, and its winner."""
        found = {}
        for id in ids:
            _, leaves = self.surely("GET", "/db/%s?open_revs=all&revs=true" % id)
            _, winner = self.surely("GET", "/db/" + id)
            found[id] = sorted(map(repr, leaves)) if isinstance(leaves, list) else leaves, winner
        return found


def edit(node, ids, dice, known):
    """One write of a document, which may be lost with its server; what was answered is known from then on."""
    id = dice.choice(ids)
    _, document = node.ask("GET", "/db/" + id)
    target = "/db/" + id
    if document and "_rev" in document:
        target += "?rev=" + document["_rev"]
        if dice.random() < 0.1:
            status, value = node.ask("DELETE", target)
        else:
            status, value = node.ask("PUT", target, {"n": dice.randrange(1_000_000)})
    else:
        status, value = node.ask("PUT", target, {"n": dice.randrange(1_000_000)})
    if status in (200, 201):
        known.setdefault(id, []).append(value["rev"])


def disturbed(nodes, ids, dice, seconds, known):
    """Writes for so many seconds, while servers are killed and started again. How many were."""
    until, kills, down = time.monotonic() + seconds, 0, None
    next_kill = time.monotonic() + dice.uniform(2, 6)
    while time.monotonic() < until:
        edit(dice.choice(nodes), ids, dice, known)
        time.sleep(dice.uniform(0, 0.02))
        if time.monotonic() > next_kill:
            if down is None:
                down = dice.choice(nodes)
                down.kill()
                kills += 1
                next_kill = time.monotonic() + dice.uniform(0, 2)
            else:
                down.start()
                down = None
                next_kill = time.monotonic() + dice.uniform(2, 6)
    if down is not None:
        down.start()
    return kills


def settled(nodes, ids):
    """The states of all, when they are equal, or at the end of the time."""
    until = time.monotonic() + SETTLES
    while True:
        states = [node.state(ids) for node in nodes]
        if all(state == states[0] for state in states) or time.monotonic() > until:
            return states
        time.sleep(1)


def live(checks, program, seconds, seed):
    dice, known = random.Random(seed), {}
    ids = ["d%d" % number for number in range(DOCUMENTS + seconds // 2)]
    nodes = [Node(program, dice) for _ in range(SERVERS)]
    pairs = [(one, other) for one in nodes for other in nodes if one is not other]
    runs = []
    for one, other in pairs:
        command = replication(program, one.relay.port, other.relay.port, None, patience=20) + ["--continuous"]
        runs.append(subprocess.Popen(command, stdin=subprocess.DEVNULL, stdout=subprocess.PIPE, stderr=subprocess.DEVNULL))
    try:
        kills = disturbed(nodes, ids, dice, seconds, known)
        for node in nodes:
            node.relay.cuts = False
        states = settled(nodes, ids)
        for id in ids:
            found = [state[id] for state in states]
            checks.check(all(one == found[0] for one in found), "%s of seed %d: %r", id, seed, found)
        for number, node in enumerate(nodes):
            for id, revs in known.items():
                lacks = node.surely("POST", "/db/_revs_diff", {id: revs})
                checks.check(lacks == (200, {}), "server %d of seed %d lacks %r", number, seed, lacks)
        before = [node.surely("GET", "/db")[1]["update_seq"] for node in nodes]
        time.sleep(3)
        after = [node.surely("GET", "/db")[1]["update_seq"] for node in nodes]
        checks.check(before == after, "writes go round: %r, and later %r", before, after)
        for run in runs:
            checks.check(run.poll() is None, "a replication ended with status %r", run.poll())
        written = sum(map(len, known.values()))
        epochs = [node.epoch() for node in nodes]
        print(
            "live: %d writes in %d documents, %d kills, epochs %r, update numbers %r"
            % (written, len(known), kills, epochs, after)
        )
        checks.check(written > 0 and kills > 0, "%d writes, %d kills", written, kills)
        checks.check(min(epochs) > 1, "the epochs %r: none has ended", epochs)
    finally:
        for run in runs:
            run.send_signal(signal.SIGTERM)
            run.wait(SECONDS)
        for node in nodes:
            node.kill()
            node.folder.cleanup()


def main():
    checks = Checks()
    reader = arguments(__doc__, "couchd")
    reader.add_argument("--seconds", type=int, default=30)
    reader.add_argument("--seed", type=int, default=1)
    given = reader.parse_args()
    live(checks, given.couchd, given.seconds, given.seed)
    return checks.report()


if __name__ == "__main__":
    sys.exit(main())
