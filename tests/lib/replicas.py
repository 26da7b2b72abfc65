"""Servers as the ends of replications: what is written to them, what they hold, and what a run between them reports."""
import json
import re
from urllib.parse import quote

from .ends import replicate
from .server import Connection, Server

A, B, C = [digit * 32 for digit in "abc"]  # hashes of revisions

# what is reported of a replication that is done
DONE = re.compile(r"documents read (\d+), written (\d+): done\n")


class End(Server):
    """A running server, one connection to it, and what counts the checks of it."""

    def __init__(self, checks, program):
        super().__init__(program, "--workers", "3")
        self.check = checks.check
        self.connection = Connection(self.port)

    def stop(self, *by):
        self.connection.close()
        super().stop(*by)

    def ask(self, method, target, body=None):
        """The status and the value of the response to a request."""
        return self.connection.ask(method, target, body)

    def place(self):
        """How many entries the history has."""
        self.ask("GET", "/db")
        return self.connection.place

    def leaves(self, id):
        """Each leaf with its path, whether it is deleted, and its body; and the winner."""
        leaves = self.ask("GET", "/db/%s?open_revs=all&revs=true" % id)[1]
        winner = self.ask("GET", "/db/%s" % id)[1]
        return sorted(json.dumps(leaf, sort_keys=True) for leaf in leaves), winner.get("_rev", winner.get("reason"))

    def live(self, id):
        """The revisions of the leaves that are not deleted."""
        _, leaves = self.ask("GET", "/db/%s?open_revs=all" % id)
        return [leaf["ok"]["_rev"] for leaf in leaves if isinstance(leaf, dict) and "ok" in leaf and "_deleted" not in leaf["ok"]]


def reported(read, written, ending):
    return "documents read %d, written %d: %s\n" % (read, written, ending)


def document(id, *path):
    """A document with its path, as it goes to a replica."""
    start = int(path[0].split("-")[0])
    return {"_id": id, "_revisions": {"start": start, "ids": [rev.split("-")[1] for rev in path]}}


def conflict(server, id="d"):
    """Two leaves over one parent."""
    one, other = document(id, "2-" + B, "1-" + A), document(id, "2-" + C, "1-" + A)
    server.check(
        server.ask("POST", "/db/_bulk_docs", {"docs": [one, other], "new_edits": False}) == (201, []), "no conflict is made"
    )


def has_conflict(server, id="d"):
    leaves, winner = server.leaves(id)
    wanted = [{"ok": {"_id": id, "_rev": "2-" + hash, "_revisions": {"ids": [hash, A], "start": 2}}} for hash in (B, C)]
    server.check(leaves == sorted(json.dumps(leaf, sort_keys=True) for leaf in wanted), "leaves %r", leaves)
    server.check(winner == "2-" + C, "the winner is %r", winner)


def checkpoint(server, id):
    """The revision and the number of a checkpoint, if there is one."""
    status, value = server.ask("GET", "/db/_local/" + id)
    return None if status == 404 else (value["_rev"], value["last_seq"])


def checkpoints_are(source, target, id, of_source, of_target):
    source.check(checkpoint(source, id) == of_source, "the source's checkpoint is %r", checkpoint(source, id))
    target.check(checkpoint(target, id) == of_target, "the target's checkpoint is %r", checkpoint(target, id))


def ran_as(checks, ran, status, text):
    checks.check(ran[:2] == (status, text), "status %d, %r in place of %d, %r", ran.status, ran.output, status, text)
    checks.check(ran.errors == "", "standard error %r", ran.errors)


def as_list(ids):
    """The ids as the program takes a list of them."""
    return ",".join(quote(id, safe="") for id in ids)


def put(server, *ids):
    for id in ids:
        server.check(server.ask("PUT", "/db/" + quote(id, safe=""), {})[0] == 201, "%s isn't made", id)


def has_documents(server, *ids):
    _, listed = server.ask("GET", "/db/_all_docs")
    found = [row["id"] for row in listed["rows"]]
    server.check(found == sorted(ids, key=str.encode), "the documents %r in place of %r", found, ids)


def counts(checks, ran):
    """How many documents a run that is done read and wrote."""
    done = DONE.fullmatch(ran[1]) if ran[0] == 0 else None
    checks.check(done is not None, "a replication ends with %r", ran)
    return [int(count) for count in done.groups()] if done else [0, 0]


def edit(server, dice, ids):
    """One write: a new document, a change of the winner or of a conflict, a deletion, or a conflict more. Nobody else writes to
    the server meanwhile, so each must succeed."""
    id = dice.choice(ids)
    live = server.live(id)
    parent = dice.choice(live) if live else None
    kind = dice.random()
    if kind < 0.15 and parent is not None:
        status, value = server.ask("DELETE", "/db/%s?rev=%s" % (id, parent))
        server.check(status == 200, "%d, %r for a deletion", status, value)
    elif kind < 0.35:
        rev = "%d-%032x" % (dice.randrange(1, 4), dice.getrandbits(128))
        document = {"_id": id, "_rev": rev, "n": dice.random().hex()}
        status, value = server.ask("POST", "/db/_bulk_docs", {"docs": [document], "new_edits": False})
        server.check((status, value) == (201, []), "%d, %r for a merge", status, value)
    else:
        target = "/db/%s" % id + ("?rev=" + parent if parent else "")
        status, value = server.ask("PUT", target, {"n": dice.random().hex()})
        server.check(status == 201, "%d, %r for a PUT", status, value)


def settle(program, one, other, seed):
    """Replicates in both directions until neither writes."""
    for _ in range(4):
        there = replicate(program, one.port, other.port, "there")
        back = replicate(program, other.port, one.port, "back")
        if (there[0], back[0]) != (0, 0):
            one.check(False, "a replication ends with %r, %r", there, back)
            return
        if there[1] == back[1] == reported(0, 0, "done"):
            return
    one.check(False, "replications of seed %d don't come to an end", seed)
