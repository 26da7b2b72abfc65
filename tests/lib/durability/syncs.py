"""When writes are appended and synced, and when they are answered, by the log of what a server did to its files."""
import os
import threading
import time

from lib.disks import Disk, Times, read_log
from lib.durability.given import LAG, POLICIES
from lib.journals import name_of, put

SECONDS = 2.2  # that clients write: two syncs of `second`
DELAY = 0.3  # of a slow sync


def syncs(given):
    for policy in POLICIES:
        answered_when_due(given, policy)
        whole_at_the_end(given, policy)
    shown_when_kept(given)


class Answers(threading.Thread):
    """Writes new documents one after another for some time, and keeps what was answered when."""

    def __init__(self, server, name):
        super().__init__()
        self.connection, self.label, self.found = server.connect(), name, []

    def run(self):
        end, number = time.monotonic() + SECONDS, 0
        while time.monotonic() < end:
            for id in put(self.connection, "%s-%d-" % (self.label, number), 1):
                self.found.append((time.monotonic(), id))
            number += 1


def answered_when_due(given, policy):
    """Each answered write was appended before. With `always` a good sync covers it by then, with `second` one follows in time.
    With each policy a sync covers the first number before any is shown, and with `never` there is no other."""
    with given.room() as room, room.serve(policy, "--workers", "8", env=room.environment()) as server:
        clients = [Answers(server, "c%d" % at) for at in range(4)]
        for client in clients:
            client.start()
        for client in clients:
            client.join()
        time.sleep(LAG)
        server.stop()
        times = Times(read_log(room.log), room.folder).of(name_of(1))
    answers, ends = sorted(answer for client in clients for answer in client.found), times.ends()
    given.check(len(answers) > 20, "%s: only %d writes were answered", policy, len(answers))
    first = times.synced.at(min(ends.values(), default=0))
    shown = answers[0][0]
    given.check(
        first is not None and first <= shown,
        "%s: a number was shown at %.3f, and the first was synced at %s",
        policy,
        shown,
        first,
    )
    for at, id in answers:
        length = ends.get(id.encode(), len(times.file.data) + 1)
        appended, synced = times.appended.at(length), times.synced.at(length)
        given.check(appended is not None and appended <= at, "%s: a write was answered before it was appended", policy)
        by = {"always": at, "second": (appended or at) + LAG}.get(policy)
        is_right = by is None or (synced is not None and synced <= by)
        given.check(is_right, "%s: a write that was answered at %.3f was synced at %s", policy, at, synced)
    check_count(given, policy, len(times.synced.times))


def check_count(given, policy, found):
    """There are as few syncs as the policy has: of the first line, of the first number, and with `second` one a second."""
    most = {"always": None, "second": 4 + SECONDS + LAG, "never": 2}[policy]
    given.check(most is None or found <= most, "%s: %d syncs", policy, found)


def whole_at_the_end(given, policy):
    """When the file of an epoch gets its name, it has its first line on the disk, and all of the epoch before is there."""
    with given.room() as room:
        with room.serve(policy, "--max-places", "40", env=room.environment()) as server:
            put_over_epochs(server, 130)
        disk, begun = Disk(room.folder), 0
        for record in read_log(room.log):
            disk.take(record)
            to = os.path.basename(record.paths()[-1]) if record.op == "rename" else ""
            if not to.endswith(".dump"):
                continue
            begun += 1
            given.check(disk.names[to].synced.endswith(b"}\n"), "%s: %s gets its name before it is synced", policy, to)
            before = disk.names.get(name_of(int(to[:10]) - 1))
            given.check(before is None or before.synced == before.data, "%s: the file before %s isn't synced", policy, to)
            given.check(before is None or before.data.count(b"\n") == 41, "%s: the file before %s isn't whole", policy, to)
        given.check(begun >= 3, "%s: %d epochs began", policy, begun)


def put_over_epochs(server, count):
    """Writes until so many writes were answered, over as many connections as that takes."""
    answered, number, connection = 0, 0, server.connect()
    while answered < count:
        number += 1
        try:
            answered += len(put(connection, "d%d-" % number, 1))
        except (OSError, EOFError):
            connection = server.connect()


def shown_when_kept(given):
    """With `always` nothing is shown, by a document or by a feed, before a sync covers it."""
    with given.room() as room, room.serve("always", env=room.environment(delay=DELAY)) as server:
        put(server.connect(), "before", 1)
        writer, readers = server.connect(), [(target, server.connect()) for target in ("/db/early", "/db/_changes", "/db")]
        writer.send("PUT", "/db/early", {})
        time.sleep(DELAY / 2)
        shown = []
        for target, reader in readers:
            _, value = reader.ask("GET", target)
            shown.append(
                (time.monotonic(), target, value.get("_rev") or value.get("last_seq", 0) > 1 or value.get("update_seq", 0) > 1)
            )
        given.check(writer.answer()[0] == 201, "no answer to a write whose sync is slow")
        server.stop()
        times = Times(read_log(room.log), room.folder).of(name_of(1))
    synced = times.synced.at(times.ends()[b"early"])
    for at, target, is_shown in shown:
        given.check(not is_shown or (synced is not None and synced <= at), "%s shows a write before the disk has it", target)
