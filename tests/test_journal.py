"""Runs `couchd serve --data`, spoils its files, fills its disk and its history, and looks at what is left.

    python3 tests/test_journal.py [--long] [COUCHD [REPLAY]]

A disk that is full, also at a start, a folder that is only read, a file that is cut at each byte of its last two lines, a byte that is
changed at each place of a small file, two servers on one folder, a folder that can't be made, files of large numbers, waits in vain, and
what goes on over a start: documents, update numbers, purges, limits and local documents. At last full histories: how many files stay, a
next file that can't be made, and epochs of 1,000 places, one after another, under clients that write and follow. Each file of a folder is
audited by `replay check`. With `--long` each byte and 20 epochs, else some. What ends leave is looked at by `tests/test_durability.py`.
"""
import json
import os
import resource
import select
import shutil
import sys
import tempfile
import threading
import time

from lib.checks import Checks
from lib.ends import replicate
from lib.journals import RAISE, audit, contents, files, is_there, name_of, neighbours, whole_lines
from lib.programs import SECONDS, arguments, run
from lib.server import Connection, Server

FILE = name_of(1)


def none_is_cut(checks, folder):
    """No file has a last line that was cut."""
    for name in files(folder):
        checks.check(
            os.path.getsize(os.path.join(folder, name)) == len(whole_lines(folder, name)), "%s ends with a cut line", name
        )


def none_is_lost(checks, connection, writes, fault):
    """Each of these writes, an id and a revision, is there; else so many of them `fault`."""
    lost = [write for write in writes if not is_there(connection, *write)]
    checks.check(not lost, "%d of %d " + fault, len(lost), len(writes))


# ---- a disk that is full


def fill(checks, server):
    """Writes documents until five writes in a row are refused, and answers those that were taken."""
    connection, taken, refused = Connection(server.port), [], 0
    while refused < 5 and len(taken) < 20_000:
        id = "d%d" % (len(taken) + refused)
        status, value = connection.ask("PUT", "/db/" + id, {"text": "x" * 50})
        if status == 201:
            taken.append((id, value["rev"]))
        else:
            is_refused = status == 503 and (value["error"], value["reason"]) == ("unavailable", "journal")
            checks.check(is_refused, "%d, %r on a full disk", status, value)
            refused += 1
    checks.check(refused == 5, "no write was refused on a full disk")
    return taken


def full_disk(checks, program, replay, policy):
    """From the first write that fails on, writes are refused by the reason `journal`, and reads go on."""
    with tempfile.TemporaryDirectory() as folder:
        with Server(program, "--sync", policy, "--workers", "4", data=folder, limits={"fsize": 40_000}) as server:
            kept = fill(checks, server)
            connection = Connection(server.port)
            checks.check(is_there(connection, *kept[0]), "a read is not answered on a full disk")
            other = Connection(server.port)
            checks.check(other.ask("DELETE", "/db/%s?rev=%s" % kept[0])[0] == 503, "another worker writes on a full disk")
            checks.check(other.ask("GET", "/db/_changes")[0] == 200, "the feed is not answered on a full disk")
            checks.check("journal" in server.reported(), "standard error says %r of a full disk", server.reported())
        audit(checks, replay, folder)
        with Server(program, data=folder) as server:
            checks.check(server.port is not None, "no start after a full disk: %r", server.reported())
            connection = Connection(server.port)
            none_is_lost(checks, connection, kept, "answered writes are lost after a full disk")
            checks.check(connection.ask("PUT", "/db/after", {})[0] == 201, "no write after a full disk")
        checks.check(neighbours(replay, folder) == [True], "after a full disk numbers are raised: %r", neighbours(replay, folder))


def taken_again(server, id):
    """The revision of a document that is written again and again until that is taken, or None."""
    by = time.monotonic() + SECONDS
    while time.monotonic() < by:
        connection = Connection(server.port)
        status, value = connection.ask("PUT", "/db/" + id, {})
        if status == 201:
            return value["rev"]
        connection.close()
        time.sleep(0.1)
    return None


def mended(checks, program, replay, policy):
    """A disk that was full and takes the journal again: it is written anew, and writes go on with no new start."""
    with tempfile.TemporaryDirectory() as folder:
        with Server(program, "--sync", policy, "--workers", "4", data=folder, limits={"fsize": "40000:"}) as server:
            kept = fill(checks, server)
            rows = Connection(server.port).ask("GET", "/db/_changes")[1]["results"]
            resource.prlimit(server.process.pid, resource.RLIMIT_FSIZE, (resource.RLIM_INFINITY,) * 2)
            kept.append(("after", taken_again(server, "after")))
            checks.check(kept[-1][1] is not None, "no write once there is room: %r", server.reported())
            checks.check("the journal is written anew" in server.reported(), "standard error says %r", server.reported())
            kept += [("more%d" % n, Connection(server.port).ask("PUT", "/db/more%d" % n, {})[1]["rev"]) for n in range(10)]
            seen = [(row["id"], row["changes"][0]["rev"]) for row in rows]
        checks.check(files(folder) == [FILE], "%r are there after the journal was written anew", files(folder))
        audit(checks, replay, folder)
        with Server(program, data=folder) as server:
            connection = Connection(server.port)
            none_is_lost(checks, connection, kept + seen, "are lost behind a full disk")
        left = [name for name in os.listdir(folder) if name.endswith(".new")]
        checks.check(left == [], "%r are left", left)


def starts_full(checks, program, replay, policy):
    """A start that can't make its next file serves what it read, refuses writes by the reason `journal`, and goes on by itself once
    there is room; so does the first start in a folder."""
    for full in (False, True):
        with tempfile.TemporaryDirectory() as folder:
            kept = []
            if full:
                with Server(program, "--sync", "always", data=folder) as server:
                    connection = Connection(server.port)
                    kept = [("d%d" % n, connection.ask("PUT", "/db/d%d" % n, {"n": n})[1]["rev"]) for n in range(20)]
            there = {name: whole_lines(folder, name) for name in files(folder)}
            beside = os.path.join(folder, name_of(1 + full) + ".new")
            os.mkdir(beside)  # in its place no file can be made
            with Server(program, "--sync", policy, "--workers", "4", data=folder) as server:
                checks.check(server.port is not None, "no start where no file can be made: %r", server.reported())
                connection = Connection(server.port)
                none_is_lost(checks, connection, kept, "are not read where no file can be made")
                status, value = connection.ask("PUT", "/db/refused", {})
                checks.check((status, value.get("reason")) == (503, "journal"), "%d, %r where no file can be made", status, value)
                said = server.reported()
                checks.check("no epoch begins yet" in said and os.path.basename(beside) in said, "such a start says %r", said)
                still = {name: whole_lines(folder, name) for name in files(folder)}
                checks.check(still == there, "such a start leaves %r", sorted(still))
                os.rmdir(beside)
                kept.append(("after", taken_again(server, "after")))
                checks.check(kept[-1][1] is not None, "no write once there is room: %r", server.reported())
                kept.append(("more", connection.ask("PUT", "/db/more", {})[1]["rev"]))
            checks.check(len(files(folder)) == 1 + full, "%r are there once there is room", files(folder))
            audit(checks, replay, folder)
            with Server(program, data=folder) as server:
                connection = Connection(server.port)
                none_is_lost(checks, connection, kept, "are lost behind a start that made no file")


def reads_only(checks, program):
    """With `--read-only` what is there is read, each write is refused, and no file is made, changed or removed."""
    with tempfile.TemporaryDirectory() as folder:
        small(checks, program, folder)
        os.remove(os.path.join(folder, "lock"))
        there = contents(folder)
        with Server(program, "--read-only", data=folder) as server:
            checks.check("it is only read" in server.first_report(SECONDS), "a read-only start says %r", server.reported())
            connection = Connection(server.port)
            checks.check(connection.ask("GET", "/db/a")[1].get("n") == 3, "a read-only server doesn't have a document")
            checks.check(connection.ask("GET", "/db/_local/l")[1].get("n") == 2, "a read-only server lacks a local document")
            for method, path, body in (
                ("PUT", "/db/new", {}),
                ("POST", "/db/_bulk_docs", {"docs": [{"_id": "b"}]}),
                ("POST", "/db/_purge", {"b": ["1-" + "0" * 32]}),
                ("PUT", "/db/_local/m", {}),
                ("PUT", "/db/_revs_limit", 9),
            ):
                status, value = Connection(server.port).ask(method, path, body)
                checks.check(
                    (status, value.get("reason")) == (503, "journal"), "%s %s of a read-only server: %d, %r", method, path, status, value
                )
            checks.check(Connection(server.port).ask("GET", "/db/a")[0] == 200, "no read after a refused write")
            time.sleep(3)  # it makes no file later either
            checks.check("written anew" not in server.reported(), "a read-only server says %r", server.reported())
        checks.check(contents(folder) == there, "a read-only server leaves %r", sorted(contents(folder)))
        with Server(program, data=folder) as server:
            checks.check(Connection(server.port).ask("PUT", "/db/new", {})[0] == 201, "no write after a read-only server")
    with tempfile.TemporaryDirectory() as folder:
        missing = os.path.join(folder, "none")
        with Server(program, "--read-only", data=missing) as server:
            checks.check(server.port is None and server.status() == 1, "a folder that isn't there is served")
        checks.check(not os.path.exists(missing), "a read-only start makes its folder")


# ---- spoilt files


def small(checks, program, folder):
    """A folder with a small history, of all kinds of commands."""
    with Server(program, "--sync", "always", data=folder) as server:
        connection = Connection(server.port)
        first = connection.ask("PUT", "/db/a", {"n": 1})[1]["rev"]
        checks.check(connection.ask("PUT", "/db/_local/l", {"n": 2})[0] == 201, "no local document")
        checks.check(connection.ask("PUT", "/db/_revs_limit", 7)[0] == 200, "no limit")
        checks.check(connection.ask("POST", "/db/_bulk_docs", {"docs": [{"_id": "b"}, {"_id": "c"}]})[0] == 201, "no bulk")
        checks.check(
            connection.ask("POST", "/db/_purge", {"c": [connection.ask("GET", "/db/c")[1]["_rev"]]})[0] == 201, "no purge"
        )
        checks.check(connection.ask("PUT", "/db/a?rev=" + first, {"n": 3})[0] == 201, "no second revision")
        place = connection.place
    return place


def started(program, folder):
    """The place of the history that a server goes on from, and what it says of a cut line; or its status and what it says."""
    with Server(program, data=folder) as server:
        if server.port is None:
            return None, server.status(), server.reported()
        connection = Connection(server.port)
        seen = connection.ask("GET", "/db/_changes")[1]
        return seen["last_seq"], None, server.reported()


def cuts(checks, program, every):
    """A last line that is cut is dropped, and said; nothing else is lost."""
    with tempfile.TemporaryDirectory() as top:
        folder = os.path.join(top, "whole")
        places = small(checks, program, folder)
        with open(os.path.join(folder, FILE), "rb") as file:
            text = file.read()
        lines = text.splitlines(keepends=True)
        checks.check(len(lines) == places + 1, "%d lines of %d entries", len(lines), places)
        ends = {len(text): 5, len(text) - len(lines[-1]): 4, len(text) - len(lines[-1]) - len(lines[-2]): 3}
        begin = min(ends)
        for at in range(begin, len(text) + 1, every):
            other = os.path.join(top, "other")
            shutil.copytree(folder, other)
            with open(os.path.join(other, FILE), "r+b") as file:
                file.truncate(at)
            seq, status, told = started(program, other)
            checks.check(status is None, "a file that is cut at %d: status %s, %r", at, status, told)
            whole = max(end for end in ends if end <= at)
            place = text[:whole].count(b"\n")
            said = "the entry at place %d," % place
            checks.check((said in told) == (at != whole), "of a cut at %d, place %d, standard error says %r", at, place, told)
            checks.check(
                (seq >= RAISE) == (at < len(text)) and seq % RAISE <= places,
                "update number %r after %d entries, cut at %d",
                seq,
                places,
                at,
            )
            checks.check(files(other)[0] == FILE, "the cut file is gone: %r", files(other))
            with open(os.path.join(other, FILE), "rb") as file:
                checks.check(file.read() == text[:at], "the cut file was changed")
            shutil.rmtree(other)


def changes(checks, program, replay, every):
    """A byte that is changed ends the start, by what `replay check` says, and nothing is written."""
    with tempfile.TemporaryDirectory() as top:
        folder = os.path.join(top, "whole")
        small(checks, program, folder)
        with open(os.path.join(folder, FILE), "rb") as file:
            text = file.read()
        for at in range(0, len(text) - 1, every):
            changed = text[:at] + bytes([text[at] ^ 1]) + text[at + 1 :]
            verdict = run([replay, "check"], changed).output.decode()
            if verdict.startswith("legal"):
                continue  # the same history: a byte that a number or a text may have in another place
            other = os.path.join(top, "other")
            shutil.copytree(folder, other)
            with open(os.path.join(other, FILE), "wb") as file:
                file.write(changed)
            before = {*os.listdir(other), "lock"}
            _, status, told = started(program, other)
            checks.check(status == 1, "a byte that is changed at %d: status %s", at, status)
            checks.check(
                verdict.strip() in told and "couchd repair" in told,
                "a byte that is changed at %d: %r, and not %r",
                at,
                told,
                verdict,
            )
            checks.check({*os.listdir(other), "lock"} == before, "a start that was refused left %r", os.listdir(other))
            with open(os.path.join(other, FILE), "rb") as file:
                checks.check(file.read() == changed, "a start that was refused wrote to the file")
            shutil.rmtree(other)


# ---- folders


def folders(checks, program):
    """One folder is one server's, and one that can't be made ends the start."""
    with tempfile.TemporaryDirectory() as top:
        folder = os.path.join(top, "deep", "data")
        with Server(program, data=folder) as server:
            checks.check(server.port is not None, "no start in a folder that is not there: %r", server.reported())
            with Server(program, data=folder) as other:
                checks.check(other.port is None and other.status() == 1, "two servers on one folder")
                checks.check(str(server.port) in other.reported(), "the second server says %r", other.reported())
            checks.check(Connection(server.port).ask("PUT", "/db/a", {})[0] == 201, "the first server does not go on")
        with Server(program, data=folder) as server:
            checks.check(server.port is not None, "the lock of a killed server is not taken over: %r", server.reported())
            checks.check("ended without giving it up" in server.reported(), "of a server that was killed: %r", server.reported())
        blocked = os.path.join(top, "file")
        with open(blocked, "w", encoding="utf-8"):
            pass
        with Server(program, data=os.path.join(blocked, "data")) as server:
            checks.check(server.port is None and server.status() == 1, "a folder below a file is no folder")
            checks.check(server.reported().startswith("couchd: "), "of a folder that can't be made: %r", server.reported())


def empty(checks, program):
    """A start with no entries makes no new file."""
    with tempfile.TemporaryDirectory() as folder:
        for _ in range(3):
            with Server(program, data=folder) as server:
                checks.check(server.port is not None, "no start: %r", server.reported())
        checks.check(files(folder) == [FILE], "starts with no entries made %r", files(folder))


# ---- what goes on


def goes_on(checks, program, replay):
    """All that a database is goes on over a start; places begin again, and numbers don't."""
    with tempfile.TemporaryDirectory() as folder:
        with Server(program, "--sync", "always", data=folder) as server:
            connection = Connection(server.port)
            rev = connection.ask("PUT", "/db/a", {"n": 1})[1]["rev"]
            connection.ask("PUT", "/db/a?rev=" + rev, {"n": 2})
            gone = connection.ask("PUT", "/db/gone", {})[1]["rev"]
            connection.ask("POST", "/db/_purge", {"gone": [gone]})
            connection.ask("PUT", "/db/_local/l", {"n": 3})
            connection.ask("PUT", "/db/_revs_limit", 7)
            connection.ask("PUT", "/db/_purged_infos_limit", 9)
            before = told_of(connection)
        with Server(program, "--sync", "always", data=folder) as server:
            connection = Connection(server.port)
            after = told_of(connection)
            checks.check(after == before, "a start changed the database: %r, before %r", after, before)
            checks.check(
                connection.ask("PUT", "/db/b", {})[0] == 201 and connection.place == 1, "the first place is %d", connection.place
            )
            seq = connection.ask("GET", "/db/_changes?since=%d" % before[1]["last_seq"])[1]
            checks.check([row["id"] for row in seq["results"]] == ["b"], "a feed goes on with %r", seq)
            status, value = connection.ask("GET", "/db/gone")
            checks.check(status == 404, "a purged document is back: %r", value)
        checks.check(files(folder) == [FILE, "0000000002.dump"], "the files are %r", files(folder))
        audit(checks, replay, folder)
        none_is_cut(checks, folder)


def told_of(connection):
    """All that is asked of a small database."""
    targets = (
        "/db/a?revs=true&conflicts=true",
        "/db/_changes",
        "/db/_all_docs",
        "/db/_local/l",
        "/db/_revs_limit",
        "/db/_purged_infos_limit",
        "/db",
    )
    return [connection.ask("GET", target)[1] for target in targets]


def late_epochs(checks, program, replay):
    """A start goes on behind a file of any number."""
    for number in (999, 1000, 65_536, 4_294_967_296):
        with tempfile.TemporaryDirectory() as folder:
            places = small(checks, program, folder)
            os.remove(os.path.join(folder, "mark"))
            os.rename(os.path.join(folder, FILE), os.path.join(folder, name_of(number)))
            with Server(program, data=folder) as server:
                checks.check(server.port is not None, "no start behind the file of %d: %r", number, server.reported())
                connection = Connection(server.port)
                checks.check(connection.ask("GET", "/db/a")[1].get("n") == 3, "a document of epoch %d isn't there", number)
                checks.check(connection.ask("PUT", "/db/new", {})[0] == 201, "no write behind the file of %d", number)
                seq = connection.ask("GET", "/db")[1]["update_seq"]
                checks.check(seq > RAISE + 1, "update number %d behind %d entries and no mark", seq, places)
            checks.check(files(folder) == [name_of(number), name_of(number + 1)], "behind %d are %r", number, files(folder))
            audit(checks, replay, folder, may_raise=True)


# ---- waits in vain

QUIET_SECONDS = 3  # a wait that finds nothing lasts longer


def waits_in_vain(checks, program, policy):
    """A long poll and a feed that find nothing end neither as refused nor as empty, and have the row of the next write."""
    with tempfile.TemporaryDirectory() as folder:
        with Server(program, "--sync", policy, "--workers", "4", data=folder) as server:
            writer, poll, feed = (Connection(server.port) for _ in range(3))
            writer.ask("PUT", "/db/before", {})
            since = writer.ask("GET", "/db")[1]["update_seq"]
            poll.send("GET", "/db/_changes?feed=longpoll&since=%d" % since)
            feed.send("GET", "/db/_changes?feed=continuous&limit=1&since=%d" % since)
            ready, _, _ = select.select([poll.socket], [], [], QUIET_SECONDS)
            checks.check(not ready, "with %s a long poll in vain is answered %r", policy, poll.answer() if ready else None)
            rev = writer.ask("PUT", "/db/after", {})[1]["rev"]
            status, page = poll.answer()
            rows = [(row["id"], row["changes"][0]["rev"]) for row in page.get("results", [])]
            checks.check((status, rows) == (200, [("after", rev)]), "with %s a long poll ends as %d, %r", policy, status, page)
            head = feed.next_head()
            while b'"last_seq"' not in feed.rest and feed.more():
                pass
            checks.check(head.startswith(b"HTTP/1.1 200 OK"), "with %s a feed begins with %r", policy, head)
            lines = [json.loads(line) for line in feed.rest.split(b"\n") if line.startswith(b"{")]
            seen = [line.get("id") for line in lines]
            checks.check(seen == ["after", None] and "last_seq" in lines[-1], "with %s a feed in vain has %r", policy, lines)


# ---- full histories

PLACES = 1000  # of each epoch


class Writer(threading.Thread):
    """Writes documents of its own until it is stopped, over as many connections as that takes."""

    def __init__(self, checks, port, name):
        super().__init__()
        self.check = checks.check
        self.port, self.name_of, self.stopped = port, name, threading.Event()
        self.written = {}  # id: revision

    def run(self):
        number = 0
        while not self.stopped.is_set():
            try:
                connection, last = Connection(self.port), 0
                while not self.stopped.is_set():
                    id = "%s-%d" % (self.name_of, number)
                    status, value = connection.ask("PUT", "/db/" + id, {"n": number})
                    self.check(connection.place >= last, "place %d after %d on one connection", connection.place, last)
                    last = connection.place
                    if status == 503:
                        self.check(value["reason"] == "full", "%r for a write", value)
                        continue
                    # a write whose connection ended before its answer may be there
                    self.check(status == 201 or (status == 409 and id not in self.written), "%d, %r for a write", status, value)
                    if status == 201:
                        self.written[id] = value["rev"]
                    number += 1
            except (OSError, EOFError):
                continue


class Reader(threading.Thread):
    """Follows the changes by long polls from the last number on, over as many connections as that takes."""

    def __init__(self, checks, port):
        super().__init__()
        self.check = checks.check
        self.port, self.stopped = port, threading.Event()
        self.last, self.rows = 0, {}

    def run(self):
        while not self.stopped.is_set():
            try:
                connection = Connection(self.port)
                while not self.stopped.is_set():
                    self.read(connection)
            except (OSError, EOFError):
                continue

    def read(self, connection):
        target = "/db/_changes?feed=longpoll&limit=200&since=%d" % self.last
        status, page = connection.ask("GET", target)
        if status != 200:
            return
        for row in page["results"]:
            self.check(row["seq"] > self.last, "a row at %d after %d", row["seq"], self.last)
            self.last = row["seq"]
            self.rows[row["id"]] = row["changes"][0]["rev"]
        self.last = max(self.last, page["last_seq"])


def replicated(program, source, target):
    """What a replication between two servers says."""
    return replicate(program, source.port, target.port, "journal").output


def full_histories(checks, program, replay, count):
    """So many epochs under load: no position falls, no feed skips a document, replications go on, what was purged stays away."""
    with tempfile.TemporaryDirectory() as folder:
        words = ("--sync", "second", "--max-places", str(PLACES), "--workers", "32")
        with Server(program, *words, data=folder) as server, Server(program) as target:
            connection = Connection(server.port)
            gone = connection.ask("PUT", "/db/gone", {})[1]["rev"]
            checks.check(connection.ask("POST", "/db/_purge", {"gone": [gone]})[0] == 201, "no purge")
            connection.close()
            writers = [Writer(checks, server.port, "w%d" % at) for at in range(8)]
            reader = Reader(checks, server.port)
            for thread in [*writers, reader]:
                thread.start()
            by = time.monotonic() + SECONDS * count
            while len(files(folder)) < count and time.monotonic() < by:
                time.sleep(0.5)
            replicated(program, server, target)
            for writer in writers:
                writer.stopped.set()
            for writer in writers:
                writer.join()
            settle(checks, server.port, reader, writers)
            checks.check(len(files(folder)) >= count, "%d epochs of %d began", len(files(folder)), count)
            connection = Connection(server.port)
            checks.check(connection.ask("GET", "/db/gone")[0] == 404, "a purged document is back")
            replicated(program, server, target)
            again = replicated(program, server, target)
            checks.check("documents read 0, written 0" in str(again), "a second replication says %r", again)
        checks.check(server.process.returncode is not None, "the server goes on")
        audit(checks, replay, folder)


def settle(checks, port, reader, writers):
    """The follower has all that was answered, by the time that it has the last number."""
    connection = Connection(port)
    last = connection.ask("GET", "/db")[1]["update_seq"]
    by = time.monotonic() + SECONDS
    while reader.last < last and time.monotonic() < by:
        time.sleep(0.1)
    reader.stopped.set()
    connection.ask("PUT", "/db/end", {})
    reader.join()
    for writer in writers:
        missed = [id for id, rev in writer.written.items() if reader.rows.get(id) != rev]
        checks.check(not missed, "a feed skips %d of %d documents, as %r", len(missed), len(writer.written), missed[:1])


def write_over(checks, port, count):
    """Writes so many documents, over as many connections as that takes, and answers what each was told."""
    told = {}
    connection = Connection(port)
    while len(told) < count:
        id = "d%d" % len(told)
        try:
            status, value = connection.ask("PUT", "/db/" + id, {})
        except (OSError, EOFError):
            connection = Connection(port)
            continue
        if status == 201:
            told[id] = value["rev"]
        elif status == 409:  # it was written by a request whose connection ended before its answer
            told[id] = connection.ask("GET", "/db/" + id)[1]["_rev"]
        else:
            checks.check((status, value["reason"]) == (503, "full"), "%d, %r for a write", status, value)
    return told


def keeps(checks, program, replay):
    """As many files stay as are to be kept, the newest, and nothing is lost with the others."""
    with tempfile.TemporaryDirectory() as folder:
        with Server(program, "--sync", "always", "--max-places", "20", "--keep", "2", data=folder) as server:
            told = write_over(checks, server.port, 130)
        names = files(folder)
        checks.check(len(names) == 2 and names[0] >= "0000000005.dump", "of some seven files %r stay", names)
        audit(checks, replay, folder)
        with Server(program, "--keep", "1", data=folder) as server:
            connection = Connection(server.port)
            none_is_lost(checks, connection, told.items(), "documents went with old files")
        checks.check(len(files(folder)) == 1, "the files %r stay, of which one is to be kept", files(folder))


def no_next_epoch(checks, program, replay):
    """Where the file of the next epoch can't be made, writes are refused by the reason `journal`, and reads go on, until it can."""
    with tempfile.TemporaryDirectory() as folder:
        with Server(program, "--sync", "always", "--max-places", "20", data=folder) as server:
            os.mkdir(os.path.join(folder, "0000000002.dump.new"))
            told = write_over(checks, server.port, 20)
            connection = Connection(server.port)
            by = time.monotonic() + SECONDS
            reason = "full"
            while reason == "full" and time.monotonic() < by:
                status, value = connection.ask("PUT", "/db/more", {})
                checks.check(status == 503, "%d for a write to a full history", status)
                reason = value["reason"]
            checks.check(reason == "journal", "where no next epoch begins a write is refused as %r", reason)
            checks.check(
                all(is_there(connection, id, rev) for id, rev in told.items()),
                "a read is not answered where no next epoch begins",
            )
            checks.check("no next epoch begins" in server.reported(), "where no next epoch begins: %r", server.reported())
            os.rmdir(os.path.join(folder, "0000000002.dump.new"))
            rev = taken_again(server, "next")
            checks.check(rev is not None, "no next epoch begins once it can: %r", server.reported())
            told["next"] = rev
        with Server(program, data=folder) as server:
            connection = Connection(server.port)
            checks.check(
                all(is_there(connection, id, rev) for id, rev in told.items()), "a document is lost where no next epoch began"
            )
            checks.check(connection.ask("PUT", "/db/more", {})[0] == 201, "no write at the next start")
        audit(checks, replay, folder)


def main():
    checks = Checks()
    reader = arguments(__doc__, "couchd", "replay")
    reader.add_argument("--long", action="store_true")
    given = reader.parse_args()
    every = 1 if given.long else 7
    empty(checks, given.couchd)
    goes_on(checks, given.couchd, given.replay)
    late_epochs(checks, given.couchd, given.replay)
    folders(checks, given.couchd)
    cuts(checks, given.couchd, every)
    changes(checks, given.couchd, given.replay, every)
    for policy in ("always", "second", "never"):
        full_disk(checks, given.couchd, given.replay, policy)
        mended(checks, given.couchd, given.replay, policy)
        starts_full(checks, given.couchd, given.replay, policy)
        waits_in_vain(checks, given.couchd, policy)
    reads_only(checks, given.couchd)
    keeps(checks, given.couchd, given.replay)
    no_next_epoch(checks, given.couchd, given.replay)
    full_histories(checks, given.couchd, given.replay, 20 if given.long else 4)
    return checks.report()


if __name__ == "__main__":
    sys.exit(main())
