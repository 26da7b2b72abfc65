"""The folder of a journal: its files, whether they are legal, and what a server over it holds."""
import os

from .programs import run

RAISE = 2**24  # by so much the update number is above what was lost
FIRST = b'{"couch_history":1}\n'  # the first line of the first epoch


def name_of(epoch):
    """The name of an epoch's file."""
    return "%010d.dump" % epoch


def files(folder):
    """The files of epochs, oldest first."""
    return sorted(name for name in os.listdir(folder) if name.endswith(".dump"))


def contents(folder):
    """The bytes of each file in a folder."""
    found = {}
    for name in os.listdir(folder):
        with open(os.path.join(folder, name), "rb") as file:
            found[name] = file.read()
    return found


def make(folder, files):
    """Makes a folder with these files."""
    os.makedirs(folder)
    for name, data in files.items():
        with open(os.path.join(folder, name), "wb") as file:
            file.write(data)


def whole_lines(folder, name):
    """What a file has up to its last line feed: a last line that was cut is no line."""
    with open(os.path.join(folder, name), "rb") as file:
        text = file.read()
    return text[: text.rfind(b"\n") + 1]


def legal_lines(replay, data):
    """The lines of a file up to the first that is no next entry, and whether that is all of it."""
    whole = data[: data.rfind(b"\n") + 1]
    while True:
        status, said, _ = run([replay, "check"], whole)
        if status == 0:
            return whole, whole == data
        word, *_, number = said.decode().split()
        kept = whole.splitlines(keepends=True)[: int(number) - (word == "unreadable")]
        if not kept:
            return b"", False
        whole = b"".join(kept)


def bases(replay, data):
    """The first lines that may follow a history: as its numbers are, and raised."""
    return tuple(run([replay, "base", *more], data).output for more in ((), ("--raised",)))


def neighbours(replay, folder):
    """For each file but the first whether its numbers are raised above those of the file before, or None where it doesn't go on
    from it."""
    found, last = [], None
    for name in files(folder):
        with open(os.path.join(folder, name), "rb") as file:
            data = file.read()
        if last is not None:
            first = data[: data.find(b"\n") + 1]
            found.append({last[0]: False, last[1]: True}.get(first))
        last = bases(replay, legal_lines(replay, data)[0])
    return found


def audit(checks, replay, folder, may_raise=False):
    """Each file is the dump of a legal history, but for a last line that was cut, and begins with the base that the one before
    ends with, whose numbers are raised at most where they may be."""
    for name in files(folder):
        whole = whole_lines(folder, name)
        ran = run([replay, "check"], whole)
        checks.check(ran.status == 0 and ran.output.startswith(b"legal "), "%s: %r, status %d", name, ran.output, ran.status)
    found = neighbours(replay, folder)
    checks.check(None not in found and (may_raise or not any(found)), "files go on from those before as %r", found)


def is_there(connection, id, revision):
    status, value = connection.ask("GET", "/db/" + id)
    return status == 200 and value["_rev"] == revision


def put(connection, prefix, count):
    """Writes so many new documents, and gives the revision of each that was answered."""
    told = {}
    for number in range(count):
        id = "%s%d" % (prefix, number)
        status, value = connection.ask("PUT", "/db/" + id, {"n": number})
        if status == 201:
            told[id] = value["rev"]
    return told


def lacks(connection, told):
    """The documents that aren't there as they were answered."""
    _, listed = connection.ask("GET", "/db/_all_docs")
    there = {row["id"]: row["value"]["rev"] for row in listed["rows"]}
    return [id for id, rev in told.items() if there.get(id) != rev]


def last_seq(connection):
    return connection.ask("GET", "/db/_changes")[1]["last_seq"]


def ids_since(connection, seq):
    return [row["id"] for row in connection.ask("GET", "/db/_changes?since=%d" % seq)[1]["results"]]
