"""File operations that fail, or are the last that a process makes: what was answered is there after a start, and after the end of
the machine."""
import shutil

from lib.disks import Disk, read_log
from lib.journals import contents, lacks, make, put

NO_SPACE, BROKEN = 28, 5
EVER = 1000000
# the number of the first call that fails is drawn, and all later ones fail too or none
FAILS = [
    ("write", ".dump", NO_SPACE),
    ("write", ".dump.new", NO_SPACE),
    ("write", "mark", NO_SPACE),
    ("fdatasync", ".dump", BROKEN),
    ("fdatasync", ".dump.new", BROKEN),
    ("open", ".dump.new", BROKEN),
    ("open", "mark", BROKEN),
    ("rename", ".dump", BROKEN),
    ("rename", "lock", BROKEN),
    ("fsync", "data", BROKEN),
    ("unlink", ".dump", BROKEN),
]
KILLS = [
    ("write", ".dump"),
    ("write", ".dump.new"),
    ("write", "mark"),
    ("fdatasync", ".dump"),
    ("fdatasync", ".dump.new"),
    ("rename", ".dump"),
    ("fsync", "data"),
    ("unlink", ".dump"),
]
OPTIONS = ("--max-places", "20", "--keep", "2")


def faults(given):
    for op, suffix, error in FAILS:
        for last in (0, EVER):
            first = given.dice.randint(1, 4 if suffix != ".dump" or op == "rename" else 60)
            case(given, op, suffix, str(error), first, max(first, last))
    for op, suffix in KILLS:
        for _ in range(given.rounds):
            first = given.dice.randint(1, 3 if suffix != ".dump" or op == "rename" else 60)
            case(given, op, suffix, "kill", first, first)


def case(given, op, suffix, what, first, last):
    """Writes over some epochs while that happens, the same start again without it, and then the end of the machine."""
    rule = "%s:%s:%s:%d:%d" % (op, suffix, what, first, last)
    with given.room() as room:
        old = prepared(room)
        begin = contents(room.folder)
        told = dict(old)
        with room.serve("always", *OPTIONS, env=room.environment(log=room.beside("log-0"), rules=[rule])) as server:
            statuses = write_all(server, told, "a", 70) if server.port is not None else {"no start"}
            given.check(statuses <= {201, "full", "journal", "gone", "no start"}, "%s: writes are answered %s", rule, statuses)
        left = contents(room.folder)
        with room.serve("always", *OPTIONS, env=room.environment(log=room.beside("log-1"))) as server:
            given.check(server.port is not None, "%s: no start behind it: %s", rule, server.reported())
            if server.port is None:
                return
            lost = lacks(server.connect(), told)
            given.check(not lost, "%s: %d answered writes are lost, as %s", rule, len(lost), lost[:1])
            write_all(server, told, "b", 10)
        after_failure(given, room, begin, left, told, rule)


def prepared(room):
    """A folder with an epoch that has entries."""
    with room.serve("always") as server:
        return put(server.connect(), "old", 10)


def write_all(server, told, prefix, count):
    """Writes new documents until the journal fails or the server ends; what is answered goes to `told`, and each kind of an
    answer is given."""
    statuses, connection, ends = set(), None, 0
    for number in range(count):
        id = "%s%d" % (prefix, number)
        try:
            connection = connection or server.connect()
            status, value = connection.ask("PUT", "/db/" + id, {"n": number})
        except (OSError, EOFError):
            statuses.add("gone")
            connection, ends = None, ends + 1
            if ends == 20 or server.process.poll() is not None:
                break
            continue
        statuses.add(status if status == 201 else value["reason"])
        if status == 201:
            told[id] = value["rev"]
    return statuses


def after_failure(given, room, begin, left, told, rule):
    """The machine ends, and its disk has what syncs covered and nothing else."""
    disk = Disk(room.folder, begin)
    for record in read_log(room.beside("log-0")):
        disk.take(record)
    disk.settle(left)
    for record in read_log(room.beside("log-1")):
        disk.take(record)
    for names in ("none", "all"):
        spot = room.beside("spot")
        make(spot, disk.after_failure(given.dice, "none", names))
        with room.serve("always", folder=spot, env=room.environment(folder=spot, log=room.beside("log-2"), boot=1)) as server:
            given.check(server.port is not None, "%s: refused behind the end of the machine: %s", rule, server.reported())
            lost = lacks(server.connect(), told) if server.port is not None else []
            given.check(not lost, "%s: the end of the machine loses %d answered writes, as %s", rule, len(lost), lost[:1])
        shutil.rmtree(spot)
