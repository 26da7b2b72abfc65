"""Files and folders whose names must be on the disk before a write is answered."""
import os

from lib.disks import Disk, read_log
from lib.journals import contents, lacks, make, neighbours, put

BROKEN = 5


def names(given):
    for is_new in (True, False):
        goes_on(given, is_new, "rename:.dump:kill:1:1")
        goes_on(given, is_new, "fsync:data:%d:1:1000000" % BROKEN)
    made_on_the_way(given)
    old_file_is_synced(given)


def check_begun(given, server, rule):
    """A start that is killed serves nobody; one that can't sync its folder serves what it read, and takes no write."""
    if "kill" in rule:
        given.check(server.port is None, "a start goes on behind %s", rule)
        return
    given.check(server.port is not None, "no start behind %s: %s", rule, server.reported())
    status, value = server.connect().ask("PUT", "/db/refused", {})
    given.check((status, value.get("reason")) == (503, "journal"), "%d, %r for a write behind %s", status, value, rule)


def goes_on(given, is_new, rule):
    """A start ends between the name of its file and the sync of the folder. The next one goes on from there; then the machine
    ends."""
    with given.room() as room:
        old = {}
        if is_new:
            os.mkdir(room.folder)
        else:
            with room.serve() as server:
                old = put(server.connect(), "old", 10)
        begin = contents(room.folder)
        disk = Disk(room.folder, begin)
        with room.serve(env=room.environment(log=room.beside("log-0"), rules=[rule])) as server:
            check_begun(given, server, rule)
        for record in read_log(room.beside("log-0")):
            disk.take(record)
        disk.settle(contents(room.folder))
        with room.serve(env=room.environment(log=room.beside("log-1"))) as server:
            given.check(server.port is not None, "no start behind %s: %s", rule, server.reported())
            told = put(server.connect(), "new", 10)
        for record in read_log(room.beside("log-1")):
            disk.take(record)
        spot = room.beside("spot")
        make(spot, disk.after_failure(given.dice, "none", "none"))
        with room.serve(folder=spot) as server:
            lost = lacks(server.connect(), {**old, **told})
            given.check(len(told) == 10 and not lost, "behind %s the end of the machine loses %s", rule, lost)


def made_on_the_way(given):
    """Each folder that is made is synced in the one above it, before a write is answered."""
    with given.room() as room:
        top = room.beside("top")
        os.mkdir(top)
        with room.serve(folder=os.path.join(top, "x", "y", "z"), env=room.environment(folder=top)) as server:
            put(server.connect(), "a", 1)
        records = read_log(room.log)
    missing, opened = {}, {}
    for record in records:
        if record.op == "mkdir":
            path = os.path.normpath(record.data.decode())
            missing[path] = os.path.dirname(path)
        elif record.op == "open":
            opened[record.descriptor] = record.paths()[0]
        elif record.op == "synced":
            above = opened.get(record.descriptor)
            missing = {path: parent for path, parent in missing.items() if parent != above}
        elif record.op == "write" and b'"id":"a0"' in record.data:
            break
    made = [record for record in records if record.op == "mkdir"]
    given.check(len(made) == 3, "%d folders are made on the way to x/y/z", len(made))
    given.check(not missing, "these folders are not synced in those above: %s", sorted(missing))


def old_file_is_synced(given):
    """A file that was written and not synced is read, and the next epoch begun over it. After the end of the machine both are
    there, and go on from one another."""
    with given.room() as room:
        disk = Disk(room.folder)
        for number, policy in enumerate(("never", "always")):
            log = room.beside("log-%d" % number)
            with room.serve(policy, env=room.environment(log=log)) as server:
                put(server.connect(), "p%d-" % number, 5)
            for record in read_log(log):
                disk.take(record)
            disk.settle(contents(room.folder))
        spot = room.beside("spot")
        make(spot, disk.after_failure(given.dice, "none", "none"))
        found = neighbours(given.replay, spot)
        given.check(found == [False], "the files of a disk go on from one another as %r", found)
