"""What a disk may hold after a power failure, by the log of a process that wrote to a folder (the shim `disk`).

What a sync covered is there. Of what was written since, and of names that were given, changed or taken away since the folder was
synced, there may be nothing, all, some of it, or other bytes in its place.
"""
import bisect
import collections
import os
import re
from typing import NamedTuple

TAILS = ("none", "all", "cut", "zeros", "garbage", "pages", "sectors")  # what becomes of bytes that no sync covered
NAMES = ("none", "all", "first", "some")  # what becomes of changes of names that no sync covered
BLOCKS = {"pages": 4096, "sectors": 512}
NANOSECONDS = 10**9
ID = re.compile(rb'"id":"([^"]*)"')


class Record(NamedTuple):
    """What a process did: when, by `time.monotonic`; the other parts are as the shim says."""

    time: float
    op: str
    descriptor: int
    number: int
    data: bytes

    def paths(self):
        return [os.path.normpath(path.decode()) for path in self.data.split(b"\0")]


def read_log(path):
    """The records of a log, up to one that is not whole."""
    found, at = [], 0
    if not os.path.exists(path):
        return found
    with open(path, "rb") as file:
        log = file.read()
    while (end := log.find(b"\n", at)) >= 0:
        time, op, descriptor, number, length = log[at:end].split(b" ")
        at = end + 1 + int(length)
        if at > len(log):
            break
        found.append(Record(int(time) / NANOSECONDS, op.decode(), int(descriptor), int(number), log[end + 1 : at]))
    return found


def play(data, change):
    """Makes a change of bytes: a place, and what is written there, or None where the bytes end there."""
    place, written = change
    if len(data) < place:
        data.extend(bytes(place - len(data)))
    if written is None:
        del data[place:]
    else:
        data[place : place + len(written)] = written


class File:
    """What a file holds, and what of it a sync covered."""

    def __init__(self, data=b""):
        self.data, self.synced = bytearray(data), bytearray(data)
        self.later = collections.deque()  # changes that no sync covered
        self.covered = 0  # changes that a sync covered
        self.asked = {}  # for each thread that syncs the changes that were made before

    def change(self, place, written):
        self.later.append((place, written))
        play(self.data, (place, written))

    def sync(self, thread):
        self.asked[thread] = self.covered + len(self.later)

    def is_synced(self, thread):
        for _ in range(self.asked.pop(thread, 0) - self.covered):
            play(self.synced, self.later.popleft())
            self.covered += 1

    def settle(self, data):
        """Goes on with what a process left that was killed: its last call may have been logged and not made."""
        while self.later and self.data != data:
            self.later.pop()
            self.data = bytearray(self.synced)
            for change in self.later:
                play(self.data, change)
        assert self.data == data, "the log and a file differ"

    def after_failure(self, dice, tail):
        """What a disk may have of it."""
        synced, data = bytes(self.synced), bytes(self.data)
        if tail == "none" or not self.later:
            return synced
        if tail == "all":
            return data
        if tail == "cut":
            return self.cut(dice)
        if tail in BLOCKS:
            return blocks(dice, synced, data, BLOCKS[tail])
        begin = dice.randint(common_length(synced, data), len(data))
        length = dice.randint(0, len(data) - begin)
        return data[:begin] + (bytes(length) if tail == "zeros" else dice.randbytes(length))

    def cut(self, dice):
        """Some of the changes, the last one in part."""
        data, changes = bytearray(self.synced), list(self.later)
        whole = dice.randrange(len(changes))
        for change in changes[:whole]:
            play(data, change)
        place, written = changes[whole]
        if written is not None:
            play(data, (place, written[: dice.randint(0, len(written))]))
        return bytes(data)


def blocks(dice, synced, data, size):
    """Each block that changed is as it is, or as it was, in no order."""
    was = synced.ljust(len(data), b"\0")
    start = common_length(synced, data)
    pieces, at = [data[:start]], start
    while at < len(data):
        end = at - at % size + size
        pieces.append(dice.choice([was, data])[at:end])
        at = end
    return b"".join(pieces)


def common_length(one, other):
    return len(one) if other.startswith(one) else len(os.path.commonprefix([one, other]))


class Disk:
    """A folder as the processes see it whose logs it is given, and as the disk surely has it. The files that it begins with are
    on the disk."""

    def __init__(self, folder, files=None):
        self.folder = os.path.normpath(folder)
        self.names = {name: File(data) for name, data in (files or {}).items()}
        self.synced = dict(self.names)  # as the last sync of the folder left it
        self.later = []  # changes of names since: the name, and the file or None
        self.asked = {}
        self.open = {}

    def take(self, record):
        """Goes on by a record."""
        taken = {
            "open": self.opened,
            "close": self.closed,
            "write": self.written,
            "cut": self.was_cut,
            "syncing": self.syncs,
            "synced": self.is_synced,
            "rename": self.renamed,
            "unlink": self.unlinked,
        }.get(record.op)
        if taken is not None:
            taken(record)

    def name_of(self, path):
        """The name of a file in the folder, `.` for the folder, or None."""
        name = os.path.relpath(path, self.folder)
        return None if "/" in name or name == ".." else name

    def call(self, *changes):
        self.later.append(changes)
        name_all(self.names, changes)

    def opened(self, record):
        name = self.name_of(record.paths()[0])
        if name == ".":
            self.open[record.descriptor] = self
            return
        if name is None or (name not in self.names and not record.number & os.O_CREAT):
            return
        if name not in self.names:
            self.call((name, File()))
        file = self.open[record.descriptor] = self.names[name]
        if record.number & os.O_TRUNC:
            file.change(0, None)

    def closed(self, record):
        self.open.pop(record.descriptor, None)

    def written(self, record):
        if (file := self.open.get(record.descriptor)) is not None:
            file.change(record.number, record.data)

    def was_cut(self, record):
        if (file := self.open.get(record.descriptor)) is not None:
            file.change(record.number, None)

    def syncs(self, record):
        """A sync begins: it covers what was done before."""
        one = self.open.get(record.descriptor)
        if one is self:
            self.asked[record.number] = (len(self.later), dict(self.names))
        elif one is not None:
            one.sync(record.number)

    def is_synced(self, record):
        one = self.open.get(record.descriptor)
        if one is self:
            count, self.synced = self.asked.pop(record.number)
            self.later = self.later[count:]
        elif one is not None:
            one.is_synced(record.number)

    def renamed(self, record):
        name, to = map(self.name_of, record.paths())
        if name in self.names and to is not None:
            self.call((name, None), (to, self.names[name]))

    def unlinked(self, record):
        name = self.name_of(record.paths()[0])
        if name in self.names:
            self.call((name, None))

    def settle(self, files):
        """Goes on with the files that a process left that was killed: its last call may have been logged and not made, or made
        and not logged."""
        self.open, self.asked = {}, {}
        before = dict(self.synced)
        for changes in list(self.later)[:-1]:
            name_all(before, changes)
        if set(before) == set(files) != set(self.names):
            self.later.pop()
            self.names = before
        for name in files.keys() - self.names.keys():
            self.call((name, File()))
            self.names[name].change(0, files[name])
        assert set(self.names) == set(files), "the log and the folder differ"
        for name, data in files.items():
            self.names[name].settle(data)

    def after_failure(self, dice, tail, names):
        """The files that a disk may have. Where the tails of dumps are spoiled, that of any other file is so in a way of its
        own."""
        found = dict(self.synced)
        count = {"none": 0, "first": dice.randint(0, len(self.later))}.get(names, len(self.later))
        for changes in self.later[:count]:
            if names != "some" or dice.random() < 0.5:
                name_all(found, changes)
        tail_of = lambda name: tail if tail in ("none", "all") or name.endswith(".dump") else dice.choice(TAILS)
        return {name: file.after_failure(dice, tail_of(name)) for name, file in found.items()}


def name_all(names, changes):
    """Gives files their names, or takes them away."""
    for name, file in changes:
        if file is None:
            names.pop(name, None)
        else:
            names[name] = file


class Times:
    """When bytes of the files of a folder were appended, and when a sync covered them, by the log of one process."""

    def __init__(self, records, folder, files=None):
        self.disk = Disk(folder, files)
        self.files = {}  # name: its Timeline
        for record in records:
            self.take(record)

    def take(self, record):
        file = self.disk.open.get(record.descriptor)
        self.disk.take(record)
        line = self.files.get(id(file))
        if record.op == "open" and isinstance(opened := self.disk.open.get(record.descriptor), File):
            self.files.setdefault(id(opened), Timeline(opened))
        elif line is not None and record.op == "write":
            line.appended.add(record.time, len(file.data))
        elif line is not None and record.op == "synced":
            line.synced.add(record.time, len(file.synced))

    def of(self, name):
        """The times of the file that has this name at the end."""
        return self.files[id(self.disk.names[name])]


class Reached:
    """When a file reached which length, which only grows."""

    def __init__(self):
        self.times, self.lengths = [], []

    def add(self, time, length):
        self.times.append(time)
        self.lengths.append(length)

    def at(self, length):
        """When it first had so many bytes, or None."""
        place = bisect.bisect_left(self.lengths, length)
        return self.times[place] if place < len(self.times) else None


class Timeline:
    """When a file got its bytes, and when a sync covered them."""

    def __init__(self, file):
        self.file, self.appended, self.synced = file, Reached(), Reached()

    def ends(self):
        """For each id that a line of the file has, where that line ends."""
        found, at = {}, 0
        for line in bytes(self.file.data).splitlines(keepends=True):
            at += len(line)
            found.update((id, at) for id in ID.findall(line))
        return found
