"""The end of the machine: of the log of a server's runs, folders as a disk may have them, and a start over each."""
import shutil
import time

from lib.disks import NAMES, TAILS, Disk, read_log
from lib.durability.given import LAG, POLICIES
from lib.journals import contents, files, ids_since, make, neighbours, put
from lib.ledgers import Clients, Ledger, look

WRITERS = 6
PAUSE = 0.004  # of a writer between two writes
RUNS = (("--max-places", "300"), ("--max-places", "120", "--keep", "2"))
GENERATIONS = 3  # servers of a run, each killed
POINTS = {"always": 14, "second": 10, "never": 5}  # of a run; of each one or two disks
OPS_OF_NAMES = {"open", "rename", "unlink", "mkdir", "cut"}


def power(given):
    for policy in POLICIES:
        disks = 0
        for number in range(given.rounds):
            for options in RUNS:
                disks += run(given, policy, options, "%s-%d" % (policy, number))
        print("%s: starts over %d disks" % (policy, disks), flush=True)


class Run:
    """Servers one after another over one folder, each killed under clients, and what they did to the files."""

    def __init__(self, given, room, policy, options):
        self.given, self.room, self.policy, self.options = given, room, policy, options
        self.ledger, self.readers = Ledger(), []
        self.parts = []  # of each server the log, and the files that it left

    def go(self):
        for number in range(GENERATIONS):
            log = self.room.beside("log-%d" % number)
            env = self.room.environment(log=log, delay=self.given.dice.choice([0, 0.002]))
            with self.room.serve(self.policy, "--workers", "12", *self.options, env=env) as server:
                self.given.check(server.port is not None, "%s: no start: %s", self.policy, server.reported())
                if server.port is None:
                    return False
                clients = Clients(server.port, self.ledger, "g%d" % number, WRITERS, PAUSE)
                time.sleep(self.given.dice.uniform(0.3, 1.3 if self.policy == "always" else 2.2))
                clients.stop()
                server.stop()
                clients.join()
            self.readers.append(clients.reader)
            self.parts.append((read_log(log), contents(self.room.folder)))
        return True

    def moments(self, count):
        """So many disks as the folder may be at, and the time of each: near changes of names, and anywhere."""
        disk = Disk(self.room.folder)
        for records, left in self.parts:
            named = [at for at, record in enumerate(records) if record.op in OPS_OF_NAMES]
            near = [at + step for at in named for step in (0, 1, 2) if at + step < len(records)]
            dice = self.given.dice
            chosen = {dice.choice(near) for _ in range(count // 2)} | {dice.randrange(len(records)) for _ in range(count // 2)}
            for at, record in enumerate(records):
                disk.take(record)
                if at in chosen:
                    yield disk, record.time
            disk.settle(left)

    def shown_by(self, at):
        """The largest number that a follower saw."""
        return max(reader.shown_by(at) for reader in self.readers)


def run(given, policy, options, name):
    count = 0
    with given.room() as room:
        ran = Run(given, room, policy, options)
        if not ran.go():
            return 0
        spot = room.beside("spot")
        for disk, at in ran.moments(POINTS[policy]):
            for tail, names in (("all", "all"), (given.dice.choice(TAILS), given.dice.choice(NAMES)))[given.dice.randrange(2) :]:
                count += 1
                made = disk.after_failure(given.dice, tail, names)
                make(spot, made)
                start_over(ran, spot, made, at, "%s %s/%s, disk %d" % (name, tail, names, count))
                shutil.rmtree(spot)
        check_written(given, ran)
    return count


def check_written(given, ran):
    given.check(ran.ledger.count() > 50, "%s: only %d writes were answered", ran.policy, ran.ledger.count())
    given.check({write.status for write in ran.ledger.writes} <= {200, 201, None}, "%s: a write was refused", ran.policy)


def start_over(ran, spot, made, at, what):
    """A server starts on what a disk has, with all that it must have, and goes on above what a follower saw."""
    given = ran.given
    env = ran.room.environment(folder=spot, log=ran.room.beside("log-after"), boot=1)
    with ran.room.serve(ran.policy, *ran.options, folder=spot, env=env) as server:
        given.check(
            server.port is not None, "%s: refused: %s; %r", what, server.reported(), {name: len(made[name]) for name in made}
        )
        if server.port is None:
            return
        connection = server.connect()
        wrong, lost = ran.ledger.check(look(connection, ran.ledger), at)
        given.check(not wrong, "%s: %s", what, wrong[:2])
        check_lost(ran, lost, at, what)
        shown = ran.shown_by(at)
        told = put(connection, "late", 2)
        missed = set(told) - set(ids_since(connection, shown))
        given.check(len(told) == 2 and not missed, "%s: a follower that saw number %d misses %s", what, shown, missed)
        if made.keys() >= set(files(spot)[:1]):
            check_epochs(ran, spot, made, what)


def check_lost(ran, lost, at, what):
    """What was answered with `always` is there, and with `second` all but the last of it."""
    ages = [at - write.answered for write in lost]
    if ran.policy == "always":
        ran.given.check(
            not lost, "%s: %d answered writes are lost, as %s", what, len(lost), [list(one.states) for one in lost[:1]]
        )
    if ran.policy == "second":
        ran.given.check(
            max(ages, default=0) <= LAG, "%s: a write is lost that was answered %.2f s before", what, max(ages, default=0)
        )


def check_epochs(ran, spot, made, what):
    """Each file goes on from the one before. The numbers of the last one are raised where something that was shown may be
    lost."""
    found = neighbours(ran.given.replay, spot)
    ran.given.check(None not in found, "%s: files don't go on from those before: %r", what, found)
    last = max(name for name in made if name.endswith(".dump"))
    if found and files(spot)[-1] != last and "all/all" in what:
        has_mark = made.get("mark", b"").startswith(last[:10].encode())
        wanted = ran.policy != "always" or not has_mark
        ran.given.check(found[-1] == wanted, "%s: numbers are raised: %r", what, found)
