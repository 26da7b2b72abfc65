"""Compares what `replay check` and `replay base`, raised or not, say of histories that continue one another with what the
second reading says.

    python3 tests/test_epochs.py [--reference] [--seed N] [--epochs N] [--bases N] [COUCHD REPLAY]

- Rows: those of `tests/rows/dumps`, whose verdicts were worked by hand from the rules. The second reading must say the same, and
  of each base that is none for the reason that the row names; together they have every reason.
- Bytes: each byte of a small dump with a base is left out, doubled, and replaced by others.
- Bases at random, bases with one thing changed, and what requests at random leave over those that are readable.
- Transcripts: the base after each of them is read and written again.
- Epochs: many histories of requests at random, of many sessions, each over the base that the one before leaves, beside one
  history of all these requests. At each end both leave the same base, and the last base is that of the dump of the one history.

What the programs must say of all this is what the second reading says; with `--reference` no program is run.
"""
import os
import random
import sys
from concurrent.futures import ThreadPoolExecutor

from lib import transcripts
from lib.audits import Audits
from lib.based_dumps import all_rows, small_dump
from lib.checks import Checks
from lib.generators import bases
from lib.programs import arguments
from lib.requests import request
from reference import queries, worked_epochs
from reference.bases import REASONS, base_value, first_line, is_same, read_first_line, successor
from reference.compactions import Behind, Compaction, Overrun
from reference.dump_rows import ASKED, STATUS, Dump
from reference.epochs import is_right
from reference.history import Recorder, dump_of, line, next_base, read_entry, verdict
from reference.json_profile import text

REQUESTS = 30  # of an epoch
SESSIONS = 64
ROOM = 2**20  # numbers that are left above a base of large ones

TWO_PUTS = request("PUT", "/db/a", "{}") * 2


class Audit:
    """Counts what holds of dumps, by the second reading and by the programs, if there are any."""

    def __init__(self, programs):
        self.programs = programs
        self.checks = Checks()
        self.threads = ThreadPoolExecutor(os.cpu_count())
        self.runs = []

    def check(self, holds, what, *more):
        self.checks.check(holds, what, *more)

    def says(self, name, data, seldom=False):
        """What the second reading says of a dump, which the programs must say too. Where it is seldom asked for the base after
        what is not legal, that is one time in eight."""
        said, status = verdict(data)
        wanted, ended = next_base(data) if status == 0 else (said.encode() + b"\n", status)
        if (status, ended) == (0, 0):
            self.check(next_base(wanted) == (wanted, 0), "%s: %r is no base", name, wanted)
        both = status == 0 or not seldom or len(self.runs) % 8 == 0
        raised = next_base(data, True) if len(self.runs) % 4 == 0 else None
        self.agree(name, data, check=(said + "\n", status), base=(wanted, ended) if both else None, raised=raised)
        return said, wanted

    def agree(self, name, data, **wanted):
        """What the programs must say to each question, in a thread of their own; what is None isn't asked."""
        if self.programs is not None:
            self.runs.append(self.threads.submit(self.compare, name, data, wanted))

    def compare(self, name, data, wanted):
        for asked, answer in wanted.items():
            found = None if answer is None else getattr(self.programs, asked)(data)
            self.check(found == answer, "%s: %s says %r, and not %r, of %r", name, asked, found, answer, data[-2000:])

    def report(self):
        for run in self.runs:
            run.result()
        return self.checks.report()


# ---- rows


def audit_rows(audit):
    reasons = set()
    for row in all_rows():
        found = row.second_reading()
        audit.check(found == row.wanted, "%s: the second reading says %s, and not %s", row.name, found, row.wanted)
        asked = [one for one in row.statements if one in ASKED]
        wanted = dict(zip(asked, row.wanted))
        reasons.add(wanted.get("reason"))
        dump = Dump(row.statements)
        audit.agree(row.name, dump.data(), **outputs(dump, wanted))
    missing = set(REASONS) - reasons
    audit.check(not missing, "no row is refused for these reasons: %s", sorted(missing))


def outputs(dump, wanted):
    """What each run prints for what a row says, with the exit status."""
    first = dump.data().split(b"\n")[0] + b"\n"
    lines = {"same": first, "next": dump.next_line()}
    found = {"check": wanted["check"] + "\n"}
    for asked in ("base", "raised"):
        if asked in wanted:
            found[asked] = lines.get(wanted[asked], wanted[asked].encode() + b"\n")
    return {asked: (text, STATUS[wanted[asked].split(" ")[0]]) for asked, text in found.items()}


# ---- bytes


OTHER_BYTES = b'09ab-"\\,:{}[] \n\xff'


def changed_bytes(data, few):
    for at, byte in enumerate(data):
        front, here, back = data[:at], data[at : at + 1], data[at + 1 :]
        yield front + back
        others = {byte ^ 1}
        if not few:
            yield front + here + here + back
            others |= {byte ^ 0x20, *OTHER_BYTES}
        for other in sorted(others - {byte}):
            yield front + bytes([other]) + back


def audit_bytes(audit):
    data, found = small_dump(), {}
    audit.check(audit.says("the small dump", data)[0] == "legal 3", "the small dump is not legal: %r", data)
    first = data.index(b"\n") + 1
    for changed in changed_bytes(data, audit.programs is None):
        said, _ = audit.says("a changed byte", changed, seldom=True)
        word = said.split(" ")[0]
        found[word] = found.get(word, 0) + 1
        if word == "legal" and changed[first:] == data[first:]:
            base = read_first_line(changed[:first])
            audit.check(not is_same(base, read_first_line(data[:first])), "two lines of one base: %r", changed)
    print("bytes of a dump of %d: %s" % (len(data), ", ".join("%d %s" % (found[word], word) for word in sorted(found))))
    audit.check(set(found) == {"legal", "wrong", "unreadable"}, "the changed bytes don't come to all verdicts: %s", found)


# ---- bases at random


def audit_over(audit, source, name, base, seen):
    """What requests at random leave over a base is legal, and a base again unless a number is past the most."""
    recorder = Recorder(base)
    bases.some_requests(source, recorder, source.randint(1, 6))
    said, written = audit.says(name + ", gone on from", recorder.dump())
    past = written == b"no successor\n"
    seen["past the most"] += past
    right = past or verdict(written) == ("legal 0", 0)
    audit.check(
        said == "legal %d" % len(recorder.lines) and right,
        "%s, gone on from, is %s, and the base after it is %r",
        name,
        said,
        written,
    )


def audit_bases(audit, seed, count):
    seen = {"readable": 0, "past the most": 0}
    for number in range(count):
        source = random.Random("base %d %d" % (seed, number))
        name, database = "base %d of seed %d" % (number, seed), bases.database(source)
        data = first_line(database)
        audit.check(is_same(read_first_line(data), database), "%s is not read as it was: %r", name, data)
        audit.check(audit.says(name, data) == ("legal 0", data), "%s is not its own base: %r", name, data)
        audit_over(audit, source, name, database, seen)
        for _ in range(10):
            changed = text({"base": bases.changed(source, base_value(database)), "couch_history": 2}).encode() + b"\n"
            said, written = audit.says(name + ", changed", changed, seldom=True)
            if said == "legal 0":
                seen["readable"] += 1
                audit.check(written == changed, "%s, changed, is read as another one: %r", name, changed)
                audit_over(audit, source, name + ", changed", read_first_line(changed), seen)
            else:
                audit.check(said == "unreadable line 1", "%s, changed, is %s", name, said)
    print(
        "bases at random: %d of %d changed ones are readable; %d histories over all these have no next one"
        % (
            seen["readable"],
            10 * count,
            seen["past the most"],
        )
    )
    audit.check(all(seen.values()), "the bases at random don't come to all of these: %s", seen)


# ---- transcripts


def audit_transcripts(audit):
    for name, data in transcripts.requests():
        _, base = audit.says(name, dump_of(data))
        audit.check(audit.says("the base after " + name, base) == ("legal 0", base), "the base after %s: %r", name, base)


# ---- epochs


def seated(source, lines):
    """The entries as calls of sessions at random, each from its first."""
    calls, found = {}, []
    for one in lines:
        command, reply, _ = read_entry(one)
        session = source.choice([0, 0, source.randrange(4), source.randrange(SESSIONS)])
        calls[session] = calls.get(session, 0) + 1
        found.append(line(command, reply, [session, calls[session]]))
    return b"".join(found)


def replies(responses):
    """What is answered, but for places."""
    return [b"\r\n".join(part for part in one.split(b"\r\n") if not part.startswith(b"Couch-Place: ")) for one in responses]


class Onlookers:
    """A follower, what it gave, and a compaction in slices, which go on over the ends of histories."""

    def __init__(self, audit, source, database):
        self.audit, self.source = audit, source
        self.follower, self.feed, self.since = queries.Follower(database.update_seq, True), {}, database.update_seq
        self.copy, self.swapped = Compaction(database), 0

    def look(self, name, database):
        if self.source.random() < 0.5:
            rows = self.follower.next(database, self.source.randint(1, 3))
            self.feed.update((row["id"], row) for row in rows)
        right = is_right(self.feed, self.since, self.follower.cursor, database, lambda id, record: queries.row(id, record, True))
        self.audit.check(right, "%s: the feed up to %d is not right", name, self.follower.cursor)
        self.copy_on(name, database)

    def copy_on(self, name, database):
        """A slice or a few steps of catching up; now and then its end, which must be that of a compaction at once."""
        try:
            if self.copy.pinned:
                self.copy.slice(self.source.randint(1, 2))
            elif self.source.random() < 0.5:
                self.copy.catch_up(database, self.source.randint(0, 2))
            else:
                found, like = self.copy.finish(database, 2), successor(database)
                like.compact()
                wanted = {id: (record.tree, record.seq) for id, record in like.docs.items()}
                self.audit.check(found == wanted, "%s: the copy is not the compacted database", name)
                self.swapped += 1
                self.copy = Compaction(database)
        except Overrun:
            self.copy = Compaction(database)
        except Behind:
            pass


def large_base():
    """Numbers that are near the most that they may be."""
    database = worked_epochs.full()
    bases.raise_numbers(random.Random(0), database, ROOM)
    return database


def audit_epochs(audit, name, seed, count, base=None):
    """So many histories, and one history of all of their requests."""
    source = random.Random("%s %d" % (name, seed))
    one, recorder = Recorder(base), Recorder(base)
    onlookers = Onlookers(audit, source, recorder.database)
    for number in range(1, count + 1):
        what = "%s %d of seed %d" % (name, number, seed)
        for _ in range(REQUESTS):
            data = request(*bases.Maker(source, recorder.database).one())
            found = [replies(list(bases.Connection(session).responses(data))) for session in (recorder, one)]
            audit.check(found[0] == found[1], "%s: %r is answered %r, and in one history %r", what, data, *found)
            onlookers.look(what, recorder.database)
        audit.check(
            recorder.place == len(recorder.lines) and is_same(recorder.database, one.database),
            "%s leaves another database than one history",
            what,
        )
        said, written = audit.says(what, first_line(recorder.base) + seated(source, recorder.lines))
        recorder = recorder.successor()
        audit.check(
            said.startswith("legal ") and written == recorder.dump(), "%s: %s, and the base after it is %r", what, said, written
        )
    said, written = audit.says("all of " + name, first_line(base) + seated(source, one.lines))
    audit.check(said == "legal %d" % len(one.lines) and written == recorder.dump(), "the last base is not that of one history")
    audit.check(onlookers.swapped > 0, "%s: no compaction came to its end", name)
    print(
        "%s: %d histories, %d entries, %d compactions of other copies; update number %d, purge number %d"
        % (
            name,
            count,
            len(one.lines),
            onlookers.swapped,
            one.database.update_seq,
            one.database.purge_seq,
        )
    )


def audit_served(audit):
    """A history that `couchd` serves, and the base after it."""
    if audit.programs is not None:
        dump = audit.programs.dump(TWO_PUTS)
        audit.check(dump == (dump_of(TWO_PUTS), 0), "two writes are dumped as %r", dump)
        base = audit.programs.base(dump[0])
        audit.check(base == (worked_epochs.FIRST, 0), "the base after two writes is %r", base)


def main():
    alone = "--reference" in sys.argv
    reader = arguments(__doc__, *([] if alone else ["couchd", "replay"]))
    reader.add_argument("--reference", action="store_true")
    reader.add_argument("--seed", type=int, default=1)
    reader.add_argument("--epochs", type=int, default=50)
    reader.add_argument("--bases", type=int, default=100)
    given = reader.parse_args()
    audit = Audit(None if alone else Audits(given.couchd, given.replay))
    audit_rows(audit)
    audit_served(audit)
    audit_bytes(audit)
    audit_bases(audit, given.seed, given.bases)
    audit_transcripts(audit)
    audit_epochs(audit, "epoch", given.seed, given.epochs)
    audit_epochs(audit, "epoch of large numbers", given.seed, given.epochs // 5, large_base())
    return audit.report()


if __name__ == "__main__":
    sys.exit(main())
