"""Asks the built program `test_journal` what begins from files of all kinds, and what a journal does to a file that fails.

    python3 tests/test_journal_rows.py [TEST_JOURNAL]        the builds of both compilers where none is given

- Texts: small dumps with each kind of command, of a first epoch and of one with a base, cut at each byte of their last two lines,
  with each byte changed, and with lines left out, twice and out of order; of which all, some or none is synced, and over which
  numbers are raised or not. What must begin is what the reference says of the whole lines.
- Failures: of a run of appends and syncs, each write and each sync fails, behind none or some of its bytes. The file must then
  have what was appended before, and a beginning of the last append at most; nothing is tried again.
- Files: folders with epochs that are whole, cut, torn and wrong, with marks of all kinds, with what an unfinished start left,
  with the lock of a server that runs and of one that was killed; and which files are removed.
"""
import copy
import fcntl
import itertools
import os
import sys
import tempfile

from lib.checks import Checks
from lib.marks import Mark, boot_id
from lib.programs import builds, missing, run
from lib.requests import request
from reference.bases import LARGEST, RAISE, NoSuccessor, first_line, raised, successor
from reference.database import Database
from reference.history import FIRST_LINE, UnreadableLine, Wrong, dump_of, read_dump, replay

SECONDS = 600  # that one run may take

REQUESTS = b"".join(
    [
        request("PUT", "/db/a", '{"x":1}'),
        request("PUT", "/db/b", '{"y":"ä"}'),
        request("PUT", "/db/_local/c", '{"z":null}'),
        request("PUT", "/db/_revs_limit", "20"),
        request("PUT", "/db/_purged_infos_limit", "7"),
        request("POST", "/db/_purge", '{"a":["1-757d5080cb8c1296a9f167c6fc4c7132"]}'),
        request("POST", "/db/_bulk_docs", '{"docs":[{"_id":"e"},{"_id":"f","_deleted":true}]}'),
        request("POST", "/db/_compact", "{}"),
    ]
)


def lines_of(data):
    pieces = data.split(b"\n")
    return [piece + b"\n" for piece in pieces[:-1]], pieces[-1]


def begins(data, synced, raises):
    """What must begin from a text of which so many bytes are synced: read a line at a time, to the first that is not the next."""
    whole, cut = lines_of(data)
    try:
        base, _ = read_dump(b"".join(whole[:1]))
    except UnreadableLine:
        return "unreadable line 1 from 0"
    count, verdict = next_ones(base, whole)
    places, taken = count - 1, len(b"".join(whole[:count]))
    if verdict is not None and taken < synced:
        return "%s from %d" % (verdict, taken)
    end = "torn" if verdict is not None else "cut" if cut else "whole"
    if places == 0 and end == "whole" and raises != "always":
        return "0 %d whole false true %s" % (taken, whole[0].decode().rstrip("\n"))
    is_raised = raises in ("entries", "always") or (raises == "torn" and end != "whole")
    last = replay(start_of(base), read_dump(b"".join(whole[: places + 1]))[1])
    try:
        line = first_line(raised(last) if is_raised else successor(last))
    except NoSuccessor:
        return "no successor"
    return "%d %d %s %s false %s" % (places, taken, end, str(is_raised).lower(), line.decode().rstrip("\n"))


def start_of(base):
    return Database() if base is None else copy.deepcopy(base)


def next_ones(base, whole):
    """How many lines are the next ones of a legal history, and what an audit says of the one behind them, or None where there is
    none."""
    try:
        replay(start_of(base), read_dump(b"".join(whole))[1])
        return len(whole), None
    except UnreadableLine as fault:
        count = fault.args[0] - 1
        before, verdict = next_ones(base, whole[:count])
        return before, verdict or "unreadable line %d" % (count + 1)
    except Wrong as fault:
        return fault.args[0], "wrong at %d" % fault.args[0]


def next_dump(data):
    """The dump of an epoch over what this one leaves, with an entry."""
    base, entries = read_dump(data)
    last = replay(Database() if base is None else base, entries)
    return first_line(successor(last))


def texts():
    """Dumps, and what is made of them."""
    first = dump_of(REQUESTS)
    one = dump_of(request("PUT", "/db/apple", '{"color":"red"}'))
    over = next_dump(first) + lines_of(one)[0][1]
    for dump in (first, one, over):
        whole, _ = lines_of(dump)
        start = len(dump) - len(whole[-1]) - len(whole[-2])
        yield from (dump[:length] for length in range(start, len(dump) + 1))
        for place in range(len(whole)):
            yield b"".join(whole[:place] + whole[place + 1 :])
            yield b"".join(whole[: place + 1] + whole[place:])
        for place in range(1, len(whole) - 1):
            yield b"".join(whole[:place] + [whole[place + 1], whole[place]] + whole[place + 2 :])
    yield b""
    for dump in (one, over):
        for place, other in itertools.product(range(len(dump)), b'\n0aZ"\xff'):
            yield dump[:place] + bytes([other]) + dump[place + 1 :]


RAISES = ("never", "torn", "entries", "always")  # when numbers are raised: behind bytes that are dropped, behind entries


def restores(checks, program):
    rows = [(data, synced, raises) for data in few_texts() for synced in (0, len(data) // 2, len(data)) for raises in RAISES]
    for number, data in enumerate(texts()):
        rows.append((data, (0, len(data) // 2, len(data))[number % 3], RAISES[number // 3 % 4]))
    found = printed(checks, program, ["restore|%d|%s|%s" % (synced, raises, data.hex()) for data, synced, raises in rows])
    for row, told in zip(rows, found):
        wanted = begins(*row)
        checks.check(told == wanted, "%r begins with\n  %r, and not with\n  %r", row, told, wanted)


def few_texts():
    """A text of each end: whole, with entries and without; cut; and torn, by garbage, by zeros and by a line that is there
    already."""
    dump = dump_of(REQUESTS)
    whole, _ = lines_of(dump)
    first = whole[0]
    tails = (b"", b"{", b"x\n", bytes(30) + b"\n", bytes(30), whole[1], b"\n", b"x\n" + whole[-1])
    yield from (text + tail for text in (first, next_dump(dump), b"".join(whole[:4]), dump) for tail in tails)
    large = first_line(large_base())
    yield large
    yield large + b"x\n"


def large_base():
    """A base whose update number can't be raised."""
    database = Database()
    database.update_seq = LARGEST - RAISE + 1
    return database


def appended(dump, calls, script):
    """What calls must answer over a file that does these steps, and what it has at the end."""
    whole, _ = lines_of(dump)
    steps = iter(script)
    taken, covered, failures, place, synced, told = b"", b"", 0, 0, 0, []

    def step():
        return next(steps, None)

    def append(piece):
        nonlocal taken, failures
        if not piece:
            return True
        most = step()
        if most is None:
            taken += piece
            return True
        taken += piece[: min(most, len(piece) - 1)]
        failures += 1
        return False

    def sync():
        nonlocal covered, failures
        if step() is None:
            covered = taken
            return True
        failures += 1
        return False

    broken = not (append(whole[0]) and sync())
    for call in calls:
        if broken:
            told.append("failed ")
        elif call == "s":
            if sync():
                synced = place
                told.append("synced %d " % place)
            else:
                broken = True
                told.append("failed ")
        elif append(b"".join(whole[place + 1 : call + 1])):
            place = call
            told.append("appended ")
        else:
            broken = True
            told.append("failed ")
    return "".join(told) + "%d %d %s %d %s %s" % (place, synced, str(broken).lower(), failures, taken.hex(), covered.hex())


def failures(checks, program):
    dump = dump_of(REQUESTS)
    calls = [1, "s", 3, 3, "s", "s", 7, "s", 8]
    scripts = [[]]
    for place, most in itertools.product(range(11), (0, 1, 17, 10**6)):
        scripts.append([None] * place + [most])
        scripts.append([None] * place + [most, most])
    rows = [
        "append|%s|%s|%s"
        % (
            dump.hex(),
            " ".join("s" if call == "s" else "a%d" % call for call in calls),
            " ".join("g" if one is None else "f%d" % one for one in script) or "g",
        )
        for script in scripts
    ]
    for script, told in zip(scripts, printed(checks, program, rows)):
        wanted = appended(dump, calls, script)
        checks.check(told == wanted, "over steps %s calls answer\n  %r, and not\n  %r", script, told, wanted)


def put(folder, name, data):
    with open(os.path.join(folder, name), "wb") as file:
        file.write(data)


def seen(folder):
    found = {}
    for name in sorted(os.listdir(folder)):
        with open(os.path.join(folder, name), "rb") as file:
            found[name] = file.read()
    return found


def start(checks, program, folder, files):
    """What a start says over these files, and what the folder has then."""
    os.mkdir(folder)
    for name, data in files.items():
        put(folder, name, data)
    return printed(checks, program, ["start|%s|5984" % folder])[0], seen(folder)


def row(epoch, places, base, dropped=(0, 0, False), missing=0, is_raised=False, left_by=0):
    """What a start says."""
    place, bytes, torn = dropped
    rest = (missing, str(is_raised).lower(), left_by, base.decode().rstrip("\n"))
    return "%d %d %d %d %s %d %s %d %s" % (epoch, places, place, bytes, str(torn).lower(), *rest)


def mark(epoch, synced, shows_kept=False, boot=None):
    return Mark(epoch, synced, shows_kept, boot or boot_id()).text()


def folders(checks, program, root):
    first = FIRST_LINE
    new = {"0000000001.dump": first, "lock": b"5984\n", "mark": mark(1, len(first))}
    told, after = start(checks, program, os.path.join(root, "empty"), {})
    checks.check((told, after) == (row(1, 0, first), new), "an empty folder starts with %r, and has %r", told, after)
    made = os.path.join(root, "made", "under", "it")
    told = printed(checks, program, ["start|%s|5984" % made])[0]
    checks.check((told, seen(made)) == (row(1, 0, first), new), "a folder that is made starts with %r", told)
    first_lines(checks, program, root)
    whole_files(checks, program, root)
    damaged_files(checks, program, root)


def first_lines(checks, program, root):
    """An epoch goes on in a file with its first line alone, unless numbers may have been shown that are not on the disk."""
    base = next_dump(dump_of(REQUESTS))
    over = first_line(raised(read_dump(base)[0]))
    other = "0" * 36
    marks = [
        (mark(7, len(base)), False),
        (mark(7, len(base), True), False),
        (mark(7, len(base), False, other), False),
        (mark(6, len(base)), True),
        (mark(7, len(base) + 1), True),
        (b"", True),
        (None, True),
    ]
    for number, (text, is_raised) in enumerate(marks):
        files = {"0000000007.dump": base, **({} if text is None else {"mark": text})}
        told, after = start(checks, program, os.path.join(root, "first%d" % number), files)
        missing = 1 if number == 4 else 0
        wanted = row(8, 0, over, missing=missing, is_raised=True) if is_raised else row(7, 0, base)
        checks.check(told == wanted, "a first line alone with mark %r starts with %r, and not %r", text, told, wanted)
        checks.check(after["0000000007.dump"] == base, "which changed")
        last = mark(8, len(over)) if is_raised else mark(7, len(base))
        checks.check(after["mark"] == last and len(after) == (4 if is_raised else 3), "and has %r", after)


def whole_files(checks, program, root):
    """The next epoch begins over the newest file, with raised numbers unless a mark says that nothing is lost. No other file
    changes."""
    whole = dump_of(REQUESTS)
    places = len(lines_of(whole)[0]) - 1
    plain, over = next_dump(whole), first_line(raised(replay(Database(), read_dump(whole)[1])))
    others = {"0000000002.dump": b"x", "0000000009.dumps": b"y", "00000000010.dump": b"z"}
    cases = [
        (whole, None, row(4, places, over, is_raised=True)),
        (whole, mark(3, 0), row(4, places, plain)),
        (whole, mark(3, len(whole), True, "0" * 36), row(4, places, plain)),
        (whole, mark(3, len(whole), False, "0" * 36), row(4, places, over, is_raised=True)),
        (whole, mark(3, len(whole) + 5, True), row(4, places, over, missing=5, is_raised=True)),
        (whole + b'{"comm', None, row(4, places, over, (places, 6, False), is_raised=True)),
        (whole + b'{"comm', mark(3, len(whole)), row(4, places, over, (places, 6, False), is_raised=True)),
        (whole + b'{"comm', mark(3, len(whole), True), row(4, places, plain, (places, 6, False))),
        (whole + b"x\n" + whole, mark(3, len(whole)), row(4, places, over, (places, len(whole) + 2, True), is_raised=True)),
        (whole + bytes(9) + b"\n", mark(3, len(whole), True), row(4, places, plain, (places, 10, True))),
    ]
    for number, (data, text, wanted) in enumerate(cases):
        files = {"0000000003.dump": data, **others}
        given = {**files, "0000000004.dump.new": b"left", **({} if text is None else {"mark": text})}
        told, after = start(checks, program, os.path.join(root, "next%d" % number), given)
        checks.check(told == wanted, "%r with mark %r starts with %r, and not %r", data[-20:], text, told, wanted)
        base = over if " true 0 {" in wanted else plain
        wanted = {**files, "0000000004.dump": base, "lock": b"5984\n", "mark": mark(4, len(base))}
        checks.check(after == wanted, "and the folder has %r", after)


def damaged_files(checks, program, root):
    """What was synced and isn't the next line is refused, and nothing changes."""
    whole = dump_of(REQUESTS)
    cases = [(whole[1:], "unreadable line 1"), (whole.replace(b'"x":1', b'"x":2'), "wrong at 1"), (b"", "unreadable line 1")]
    for number, (data, fault) in enumerate(cases):
        files = {"0000000001.dump": data, "mark": mark(1, len(data), True)}
        told, after = start(checks, program, os.path.join(root, "bad%d" % number), files)
        checks.check(told == "0000000001.dump: " + fault, "a wrong file starts with %r", told)
        checks.check({**after, "lock": b""} == {**files, "lock": b""}, "and the folder has %r", after)


def locks(checks, program, root):
    for number, (text, port) in enumerate(
        [(b"4000\n", 4000), (b"4000", 4000), (b"x\n", 0), (b"\xff", 0), (b"4" * 20, 0), (b"70000\n", 0), (b"", 0)]
    ):
        told, after = start(checks, program, os.path.join(root, "left%d" % number), {"lock": text})
        checks.check(told == row(1, 0, FIRST_LINE, left_by=port), "a lock with %r that was left: %r", text, told)
        checks.check(after["lock"] == b"5984\n", "and it says %r", after["lock"])
    for text, said in (
        (b"4001\n", "another server has it, on port 4001"),
        (b"\xff", "another server has it"),
        (None, "another server has it"),
    ):
        folder = os.path.join(root, "held-%s" % (text or b"nothing").hex())
        os.mkdir(folder)
        if text is not None:
            put(folder, "lock", text)
        held = os.open(folder, os.O_RDONLY)
        fcntl.flock(held, fcntl.LOCK_EX)
        told, before = printed(checks, program, ["start|%s|5984" % folder])[0], {} if text is None else {"lock": text}
        os.close(held)
        checks.check(told == said, "a folder that is locked: %r", told)
        checks.check(seen(folder) == before, "and the folder has %r", seen(folder))


def chains(checks, program, root):
    """Epochs in a row, and those that are kept."""
    whole = dump_of(REQUESTS)
    folder = os.path.join(root, "chain")
    os.mkdir(folder)
    places = len(lines_of(whole)[0]) - 1
    told = printed(checks, program, ["write|%s|%s" % (folder, whole.hex())])[0]
    checks.check(told == "%d 2" % places, "a run writes %r", told)
    base = first_line(successor(replay(Database(), read_dump(whole)[1])))
    wanted = {"0000000001.dump": whole, "0000000002.dump": base, "lock": b"5984\n", "mark": mark(2, len(base))}
    checks.check(seen(folder) == wanted, "and leaves %r", seen(folder))
    for number in (3, 4, 5):
        put(folder, "%010d.dump" % number, base)
    for epoch, count, gone in ((3, 2, {1}), (5, 1, {2, 3, 4}), (5, 0, set())):
        before = set(seen(folder))
        told = printed(checks, program, ["keep|%s|%d|%d" % (folder, epoch, count)])[0]
        left = before - {"%010d.dump" % number for number in gone}
        checks.check(
            told == str(len(gone)) and set(seen(folder)) == left,
            "of %s, %d are kept up to %d: %s",
            before,
            count,
            epoch,
            set(seen(folder)),
        )


def printed(checks, program, rows):
    """What the program prints of each row."""
    status, output, errors = run([program], "".join(row + "\n" for row in rows), seconds=SECONDS)
    found = output.splitlines()
    checks.check(
        (status, len(found)) == (0, len(rows)), "status %d after %d of %d rows: %s", status, len(found), len(rows), errors
    )
    return found + [""] * (len(rows) - len(found))


def main():
    checks = Checks()
    for program in sys.argv[1:2] or builds("test_journal"):
        why = missing(program)
        if why is not None:
            checks.check(False, "%s", why)
            continue
        restores(checks, program)
        failures(checks, program)
        with tempfile.TemporaryDirectory() as root:
            folders(checks, program, root)
            locks(checks, program, root)
            chains(checks, program, root)
    return checks.report()


if __name__ == "__main__":
    sys.exit(main())
