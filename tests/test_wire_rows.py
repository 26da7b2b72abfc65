"""Gives the rows of tests/rows/wire to the built program `test_wire`, and compares what it prints of each.

    python3 tests/test_wire_rows.py [TEST_WIRE]        the builds of both compilers where none is given

A line behind `>` is a row, and the one behind `<` is what must be printed of it, worked by hand from the formats. Of lines of a
history and of their commands the reference must say the same.
"""
import glob
import json
import os
import re
import sys

from lib.checks import Checks
from lib.programs import TESTS, builds, missing, run
from reference.history import Unreadable, read_entry
from reference.json_profile import text


def rows():
    """Each row, and what must be printed of it."""
    for path in sorted(glob.glob(os.path.join(TESTS, "rows", "wire", "*"))):
        with open(path, encoding="utf-8") as file:
            lines = [line[2:] for line in file.read().splitlines() if line.startswith((">", "<"))]
        yield from zip(map(repeated, lines[::2]), map(repeated, map(with_line_ends, lines[1::2])))


def repeated(line):
    """With each string in angle brackets as often as its number says."""
    return re.sub(r"<([\w,]+)\*(\d+)>", lambda found: found.group(1) * int(found.group(2)), line)


def with_line_ends(line):
    return line.replace("␍", "\r").replace("␊", "\n")


def unanswered():
    """Connections that end before their first request is whole, and what must be printed of each: it ends between requests where
    nothing came, else in a request, or by a read that fails in front of the last byte."""
    put = "PUT /db/a HTTP/1.1\r\nContent-Length: 2\r\n\r\n{}"
    for length in range(len(put)):
        yield "serve|-|-|" + json.dumps(put[:length]), "0 %s (0, 0) " % ("InRequest" if length else "AtEnd")
    yield "serve|-|-|" + json.dumps(put.replace("2", "3")), "0 InRequest (0, 0) "
    yield "serve|%sfail|-|%s" % ("1," * (len(put) - 1), json.dumps(put * 2)), "0 ReadFault (1, 0) "


def entry(line):
    """What the reference reads of a line of a history, or None."""
    try:
        return read_entry(line.encode() + b"\n")
    except Unreadable:
        return None


def said_by_reference(row):
    """What the reference says of a row, or None where it says nothing."""
    kind, *parts = row.split("|")
    if kind == "line":
        return "none" if entry(parts[0]) is None else parts[0]
    if kind == "commands":
        commands = [text(entry(line)[0]) for line in parts]
        return "".join(".="[one == other] for one in commands for other in commands)
    return None


def check_rows(checks, program, pairs):
    """What the program prints of each row must be what is wanted."""
    status, output, _ = run([program], "".join(row + "\n" for row, _ in pairs))
    for row, wanted in pairs:
        found, output = output[: len(wanted) + 1], output[len(wanted) + 1 :]
        if found != wanted + "\n":
            checks.check(
                False, "%s\n  wanted  %r\n  printed %r", row[:2000], wanted[:2000], (found + output)[: len(wanted) + 200]
            )
            return
        checks.check(True, row)
    checks.check((status, output) == (0, ""), "status %d, and %r behind the last row", status, output[:200])


def main():
    checks = Checks()
    pairs = [*rows(), *unanswered()]
    for row, wanted in pairs:
        said = said_by_reference(row)
        checks.check(said in (None, wanted), "the reference says %r of %r", said, row)
    for program in sys.argv[1:2] or builds("test_wire"):
        why = missing(program)
        if why is None:
            check_rows(checks, program, pairs)
        else:
            checks.check(False, "%s", why)
    return checks.report()


if __name__ == "__main__":
    sys.exit(main())
