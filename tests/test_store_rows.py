"""Runs the rows of `tests/rows/store` through the programs that read them, and compares what each statement prints.

    python3 tests/test_store_rows.py [--reference] [FOLDER]

A row says what must be printed of it. The second reading must print the same, and so must each program: `test_store` of
databases, compactions and interleavings, `test_collections` of maps, lists, trees and runs. With `--reference` no program is
run. The programs are crates/NAME/out/NAME, or FOLDER/NAME, and the build by the other compiler too, if it is there.
"""
import os
import sys

from lib.checks import Checks
from lib.programs import TESTS, arguments, builds, missing, run
from reference import rows

ROWS = os.path.join(TESTS, "rows", "store")
GO_ON = {"epochs", "epoch_copies", "epoch_world", "epoch_steps"}  # rows that go on over the end of a history
PROGRAMS = {"test_store": {"database", "copies", "world"} | GO_ON, "test_collections": {"map", "list", "tree", "runs"}}
SHOWN = 300  # characters of a piece


def all_rows():
    for name in sorted(os.listdir(ROWS)):
        with open(os.path.join(ROWS, name), encoding="utf-8") as file:
            yield from rows.read(name, file.read())


def compare(checks, who, row, found):
    """Reports the first piece that differs."""
    for number, wanted in enumerate(row.wanted):
        piece = found[number] if number < len(found) else "nothing"
        if piece != wanted:
            checks.check(
                False, "%s, %s, piece %d\n  wanted %s\n  found  %s", row.name, who, number + 1, wanted[:SHOWN], piece[:SHOWN]
            )
            return
    checks.check(found == row.wanted, "%s, %s prints more: %s", row.name, who, found[len(row.wanted) :][:3])


def run_rows(checks, program, listed):
    """Hands all rows to the program at once."""
    why = missing(program)
    if why is not None:
        checks.check(False, "%s", why)
        return
    status, output, errors = run([program], "".join(row.input() + "\n" for row in listed))
    lines, who = output.splitlines(), os.path.basename(program)
    checks.check(
        status == 0 and len(lines) == len(listed),
        "%s ends with %d after %d of %d rows: %s",
        who,
        status,
        len(lines),
        len(listed),
        errors,
    )
    for row, line in zip(listed, lines):
        compare(checks, who, row, rows.pieces(line))


def programs(name, folder):
    return builds(name) if folder is None else [os.path.join(folder, name)]


def main():
    reader = arguments(__doc__)
    reader.add_argument("--reference", action="store_true")
    reader.add_argument("folder", nargs="?")
    given = reader.parse_args()
    checks, listed = Checks(), list(all_rows())
    for row in listed:
        compare(checks, "the second reading", row, row.second_reading())
    for name, kinds in [] if given.reference else PROGRAMS.items():
        for program in programs(name, given.folder):
            run_rows(checks, program, [row for row in listed if row.kind in kinds])
    return checks.report()


if __name__ == "__main__":
    sys.exit(main())
