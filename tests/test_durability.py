"""Ends servers over a journal in all ways, and looks at what is left of the writes that they answered.

    python3 tests/test_durability.py [--rounds N] [--only PART..] [--seed N] [COUCHD [REPLAY]]

A library under the server logs what it does to its files, so syncs are seen, and what a disk may hold after the end of the
machine is known: all that a sync covered, and of the rest nothing, all, some, zeros or garbage, and names that were or weren't
changed. A server is started over many such disks. With more rounds there are more kills, signals and disks.

    syncs     an answered write is appended, and with `always` a good sync covers it; with `second` one follows in time; a file is
    synced
              before the next epoch gets its name; what is shown with `always` is on the disk kills     servers that are killed at
    random, and that get a signal at once behind a write: nothing that was answered is lost, by any
              policy, and a follower misses nothing power     the end of the machine: `always` loses nothing, `second` the end and
    at most about a second, nothing is refused, each file
              goes on from the one before, and a follower misses nothing faults    each kind of file operation fails, once or from
    then on, or is the last of a process names     names that no sync of the folder covered, folders that were made on the way, a
    file that was read before it was synced torn      what is behind the last sync is dropped and reported, what is before is
    refused, and `couchd repair` makes it start; the bytes of
              `mark` and `lock` don't matter
    locks     one server a folder, whatever becomes of `lock`; an orderly end removes it

These wrong bodies are proved, since they are about the disk, the clock or the folder, and are caught here: a sync that does
nothing (`syncs`, `power`); `second` that never syncs, or not again behind its first sync (`syncs`, `power`); a first number that
is shown before a sync (`syncs`, `power`); a folder, or one above it, that isn't synced (`names`, `power`); a file that is gone on
from without its sync (`names`); numbers that are not raised behind the end of the machine, or are behind a kill (`power`,
`kills`); a mark that says more than was synced (`power`); a lock that is a file's (`locks`); a repair that writes over what an
earlier one kept (`torn`).
"""
import sys

from lib.durability.faults import faults
from lib.durability.given import given_by
from lib.durability.kills import kills
from lib.durability.locks import locks
from lib.durability.names import names
from lib.durability.power import power
from lib.durability.syncs import syncs
from lib.durability.torn import torn
from lib.programs import arguments

PARTS = {part.__name__: part for part in (syncs, kills, power, faults, names, torn, locks)}


def main():
    reader = arguments(__doc__, "couchd", "replay")
    reader.add_argument("--rounds", type=int, default=1)
    reader.add_argument("--only", nargs="+", choices=PARTS, default=list(PARTS))
    reader.add_argument("--seed", type=int, default=1)
    arguments_given = reader.parse_args()
    with given_by(arguments_given) as given:
        for name in arguments_given.only:
            PARTS[name](given)
        return given.checks.report()


if __name__ == "__main__":
    sys.exit(main())
