"""Checks what crates.txt says of the crates: that it names each, lowest first, and that an audit and a journal depend on little.

    python3 tests/test_crates.py

Each folder of `crates` has a line, and each line a folder. A crate depends on crates whose lines come before its own, and a group
on no group after it. What an audit and a journal depend on is small: below `replay` there are at most 24 crates, and below it and
`journal` none of threads or HTTP. HTTP and threads meet late: below the theorem on connections there are at most 20 crates, none
of storage or threads, and above `updater_state` at most 7 of the product.
"""
import os
import sys

from lib.checks import Checks
from lib.crates import all_below, every, groups
from lib.programs import CRATES, arguments

MOST_BELOW_REPLAY = 24
THEOREM = "http_turns"  # the crate of the theorem on connections
MOST_BELOW_THEOREM = 20
MOST_ABOVE_UPDATER = 7
SERVING = ("sockets", "request_log")  # crates of HTTP whose names don't say it


def check_folders(checks, lines):
    folders = {name for name in os.listdir(CRATES) if os.path.isdir(os.path.join(CRATES, name))}
    for name in sorted(folders | set(lines)):
        checks.check(name in lines, "crates/%s has no line in crates.txt", name)
        checks.check(name in folders, "crates.txt names %s, which has no folder", name)


def check_order(checks, lines):
    """A name that comes before its line was taken for a library of the kit."""
    for line in lines.values():
        later = [it for it in line.kit if it in lines]
        checks.check(not later, "%s depends on %s, whose line comes later", line.name, later)


def check_groups(checks, lines):
    """The crates of a heading are under it alone."""
    order = list(dict.fromkeys(line.group for line in lines.values()))
    found = [line.group for line in lines.values()]
    checks.check(found == sorted(found, key=order.index), "a heading of crates.txt is there twice")


def check_audit(checks, lines):
    """What an audit and a journal depend on."""
    reached = all_below({name: line.below for name, line in lines.items()})
    below = reached["replay"]
    checks.check(len(below) <= MOST_BELOW_REPLAY, "%d crates are below replay: %s", len(below), sorted(below))
    serving = {*groups()["concurrency"], *SERVING, *(name for name in lines if name.startswith("http_"))}
    for name in ("replay", "journal"):
        checks.check(not reached[name] & serving, "%s depends on %s", name, sorted(reached[name] & serving))


def check_seam(checks, lines):
    """HTTP doesn't depend on how a database is stored or shared, and few crates depend on the updater."""
    reached = all_below({name: line.below for name, line in lines.items()})
    below = reached[THEOREM]
    checks.check(len(below) <= MOST_BELOW_THEOREM, "%d crates are below %s: %s", len(below), THEOREM, sorted(below))
    stored = {*groups()["storage"], *groups()["concurrency"]}
    for name in (THEOREM, "http_workers", "durable_calls", "session_peer"):
        checks.check(not reached[name] & stored, "%s depends on %s", name, sorted(reached[name] & stored))
    above = {name for name, line in lines.items() if "updater_state" in reached[name] and not line.is_aside}
    checks.check(len(above) <= MOST_ABOVE_UPDATER, "%d crates are above updater_state: %s", len(above), sorted(above))


def main():
    arguments(__doc__).parse_args()
    checks, lines = Checks(100), every()
    check_folders(checks, lines)
    check_order(checks, lines)
    check_groups(checks, lines)
    check_audit(checks, lines)
    check_seam(checks, lines)
    return checks.report()


if __name__ == "__main__":
    sys.exit(main())
