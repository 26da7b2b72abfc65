"""The program and the second reading on the same requests: what one writes must be what the other answers."""
import os
import tempfile
from typing import NamedTuple

from reference.once import run as answer

from .programs import run_once

TRIES = 150  # runs to make one input smaller
MOST = 5  # failures after which it stops


class Case(NamedTuple):
    """An input: its name, the pieces that it may be made smaller by, and the parts of what must be written, each of which
    counts."""

    name: str
    pieces: list
    wanted: list


def right_parts(written, wanted):
    """How many parts are written before the first that isn't."""
    at = 0
    for number, part in enumerate(wanted):
        if written[at : at + len(part)] != part:
            return number
        at += len(part)
    return len(wanted)


def is_same(written, ended, wanted):
    return written == wanted and ended == "status 0"


def smaller(program, pieces):
    """Fewer pieces that still make a difference."""
    at = len(pieces) - 1
    for _ in range(TRIES):
        if at < 0:
            break
        fewer = [*pieces[:at], *pieces[at + 1 :]]
        data = b"".join(fewer)
        if not is_same(*run_once(program, data), answer(data)[0]):
            pieces = fewer
        at = min(at, len(pieces)) - 1
    return pieces


def show(program, case):
    """Prints where the two differ, on an input that was made smaller and is kept in a file."""
    data = b"".join(smaller(program, case.pieces))
    wanted = answer(data)[0]
    written, ended = run_once(program, data)
    same = len(os.path.commonprefix([written, wanted]))
    with tempfile.NamedTemporaryFile(prefix="couchd-", suffix=".http", delete=False) as file:
        file.write(data)
    print("FAILED: %s: %s; byte %d differs, input in %s" % (case.name, ended, same, file.name))
    print("  input   %r" % data[-600:])
    print("  wanted  %r" % wanted[max(same - 200, 0) : same + 300])
    print("  written %r" % written[max(same - 200, 0) : same + 300], flush=True)


def compare(program, cases):
    """How many parts of all cases are right, and how many aren't. It stops after some cases that differ."""
    passed = failed = differing = 0
    for case in cases:
        written, ended = run_once(program, b"".join(case.pieces))
        right = right_parts(written, case.wanted)
        passed += right
        if is_same(written, ended, b"".join(case.wanted)):
            continue
        failed += max(len(case.wanted) - right, 1)
        differing += 1
        show(program, case)
        if differing == MOST:
            print("stopped after %d inputs that differ" % MOST)
            break
    return passed, failed
