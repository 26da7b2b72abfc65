"""python3 tests/reference < requests > responses

With a word it does what a command of the programs does: `once` (that is the default) and `dump` read requests, `check`, `base`
and `raised`, which is `base --raised`, the dump of a history.
"""
import os
import sys

sys.path.insert(0, os.path.dirname(os.path.dirname(os.path.abspath(__file__))))

from reference import history, once  # noqa: E402


def check(data):
    said, status = history.verdict(data)
    return said.encode() + b"\n", status


COMMANDS = {
    "once": once.run,
    "dump": lambda data: (history.dump_of(data), 0),
    "check": check,
    "base": history.next_base,
    "raised": lambda data: history.next_base(data, True),
}

out, status = COMMANDS[(sys.argv[1:] or ["once"])[0]](sys.stdin.buffer.read())
sys.stdout.buffer.write(out)
sys.stdout.flush()
sys.exit(status)
