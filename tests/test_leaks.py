"""Bounds the memory that the built program keeps for each overwrite of one document.

    python3 tests/test_leaks.py [COUCHD]

One document is overwritten 100,000 times with a `_revs_limit` of 1, so its tree stays as it is and only the history grows,
which keeps each command and its reply. The most memory that the program has held is read after 20,000 overwrites and
after all of them, so what it holds at the start cancels.
"""
import hashlib
import os
import subprocess
import sys
import threading

from lib.checks import Checks
from lib.messages import Messages
from lib.programs import arguments, memory
from lib.requests import request

FIRST, ALL = 20000, 100000  # overwrites after which the memory is read
# An overwrite keeps 240 bytes: the history's entry, with its command and its reply. A tenth more is less than the 64 bytes that a
# leaked node of a map takes.
MOST = 264


def overwrites(count):
    """A request for each overwrite, the first of which makes the document."""
    target, parent = "/db/a", ""
    for generation in range(1, count + 1):
        yield request("PUT", target, "{}")
        parent = "%d-%s" % (generation, hashlib.md5(("0,%s,{}" % parent).encode()).hexdigest())
        target = "/db/a?rev=" + parent


class Program:
    """A run of the program."""

    def __init__(self, path):
        self.process = subprocess.Popen([path, "once"], stdin=subprocess.PIPE, stdout=subprocess.PIPE)
        self.responses = Messages(lambda: os.read(self.process.stdout.fileno(), 65536))

    def answers(self, requests, status):
        """How many of the requests have this status. They are sent without waiting for the responses."""
        sender = threading.Thread(target=self.send, args=(requests,))
        sender.start()
        found = sum(self.responses.next_response()[0] == status for _ in requests)
        sender.join()
        return found

    def send(self, requests):
        for at in range(0, len(requests), 500):
            self.process.stdin.write(b"".join(requests[at : at + 500]))
            self.process.stdin.flush()

    def most_memory(self):
        """The most bytes that it has held."""
        return memory(self.process.pid, "VmHWM")


def main():
    program = Program(arguments(__doc__, "couchd").parse_args().couchd)
    requests = list(overwrites(ALL))
    checks = Checks()
    check = checks.check
    check(program.answers([request("PUT", "/db/_revs_limit", "1")], 200) == 1, "the limit is set")
    check(program.answers(requests[:FIRST], 201) == FIRST, "the first overwrites are taken")
    before = program.most_memory()
    check(program.answers(requests[FIRST:], 201) == ALL - FIRST, "the other overwrites are taken")
    kept = (program.most_memory() - before) / (ALL - FIRST)
    print("%.0f bytes for each overwrite, and at most %d" % (kept, MOST))
    check(0 < kept <= MOST, "an overwrite keeps few bytes")
    program.process.stdin.close()
    check(program.process.wait() == 0, "the program ends with status 0")
    return checks.report()


if __name__ == "__main__":
    sys.exit(main())
