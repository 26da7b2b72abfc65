"""Has thousands of clients wait beside a few workers of `couchd serve`, and looks how soon others are answered.

    python3 tests/test_waiting.py [--idle N] [--silent N] [--seconds N] [COUCHD]

Connections that say nothing hold no worker: beside so many, a GET and a PUT over a new connection are answered at once, and so is
each of them that asks at last. They take little memory, and no processor time while nothing happens. A client that goes away is
noticed at once, one that says nothing is given up in time, and an epoch that ends closes those that wait. At most so many are
connected: others wait until one leaves, and that is said.
"""
import itertools
import os
import select
import socket
import statistics
import sys
import tempfile
import time

from lib.checks import Checks
from lib.programs import SECONDS, arguments, memory, processor_seconds
from lib.server import Connection, Server

GET = b"GET / HTTP/1.1\r\nHost: db\r\n\r\n"
BYTES_PER_CLIENT = 20_000  # that one which waits may take
MIDDLE, NEARLY_ALL = 0.02, 0.1  # seconds of an answer: at the middle, and at 99 of 100
LONGEST = 0.2  # seconds that an answer takes at most beside clients that say nothing
BUSY = 0.03  # of a processor, while nothing happens
SLACK = 2.0  # seconds that a machine with other work may add


def silent(port, count):
    """So many connections that say nothing."""
    held = []
    for _ in range(count):
        one = socket.create_connection(("127.0.0.1", port), timeout=SECONDS)
        held.append(one)
    return held


def descriptors(process):
    return len(os.listdir("/proc/%d/fd" % process.pid))


def comes_to_be(holds, seconds):
    """Whether something holds in time."""
    end = time.monotonic() + seconds
    while not holds():
        if time.monotonic() > end:
            return False
        time.sleep(0.01)
    return True


NUMBERS = itertools.count()  # of the documents that are written


def timed(port, count):
    """How long so many GETs and PUTs take, each over a connection of its own."""
    took, wrong = [], []
    for number in range(count):
        start = time.monotonic()
        one = Connection(port)
        status, _ = one.ask("GET", "/db") if number % 2 else one.ask("PUT", "/db/d%d" % next(NUMBERS), {})
        took.append(time.monotonic() - start)
        one.close()
        if status not in (200, 201):
            wrong.append(status)
    return took, wrong


def quick(checks, what, port, count, longest=NEARLY_ALL):
    """GETs and PUTs are answered soon beside clients that wait."""
    took, wrong = timed(port, count)
    took.sort()
    middle, nearly_all = statistics.median(took), took[int(len(took) * 0.99)]
    checks.check(not wrong, "beside %s some were answered %r", what, wrong)
    checks.check(middle <= MIDDLE, "beside %s the middle answer took %.1f ms", what, middle * 1000)
    checks.check(nearly_all <= longest, "beside %s one in a hundred took %.1f ms", what, nearly_all * 1000)


def ask_all(checks, held):
    """All that were silent ask at once, and each is answered."""
    for one in held:
        one.sendall(GET)
    waiting = select.epoll()
    by = {one.fileno(): one for one in held}
    for number in by:
        waiting.register(number, select.EPOLLIN)
    end = time.monotonic() + SECONDS
    while by and time.monotonic() < end:
        for number, _ in waiting.poll(0.5):
            one = by.pop(number)
            waiting.unregister(number)
            answer = one.recv(65536)
            checks.check(answer.startswith(b"HTTP/1.1 200 "), "one that was silent got %r", answer[:60])
    waiting.close()
    checks.check(not by, "%d of %d that were silent are not answered", len(by), len(held))


def idle_ones(checks, given):
    """Connections that say nothing for long, and then ask."""
    with Server(given.couchd, "--workers", "16", "--idle", "3600") as server:
        timed(server.port, 50)  # all workers have started then
        quick(checks, "nobody", server.port, 50)
        before = memory(server.process.pid, "VmRSS")
        held = silent(server.port, given.idle)
        time.sleep(0.5)
        each = (memory(server.process.pid, "VmRSS") - before) / given.idle
        checks.check(each <= BYTES_PER_CLIENT, "an idle connection takes %d bytes", each)
        quick(checks, "%d idle connections" % given.idle, server.port, 200)
        time.sleep(0.5)
        took = processor_seconds(server.process.pid)
        time.sleep(given.seconds)
        busy = (processor_seconds(server.process.pid) - took) / given.seconds
        checks.check(busy <= BUSY, "while nothing happens the server takes %.1f per cent of a processor", busy * 100)
        ask_all(checks, held)
        ask_all(checks, held)
        open_ones = descriptors(server.process)
        for one in held[: given.idle // 2]:
            one.close()
        gone = comes_to_be(lambda: descriptors(server.process) <= open_ones - given.idle // 2, SLACK)
        checks.check(gone, "of %d descriptors %d are left where half of the clients went", open_ones, descriptors(server.process))
        ask_all(checks, held[given.idle // 2 :])


def many_silent(checks, given):
    """More connections that say nothing than there are places: nobody who is let in waits long."""
    count = given.silent
    with Server(given.couchd, "--workers", "4", "--clients", str(count + 100), "--idle", "3600") as server:
        held = silent(server.port, count)
        quick(checks, "%d silent connections" % count, server.port, 200, LONGEST)
        for one in held:
            one.close()


def given_up(checks, given):
    """One that says nothing is closed in time; one that asks now and then is kept."""
    with Server(given.couchd, "--workers", "1", "--idle", "1") as server:
        quiet, busy = silent(server.port, 2)
        start = time.monotonic()
        while time.monotonic() < start + 2.5:
            busy.sendall(GET)
            checks.check(busy.recv(65536).startswith(b"HTTP/1.1 200 "), "one that asks now and then got no answer")
            time.sleep(0.25)
        quiet.settimeout(0.01)
        checks.check(quiet.recv(10) == b"", "one that says nothing is not closed")
        busy.settimeout(SECONDS)
        start = time.monotonic()
        checks.check(busy.recv(10) == b"", "one that asks no more got something")
        took = time.monotonic() - start
        checks.check(0.5 < took < 1 + SLACK, "one that asks no more was closed after %.2f s", took)


def half_closed(checks, given):
    """One that ends its input behind a request is answered, and closed then."""
    with Server(given.couchd, "--workers", "1") as server:
        (one,) = silent(server.port, 1)
        time.sleep(0.1)
        one.sendall(GET + GET)
        one.shutdown(socket.SHUT_WR)
        data = b""
        while piece := one.recv(65536):
            data += piece
        checks.check(data.count(b"HTTP/1.1 200 ") == 2, "one that ended its input got %r", data)


def no_more(checks, given):
    """At most so many are connected. The next one is let in when one leaves."""
    with Server(given.couchd, "--workers", "2", "--clients", "8", "--idle", "3600") as server:
        held = silent(server.port, 8)
        ask_all(checks, held)
        (another,) = silent(server.port, 1)
        another.sendall(GET)
        another.settimeout(0.5)
        try:
            checks.check(False, "one more than may be connected got %r", another.recv(10))
        except TimeoutError:
            pass
        said = "couchd: 8 clients are connected, and no more are accepted until one leaves\n"
        checks.check(server.reported() == said, "where as many are connected as may be it is said %r", server.reported())
        held.pop().close()
        another.settimeout(SECONDS)
        checks.check(another.recv(65536).startswith(b"HTTP/1.1 200 "), "the next one is not let in when one leaves")
        ask_all(checks, held)


def over_epochs(checks, given):
    """Where an epoch is full those that wait are closed, and others are served by the next one."""
    with tempfile.TemporaryDirectory() as folder:
        words = ["--workers", "2", "--max-places", "4", "--idle", "3600"]
        with Server(given.couchd, *words, data=folder) as server:
            held = silent(server.port, 50)
            ask_all(checks, held)
            for number in range(12):
                start = time.monotonic()
                status = 503
                while status == 503 and time.monotonic() < start + SECONDS:
                    one = Connection(server.port)
                    try:
                        status, _ = one.ask("PUT", "/db/e%d" % number, {})
                    except (EOFError, OSError, ValueError):
                        status = 503
                    one.close()
                checks.check(status == 201, "a write over epochs got %d", status)
            closed = 0
            for one in held:
                one.settimeout(SLACK)
                closed += one.recv(10) == b""
            checks.check(closed == len(held), "%d of %d that waited were closed at the end of an epoch", closed, len(held))


def main():
    reader = arguments(__doc__, "couchd")
    reader.add_argument("--idle", type=int, default=400)
    reader.add_argument("--silent", type=int, default=900)
    reader.add_argument("--seconds", type=int, default=2)
    given = reader.parse_args()
    checks = Checks()
    for step in (idle_ones, many_silent, given_up, half_closed, no_more, over_epochs):
        try:
            step(checks, given)
        except (OSError, EOFError, ValueError) as fault:
            checks.check(False, "%s ended with %r", step.__name__, fault)
    return checks.report()


if __name__ == "__main__":
    sys.exit(main())
