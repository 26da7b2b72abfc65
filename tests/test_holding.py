"""Has clients hold the workers of `couchd serve` in each way they can, and looks how long others wait for one.

    python3 tests/test_holding.py [--workers N] [--idle SECONDS] [--patience SECONDS] [COUCHD]

As many clients as there are workers send a byte at a time, or never read, or say nothing to workers that accept connections
themselves; one more client is served as soon as their time is over, and beside others that say nothing at once. Others are refused and go on sending, or end by `Connection: close` and stay. Clients that keep their connections,
more than there are workers, are served in turn. Long polls and feeds go on while nothing comes, and so does a client whose pauses
are short. A server that gets fewer threads than it wants says how many workers serve. The short form has 4 workers; the times of
the program and as many workers as it may have are given so: --workers 64 --idle 15 --patience 60.
"""
import contextlib
import os
import re
import socket
import subprocess
import sys
import threading
import time

from lib.checks import Checks
from lib.programs import SECONDS, arguments
from lib.server import Connection, Server

SLACK = 2.5  # seconds that a machine with other work may add
DRAIN_SECONDS = 2  # for which the program reads what comes after a refusal
DRAIN_BYTES = 8 * 1_048_576  # of which it reads so many at most
LARGE = 1_000_000  # bytes of a document whose answers fill the buffers of a socket


class Times:
    """The times that a server was given, and the number of its workers."""

    def __init__(self, given):
        self.program, self.workers, self.idle, self.patience = given.couchd, given.workers, given.idle, given.patience

    def server(self, workers=None, connections=0):
        words = ["--workers", str(workers or self.workers), "--idle", str(self.idle), "--patience", str(self.patience)]
        return Server(self.program, *words, "--connections", str(connections))


def plain(port, data=b"", buffer=None):
    """A socket that has sent this."""
    connected = socket.socket()
    if buffer is not None:
        connected.setsockopt(socket.SOL_SOCKET, socket.SO_RCVBUF, buffer)
    connected.settimeout(SECONDS * 3)
    connected.connect(("127.0.0.1", port))
    connected.sendall(data)
    return connected


def end_of(connected):
    """What a socket still gives until it ends or is reset."""
    data = b""
    try:
        while piece := connected.recv(65536):
            data += piece
    except ConnectionError:
        pass
    return data


def wait_of_another(checks, port):
    """How many seconds one more client waits for its answer."""
    start = time.monotonic()
    another = Connection(port)
    another.socket.settimeout(SECONDS * 3)
    status, _ = another.ask("GET", "/db/_all_docs")
    checks.check(status == 200, "%d for one more client", status)
    another.close()
    return time.monotonic() - start


def waits(checks, what, port, least, most):
    """One more client waits at least and at most so many seconds beside clients that hold the workers."""
    took = wait_of_another(checks, port)
    checks.check(
        least <= took <= most + SLACK, "beside %s one more client waited %.2f s, and not %s to %s", what, took, least, most
    )


def drip(connected, data, pause):
    """Sends a byte after another, until the other end has closed."""
    with contextlib.suppress(OSError):
        for byte in data:
            connected.sendall(bytes([byte]))
            time.sleep(pause)


# ---- what holds workers


def say_nothing(checks, times):
    with times.server() as server:
        held = [plain(server.port) for _ in range(times.workers)]
        time.sleep(0.1)
        waits(checks, "clients that say nothing", server.port, 0, 0)
        for one in held:
            checks.check(end_of(one) == b"", "a client that said nothing got an answer")


def say_nothing_to_workers(checks, times):
    """Workers that accept connections themselves have each until it ends."""
    with times.server(connections=1000) as server:
        held = [plain(server.port) for _ in range(times.workers)]
        time.sleep(0.1)
        waits(checks, "clients that say nothing to workers", server.port, times.idle * 0.5, times.idle)
        for one in held:
            checks.check(end_of(one) == b"", "a client that said nothing to a worker got an answer")


def send_slowly(checks, times, what, beginning):
    """Clients that send a byte at a time behind this beginning, which is no whole request."""
    with times.server() as server:
        held = [plain(server.port, beginning) for _ in range(times.workers)]
        pause = times.patience / 20
        for one in held:
            threading.Thread(target=drip, args=(one, b"x" * 1000, pause), daemon=True).start()
        time.sleep(0.1)
        waits(checks, "clients that send %s slowly" % what, server.port, times.patience * 0.5, times.patience)
        for one in held:
            checks.check(end_of(one) == b"", "a client that sent %s slowly got an answer", what)


def never_read(checks, times, pause=None):
    """Clients that ask for more than the buffers of a socket hold, and read nothing, or a little at a time."""
    with times.server() as server:
        writer = Connection(server.port)
        checks.check(writer.ask("PUT", "/db/large", {"text": "x" * LARGE})[0] == 201, "a large document is not taken")
        writer.close()
        wanted = b"GET /db/large HTTP/1.1\r\nHost: db\r\n\r\n" * 40
        held = [plain(server.port, wanted, 4096) for _ in range(times.workers)]
        if pause is not None:
            for one in held:
                threading.Thread(target=read_slowly, args=(one, pause), daemon=True).start()
        time.sleep(0.1)
        what = "clients that never read" if pause is None else "clients that read slowly"
        waits(checks, what, server.port, times.patience * 0.5, times.patience)
        for one in held:
            one.close()


def read_slowly(connected, pause):
    with contextlib.suppress(OSError):
        while connected.recv(16):
            time.sleep(pause)


# ---- after the last response


def refused_but_sending(checks, times):
    """Clients that are refused, and send a byte at a time: they hold a worker for two seconds in all."""
    with times.server(1) as server:
        one = plain(server.port, b"GET / HTTP/1.1\r\nno header\r\n\r\n")
        threading.Thread(target=drip, args=(one, b"x" * 1000, 0.1), daemon=True).start()
        time.sleep(0.1)
        waits(checks, "a client that is refused and goes on sending", server.port, 0.5, DRAIN_SECONDS)
        checks.check(end_of(one).startswith(b"HTTP/1.1 400 "), "the refusal was lost")


def refused_but_flooding(checks, times):
    """A client that is refused and sends as fast as it can: so many bytes are read, and no more."""
    with times.server(1) as server:
        one = plain(server.port, b"GET / HTTP/1.1\r\nno header\r\n\r\n")
        start, sent = time.monotonic(), 0
        with contextlib.suppress(OSError):
            while sent < 16 * DRAIN_BYTES:
                sent += one.send(b"x" * 65536)
        took = time.monotonic() - start
        checks.check(sent >= DRAIN_BYTES // 2, "only %d bytes were read after a refusal", sent)
        checks.check(sent < 4 * DRAIN_BYTES, "%d bytes were read after a refusal", sent)
        checks.check(took < DRAIN_SECONDS + SLACK, "a client that was refused sent for %.1f s", took)


def closing_and_staying(checks, times):
    """Clients that ask for an end, and keep their sockets open: they cost nobody any time."""
    wanted = b"GET / HTTP/1.1\r\nHost: db\r\nConnection: close\r\n\r\n"
    with times.server(1) as server:
        start = time.monotonic()
        held = [plain(server.port, wanted) for _ in range(30)]
        for one in held:
            checks.check(end_of(one).startswith(b"HTTP/1.1 200 "), "no answer before an end")
        took = time.monotonic() - start
        checks.check(took < SLACK, "30 clients that ask for an end took %.2f s", took)


def closing_and_sending(checks, times):
    """A client that asks for an end and has sent more by then still reads its answer."""
    with times.server(1) as server:
        one = plain(server.port, b"GET / HTTP/1.1\r\nHost: db\r\nConnection: close\r\n\r\n" + b"x" * 200_000)
        checks.check(end_of(one).startswith(b"HTTP/1.1 200 "), "the answer before an end was lost")


# ---- what is served all the same


def pool(checks, times):
    """Clients that keep their connections, three for each worker, and pause for longer than they may be idle."""
    count, rounds = 3 * times.workers, 2
    longest = []

    def client():
        worst = 0
        for _ in range(rounds):
            start = time.monotonic()
            one = Connection(server.port)
            checks.check(one.ask("GET", "/db/_all_docs")[0] == 200, "no answer to a client of a pool")
            worst = max(worst, time.monotonic() - start)
            checks.check(end_of(one.socket) == b"", "an answer that was not asked for")  # it pauses until it is closed
            one.close()
        longest.append(worst)

    with times.server() as server:
        clients = [threading.Thread(target=client) for _ in range(count)]
        for one in clients:
            one.start()
        for one in clients:
            one.join()
    checks.check(len(longest) == count, "%d of %d clients of a pool were served", len(longest), count)
    most = 3 * times.idle + SLACK
    checks.check(
        max(longest, default=0) <= most, "a client of a pool waited %.1f s, and not %.1f at most", max(longest, default=0), most
    )


def short_pauses(checks, times):
    """A client that pauses for less than it may be idle keeps its connection for longer than patience lasts."""
    with times.server(1) as server:
        one = Connection(server.port)
        end = time.monotonic() + times.patience + times.idle
        while time.monotonic() < end:
            checks.check(one.ask("GET", "/db/_all_docs")[0] == 200, "a client that pauses was given up")
            time.sleep(times.idle / 2)
        one.close()


def part_of_the_next(checks, times):
    """A request of which a part came with the one before has begun, so it is waited for as long as patience lasts."""
    first, second = b"GET / HTTP/1.1\r\nHost: db\r\n\r\n", b"GET /db/_all_docs HTTP/1.1\r\nHost: db\r\n\r\n"
    with times.server(1) as server:
        one = plain(server.port, first + second[:10])
        time.sleep((times.idle + times.patience) / 2)
        one.sendall(second[10:])
        one.shutdown(socket.SHUT_WR)
        data = end_of(one)
        checks.check(data.count(b"HTTP/1.1 200 ") == 2, "a request that was begun with another one got no answer: %r", data)


def wait_for_changes(checks, times):
    """A long poll and a feed last while nothing comes, for longer than a connection may be idle and patience lasts."""
    with times.server(3) as server:
        poll, feed, writer = (Connection(server.port) for _ in range(3))
        poll.send("GET", "/db/_changes?feed=longpoll")
        feed.send("GET", "/db/_changes?feed=continuous")
        checks.check(feed.head()[0] == 200, "no feed")
        end = time.monotonic() + times.patience + times.idle
        while time.monotonic() < end:
            writer.ask("GET", "/db/_all_docs")
            time.sleep(times.idle / 2)
        checks.check(writer.ask("PUT", "/db/a", {})[0] == 201, "no write beside followers")
        status, value = poll.answer()
        checks.check(status == 200 and [row["id"] for row in value["results"]] == ["a"], "a long poll got %r", value)
        while b"\n" not in feed.rest:
            if not feed.more():
                break
        checks.check(b'"id":"a"' in feed.rest, "a feed got %r", feed.rest)
        for one in (poll, feed, writer):
            one.close()


# ---- fewer workers than were asked for


def served_at_once(port, most):
    """How many clients that keep their connections are answered, of so many."""
    held = [plain(port, b"GET / HTTP/1.1\r\nHost: db\r\n\r\n") for _ in range(most)]
    time.sleep(1)
    answered = 0
    for one in held:
        one.setblocking(False)
        with contextlib.suppress(OSError):
            answered += one.recv(4096).startswith(b"HTTP/1.1 ")
    for one in held:
        one.close()
    return answered


def ends_within(process, seconds):
    """Whether a program ends in time."""
    with contextlib.suppress(subprocess.TimeoutExpired):
        process.wait(seconds)
    return process.returncode is not None


FEW = re.compile(r"couchd: (\d+) of 4 workers serve: threads or memory are refused\n")


def limited(times, kilobytes):
    """A server with so much room for addresses, which wants 4 workers that accept connections themselves."""
    words = ["--workers", "4", "--connections", "1000000"]
    return Server(times.program, *words, limits={"as": kilobytes * 1024}, seconds=SLACK)


def serving_of(checks, server, kilobytes):
    """How many workers a server says that serve, or None where it says nothing and goes on."""
    said = FEW.fullmatch(server.first_report(SLACK))
    if said is None:
        ends = ends_within(server.process, 0.5)
        checks.check(not ends, "a server with room for %d kilobytes ends and doesn't say that none serve", kilobytes)
        return None
    return int(said.group(1))


def fewer_workers(checks, times):
    """With less and less room for addresses fewer of 4 workers serve, and at last none. Each of it is said."""
    counts, ends = set(), 0
    for kilobytes in (32000, 28000, 24000, 20000, *range(18000, 5000, -500)):
        with limited(times, kilobytes) as server:
            serving = serving_of(checks, server, kilobytes)
            if serving == 0:
                has_ended = ends_within(server.process, 3) and server.process.returncode == 1
                checks.check(has_ended, "status %s where no worker can be had", server.process.returncode)
                ends += 1
            elif serving is not None:
                # A worker that has a thread and gets its memory later serves too.
                is_heard = server.port is not None or server.listens()
                checks.check(is_heard, "a server of which %d workers serve doesn't listen", serving)
                threads = len(os.listdir("/proc/%d/task" % server.process.pid))
                at_once = served_at_once(server.port, 4)
                text = "%d clients are served at once by %d threads, of which %d were said to serve"
                checks.check(serving <= at_once <= threads, text, at_once, threads, serving)
                counts.add(serving)
    checks.check(counts != set(), "fewer workers than were asked for are never said")
    checks.check(ends > 0, "a server with too little room for a second thread goes on")


def all_workers(checks, times):
    """A server that gets all its workers says nothing."""
    with limited(times, 4_000_000) as server:
        checks.check(server.first_report(2) == "", "a server that gets all its workers says something")


def whole(checks, times, step, *more):
    """Runs a step, of which an exception is a failure."""
    try:
        step(checks, times, *more)
    except (OSError, ValueError, subprocess.SubprocessError) as fault:
        checks.check(False, "%s ended with %r", step.__name__, fault)


def main():
    checks = Checks()
    reader = arguments(__doc__, "couchd")
    reader.add_argument("--workers", type=int, default=4)
    reader.add_argument("--idle", type=int, default=1)
    reader.add_argument("--patience", type=int, default=2)
    times = Times(reader.parse_args())
    steps = [
        (say_nothing,),
        (say_nothing_to_workers,),
        (send_slowly, "a head", b"GET /"),
        (send_slowly, "a body", b"PUT /db/a HTTP/1.1\r\nHost: db\r\nContent-Length: 5000\r\n\r\n"),
        (never_read,),
        (never_read, 0.05),
        (refused_but_sending,),
        (refused_but_flooding,),
        (closing_and_staying,),
        (closing_and_sending,),
        (pool,),
        (short_pauses,),
        (part_of_the_next,),
        (wait_for_changes,),
        (fewer_workers,),
        (all_workers,),
    ]
    running = [threading.Thread(target=whole, args=(checks, times, *step)) for step in steps]
    for one in running:
        one.start()
    for one in running:
        one.join()
    return checks.report()


if __name__ == "__main__":
    sys.exit(main())
