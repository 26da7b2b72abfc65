"""Compares what `couchd serve` says on standard error with what happened: the lines of `--log` with the requests and responses
that they are about, and notices with the faults that they name.

    python3 tests/test_log.py [COUCHD]

Each request has one line: the time in UTC, the number of the worker, the method, the target, the status, the place, the bytes of
the response and microseconds. A target with bytes that could end a field or a line is escaped, and bytes that are no request have
`-` for both. Many clients at once have one line a request, each whole. Without `--log` there is none.

A history says once that nine tenths of its places are taken, and once that all are. A process that has no descriptor left for a
connection says so, once a second at most.
"""
import re
import signal
import socket
import sys
import threading
import time

from lib.checks import Checks
from lib.programs import SECONDS, arguments
from lib.requests import request
from lib.server import Server

LINE = re.compile(rb"(\d{4}-\d\d-\d\dT\d\d:\d\d:\d\d\.\d{6}Z) (\d+) (\S+) (\S+) (\d+) (\d+) (\d+) (\d+)\n")


def ask(server, *requests):
    """The responses to requests on one connection, up to its end."""
    with socket.create_connection(("127.0.0.1", server.port), SECONDS) as client:
        client.sendall(b"".join(requests))
        client.shutdown(socket.SHUT_WR)
        return b"".join(iter(lambda: client.recv(1 << 16), b""))


def asked(method, target, body=b""):
    return request(method, target, body, ["Host: db"])


def report_of(server):
    """What a server wrote on standard error, when it has ended."""
    server.stop(signal.SIGTERM)
    return server.reported_bytes()


# requests, with the status and the place of each response
ASKED = [
    ("GET", "/", b"", 200, 0),
    ("PUT", "/db/a", b"{}", 201, 1),
    ("PUT", "/db/a", b"{}", 409, 2),
    ("GET", "/db/a?revs=true", b"", 200, 2),
    ("GET", "/db/b", b"", 404, 2),
    ("HEAD", "/db/a", b"", 405, 2),
    ("GET", "/db/%0A2026", b"", 404, 2),
]


def each_request(couchd, checks):
    """One connection after the other, so that the bytes of each response are known."""
    with Server(couchd, "--log", "--workers", "1") as server:
        sizes = [len(ask(server, asked(method, target, body))) for method, target, body, _, _ in ASKED]
        found = LINE.findall(report_of(server))
    checks.check(len(found) == len(ASKED), "%d lines of %d requests", len(found), len(ASKED))
    for (method, target, _, status, place), size, line in zip(ASKED, sizes, found):
        wanted = (b"1", method.encode(), target.encode(), b"%d" % status, b"%d" % place, b"%d" % size)
        checks.check(line[1:7] == wanted, "a line:\n  wanted %r\n  found  %r", wanted, line[1:7])


def hostile(couchd, checks):
    """Targets and bytes that could forge a line."""
    with Server(couchd, "--log", "--workers", "1") as server:
        ask(server, asked("GET", "/db/\u00e9\u2028x"))
        ask(server, b"GET /db/a\n2026-01-01T00:00:00.000000Z 1 GET /db/forged 200 0 0 0\n\r\n\r\n")
        ask(server, b"\x00\x01\n\r\n\r\n")
        text = report_of(server)
    checks.check(b"forged" not in text, "a line was forged: %r", text)
    checks.check(len(text.splitlines()) == len(LINE.findall(text)) == 3, "not a line for each of three: %r", text)


def many(couchd, checks):
    """Sixteen clients at once: each request has its own line."""
    count = 200
    targets = [["/db/%d-%d" % (number, at) for at in range(count)] for number in range(16)]
    with Server(couchd, "--log", "--workers", "16") as server:
        sent = [[asked("PUT", target, b"{}") for target in mine] for mine in targets]
        clients = [threading.Thread(target=ask, args=(server, *mine), daemon=True) for mine in sent]
        for client in clients:
            client.start()
        for client in clients:
            client.join(SECONDS)
        text = report_of(server)
    found = sorted(line[3].decode() for line in LINE.findall(text))
    wanted = sorted(target for mine in targets for target in mine)
    checks.check(found == wanted, "%d lines of %d requests of many clients", len(found), len(wanted))
    checks.check(len(text.splitlines()) == len(wanted), "%d lines in all", len(text.splitlines()))


def silent(couchd, checks):
    """Without `--log` nothing is written of a request."""
    with Server(couchd) as server:
        ask(server, asked("GET", "/"))
        text = report_of(server)
    checks.check(text == b"", "lines without --log: %r", text)


def filled(couchd, checks):
    """Writes fill a history of 20 places, with reads between and behind."""
    with Server(couchd, "--max-places", "20", "--workers", "4") as server:
        heads = [ask(server, asked("PUT", "/db/%d" % number, b"{}"), asked("GET", "/db/0")) for number in range(25)]
        text = report_of(server)
    checks.check(sum(head.startswith(b"HTTP/1.1 201") for head in heads) == 20, "other than 20 writes were taken")
    wanted = b"couchd: the history has 18 of 20 places\ncouchd: the history is full, at 20 places\n"
    checks.check(text == wanted, "of a history that fills:\n  wanted %r\n  found  %r", wanted, text)


def crowded(couchd, checks):
    """More connections than the process may have descriptors, for some seconds."""
    most, seconds = 16, 3
    with Server(couchd, "--workers", "64", limits={"nofile": most}) as server:
        begin = time.monotonic()
        clients = [socket.create_connection(("127.0.0.1", server.port), SECONDS) for _ in range(2 * most)]
        time.sleep(seconds)
        for client in clients:
            client.close()
        answer = ask(server, asked("GET", "/"))
        checks.check(answer.startswith(b"HTTP/1.1 200"), "no answer once there are descriptors again")
        passed = time.monotonic() - begin
        lines = report_of(server).splitlines()
    wanted = b"couchd: a connection can't be accepted: "
    checks.check(all(line.startswith(wanted) for line in lines), "a line of another kind: %r", lines)
    checks.check(seconds - 1 <= len(lines) <= passed + 2, "%d lines in %.1f seconds", len(lines), passed)


def main():
    couchd, checks = arguments(__doc__, "couchd").parse_args().couchd, Checks()
    for part in (each_request, hostile, many, silent, filled, crowded):
        part(couchd, checks)
    return checks.report()


if __name__ == "__main__":
    sys.exit(main())
