"""Runs `couchd serve` with 32 clients at once, followers beside them, clients that misbehave, and a pause.

    python3 tests/test_sockets.py [--requests N] [--seed N] [COUCHD]

First how it begins and ends: the line that it prints, an end after so many connections, a port that is taken. Then 32 clients
send 20,000 requests of all kinds over connections that stay open, while others follow the changes by long polls and by feeds that
go on, of all documents and of some, and each response is checked: no position falls on a connection, each revision that was
answered is found at the end, no two writes won one parent, each follower has the documents of the end that it wants. Then one
client writes as it was planned, and each page and each row that others get of some documents is the one of its position; others
wait for a document while none or others change, and get nothing else, and one waits for any, and gets the first that is written.
A client that asks for heads between other requests keeps its connection. At last clients that misbehave: one that is cut off in a
request, one that goes away before its response, one that sends a byte a second, one that never reads. The others are served. One
that is refused while it still sends reads the refusal. A server that is stopped and goes on keeps its connections.
"""
import os
import random
import signal
import socket
import sys
import threading
import time

from lib.following.busy import DOCUMENTS, busy
from lib.checks import Checks
from lib.following.checked import Server, guarded
from lib.following.clients import Following
from lib.following.plan import Plan
from lib.following.quiet import Quiet
from lib.programs import SECONDS, arguments, run

PLANNED = 4_000  # writes beside the followers of some documents


# ---- the beginning and the end


def begins_and_ends(program, server):
    """How the program begins and ends, with two workers that serve one connection each."""
    first, second = server.connect(), server.connect()
    server.check(second.ask("PUT", "/db/a", {})[0] == 201, "the second of two connections is not served beside the first")
    server.check(first.ask("GET", "/db/a")[0] == 200, "the first connection does not see what the second one wrote")
    taken = run([program, "serve", "--port", str(server.port)])
    wanted = "couchd: cannot listen on port %d\n" % server.port
    server.check(taken.status == 1, "status %d where the port is taken", taken.status)
    server.check(taken.output == b"", "output %r where the port is taken", taken.output)
    server.check(taken.errors == wanted, "standard error %r where the port is taken", taken.errors)
    first.close()
    second.close()
    server.check(server.process.wait(SECONDS) == 0, "status %s after the last connection", server.process.returncode)


# ---- some documents


def planned(server, seed):
    """One writer, and followers of some documents: many and few, that change often, seldom and at the end alone."""
    dice = random.Random(seed)
    ids = ["e%d" % at for at in range(DOCUMENTS)]
    plan = Plan(dice, ids, PLANNED, "last")
    following = Following(plan, server.connect, server.check)
    often, seldom = ids[: DOCUMENTS // 2] + ["last"], ids[-4:] + ["", "x" * 513, "last", "none", ids[-1]]
    last = ["none", "last"]
    clients = [
        (following.poll, ids + last, 0, None),
        (following.poll, often, 0, 3),
        (following.poll, often, "now", 1),
        (following.poll, seldom, 0, 1),
        (following.poll, seldom, "now", None),
        (following.poll, last, 0, 2),
        (following.feed, ids + last, 0, None),
        (following.feed, often, 0, 50),
        (following.feed, often, 0, 1),
        (following.feed, seldom, 0, 3),
        (following.feed, seldom, 0, None),
        (following.feed, last, 0, None),
    ]
    threads = [threading.Thread(target=guarded(server.check, client[0]), args=client[1:], daemon=True) for client in clients]
    for thread in threads:
        thread.start()
    guarded(server.check, following.write)()
    for thread in threads:
        thread.join(SECONDS)
    server.check(
        following.ended == len(clients), "%d of %d followers of some documents come to the end", following.ended, len(clients)
    )
    print("some documents: %d polls and %d feeds beside %d writes" % (following.polls, following.feeds, plan.last))


def waits(server):
    """Followers of some documents while nothing changes, or others do."""
    guarded(server.check, Quiet(server.connect, server.check).run)()


LIMIT = "/db/_purged_infos_limit"
SHAPE = {"error": "bad_request", "reason": "shape"}


def worked(server):
    """The limit of the purge log, and changes of some documents, as they were worked by hand."""
    connection = server.connect()
    first = "1-b7a5841aeb59f1be5d0e27b640827094"

    def answered(asked, status, value, place):
        found = connection.ask(*asked)
        server.check(
            (*found, connection.place) == (status, value, place), "%r is answered %r at %d", asked, found, connection.place
        )

    def row(number):
        return {"changes": [{"rev": first}], "id": "_abc"[number], "seq": number}

    def page(ids, more, last_seq, pending, *rows):
        asked = "POST", "/db/_changes?filter=_doc_ids" + more, {"doc_ids": ids}
        answered(asked, 200, {"last_seq": last_seq, "pending": pending, "results": list(map(row, rows))}, 4)

    answered(("GET", LIMIT), 200, 1000, 0)
    answered(("PUT", LIMIT, 1), 200, {"ok": True}, 1)
    answered(("GET", LIMIT), 200, 1, 1)
    answered(("PUT", LIMIT, 0), 400, SHAPE, 1)
    for place, id in enumerate("abc", 2):
        answered(("PUT", "/db/" + id, {}), 201, {"id": id, "ok": True, "rev": first}, place)
    page(["c", "a", "zz", "a"], "", 3, 0, 1, 3)
    page(["c", "b"], "&limit=1", 2, 1, 2)
    page(["c", "b"], "&limit=1&feed=longpoll&since=2", 3, 0, 3)
    connection.send("PUT", "/db/_changes", {})
    status, headers = connection.head()
    server.check((status, headers.get("Allow")) == (405, "GET, POST"), "%d, %r for PUT of the changes", status, headers)
    connection.close()


# ---- heads


def heads(server):
    """What HEAD is answered ends at its empty line, and the connection goes on with the next response."""
    connection = server.connect()
    try:
        for target, status, length in [("/", 405, "61"), ("/db/a", 405, "61"), ("/x", 404, "40")] * 10:
            connection.send("HEAD", target)
            connection.send("GET", "/")
            found, headers = connection.head()
            server.check(
                (found, headers["Content-Length"]) == (status, length),
                "HEAD of %s is answered %d, of %s bytes",
                target,
                found,
                headers["Content-Length"],
            )
            answer = connection.answer()
            server.check(answer == (200, {"couchdb": "Welcome"}), "GET behind HEAD of %s is answered %r", target, answer)
    except (EOFError, KeyError, OSError, ValueError) as error:
        server.check(False, "a client can't read on behind HEAD: %r", error)
    connection.close()


# ---- clients that misbehave


def served(server, requests, text):
    """Other clients are served meanwhile."""
    connection = server.connect()
    for at in range(requests):
        status, _ = connection.ask("GET", "/db")
        server.check(status == 200, "%d beside %s", status, text)
    connection.close()


def refused(server, head, pieces, status, ending):
    """A client that sends on, piece by piece, reads why its request is refused."""
    connected = socket.create_connection(("127.0.0.1", server.port), timeout=SECONDS)
    connected.setsockopt(socket.IPPROTO_TCP, socket.TCP_NODELAY, 1)
    try:
        connected.sendall(head + b"\r\n\r\n")
        for piece in pieces:
            connected.sendall(piece)
        answer = b"".join(iter(lambda: connected.recv(4096), b""))
    except OSError as error:
        answer = str(error).encode()
    is_refusal = answer.startswith(b"HTTP/1.1 %d " % status) and answer.endswith(ending)
    server.check(is_refusal, "a client that is refused while it sends reads %r", answer)
    connected.close()


def misbehave(server):
    connection = server.connect()
    large = {"text": "x" * 900_000}
    server.check(connection.ask("PUT", "/db/large", large)[0] == 201, "a large document is refused")
    connection.close()

    cut = socket.create_connection(("127.0.0.1", server.port))
    cut.sendall(b'PUT /db/cut HTTP/1.1\r\nContent-Length: 100\r\n\r\n{"n":')
    cut.close()
    served(server, 50, "a request that was cut")

    gone = socket.create_connection(("127.0.0.1", server.port))
    gone.sendall(b"GET /db/large HTTP/1.1\r\n\r\n" * 4)
    gone.recv(10)
    gone.setsockopt(socket.SOL_SOCKET, socket.SO_LINGER, b"\x01\x00\x00\x00\x00\x00\x00\x00")
    gone.close()  # with a reset
    served(server, 50, "a client that went away in a response")

    deaf = socket.create_connection(("127.0.0.1", server.port))
    deaf.sendall(b"GET /db/large HTTP/1.1\r\n\r\n" * 20)
    slow = socket.create_connection(("127.0.0.1", server.port), timeout=SECONDS)
    for byte in b"GET /":
        slow.sendall(bytes([byte]))
        served(server, 20, "clients that are slow or never read")
        time.sleep(1)
    slow.sendall(b"db HTTP/1.1\r\n\r\n")
    server.check(slow.recv(15) == b"HTTP/1.1 200 OK", "a slow client is not answered")
    slow.close()
    deaf.close()

    large = b"PUT /db/refused HTTP/1.1\r\nContent-Length: 2000000"
    refused(server, large, [b" " * 2_000_000], 413, b'{"error":"too_large","reason":"body"}')
    chunked = b"PUT /db/refused HTTP/1.1\r\nTransfer-Encoding: chunked"
    refused(server, chunked, [b"3c\r\n%060d\r\n" % 0] * 10_000, 411, b'"reason":"Chunked bodies are not taken."}')

    connection = server.connect()
    status, value = connection.ask("GET", "/db/cut")
    server.check((status, value["reason"]) == (404, "missing"), "a request that was cut left %r", value)
    connection.close()


def pause(server):
    """Stops the server, as Ctrl-Z does, and has it go on."""
    time.sleep(0.2)  # so that its workers wait in their calls
    server.process.send_signal(signal.SIGSTOP)
    os.waitid(os.P_PID, server.process.pid, os.WSTOPPED)
    server.process.send_signal(signal.SIGCONT)
    time.sleep(0.2)


def paused(server):
    """What waits for a request, or for a client that doesn't read, goes on after a pause."""
    idle, deaf = server.connect(), server.connect()
    text = "x" * 900_000
    server.check(idle.ask("PUT", "/db/large", {"text": text})[0] == 201, "a large document is refused")
    for _ in range(20):
        deaf.send("GET", "/db/large")
    pause(server)
    try:
        server.check(idle.ask("GET", "/db")[0] == 200, "a connection that waited over a pause is not served")
        for _ in range(20):
            status, value = deaf.answer()
            server.check(
                (status, value["text"]) == (200, text), "a response over a pause: status %d, %d bytes", status, len(value["text"])
            )
    except (EOFError, OSError) as error:
        server.check(False, "a connection ended with a pause: %s", error)
    idle.close()
    deaf.close()


def main():
    checks = Checks()
    reader = arguments(__doc__, "couchd")
    reader.add_argument("--requests", type=int, default=20_000)
    reader.add_argument("--seed", type=int, default=1)
    given = reader.parse_args()
    with Server(checks, given.couchd, "--workers", "2", "--connections", "1") as server:
        begins_and_ends(given.couchd, server)
    with Server(checks, given.couchd, "--workers", "64") as server:
        busy(server, given.requests, given.seed)
    with Server(checks, given.couchd, "--workers", "1") as server:
        worked(server)
        heads(server)
    with Server(checks, given.couchd, "--workers", "16") as server:
        planned(server, given.seed)
    with Server(checks, given.couchd, "--workers", "8") as server:
        waits(server)
    with Server(checks, given.couchd, "--workers", "4") as server:
        misbehave(server)
    with Server(checks, given.couchd, "--workers", "2") as server:
        paused(server)
    return checks.report()


if __name__ == "__main__":
    sys.exit(main())
