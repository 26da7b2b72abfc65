"""Times long polls that end with no change: how long each takes, and how much processor time it costs the server.

    python3 benches/bench_polls.py [--polls N]... [--only all|some]... [--store] [COUCHD]

A server with 64 workers and no documents is asked for so many long polls at once (1, and then 32, where no number is given), each
over a connection of its own: of all documents, and then of ten that are listed. A poll takes about two minutes. The processor
time is that of the server's process, as the system counts it. The ratio is of a poll of some documents to one of all.
"""
import socket
import sys
import time

from shared import machine
from shared.ratios import Ratios, with_store

from lib.programs import arguments
from lib.requests import request
from lib.server import Server

LISTED = {"doc_ids": ["note-%06d" % number for number in range(10)]}
REQUESTS = {
    "all": request("GET", "/db/_changes?feed=longpoll", None, ["Connection: close"]),
    "some": request("POST", "/db/_changes?feed=longpoll&filter=_doc_ids", LISTED, ["Connection: close"]),
}
ANSWER = b'{"last_seq":0,"pending":0,"results":[]}'
SECONDS = 600  # that a poll may take


def polled(server, asked, polls):
    """The seconds that each of the polls took, and the server's processor seconds."""
    used, began, took = machine.processor_seconds(server.process.pid), time.monotonic(), []
    clients = [socket.create_connection(("127.0.0.1", server.port), timeout=SECONDS) for _ in range(polls)]
    for client in clients:
        client.sendall(asked)
    for client in clients:
        with client, client.makefile("rb") as response:
            if not response.read().endswith(ANSWER):
                raise ValueError("a poll was answered otherwise")
        took.append(time.monotonic() - began)
    return took, machine.processor_seconds(server.process.pid) - used


def main():
    reader = with_store(arguments(__doc__, "couchd"))
    reader.add_argument("--polls", type=int, action="append")
    reader.add_argument("--only", choices=sorted(REQUESTS), action="append")
    given = reader.parse_args()
    counts, used = given.polls or [1, 32], {}
    with Server(given.couchd, "--workers", "64") as server:
        for name in given.only or REQUESTS:
            for polls in counts:
                took, used[name, polls] = polled(server, REQUESTS[name], polls)
                each = used[name, polls] / polls, used[name, polls] / sum(took) * 60
                what = "%d polls of %s documents: %.0f to %.0f seconds" % (polls, name, min(took), max(took))
                print(what + ", %.2f seconds of processor time each, %.2f a minute" % each, flush=True)
    ratios = Ratios("polls", given)
    for polls in [] if given.only else counts:
        ratios.add(
            "processor time of %d polls of some documents, of polls of all" % polls, used["some", polls] / used["all", polls]
        )
    return ratios.report()


if __name__ == "__main__":
    sys.exit(main())
