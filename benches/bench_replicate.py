"""Replicates small documents from one server to another, the same by a plain loop of this script, and the same from a distance.

    python3 benches/bench_replicate.py [--documents N] [--milliseconds N] [--store] [COUCHD]

The loop sends the requests that `couchd replicate` sends, in their order, each after the answer before it, and reads JSON by
Python's library. It prints documents a second of both, and how many requests a document takes. The ratio is of the two rates.
The distance is a relay before the source, which passes each byte on after so many milliseconds. The ratio is how many times as
long as an exchange over it a document takes. At last it brings ten times as many documents over the loopback: the ratio is of
the most memory that `couchd replicate` held then, and before.
"""
import json
import socket
import subprocess
import sys
import time

from shared.ratios import Ratios, with_store
from shared.relay import Relay

from lib.ends import replicate, replication
from lib.programs import arguments, memory
from lib.requests import request
from lib.server import Exchange, Server

BATCH = 100
HEADERS = ["Host: db", "Accept: application/json"]


def served(program):
    return Server(program, "--workers", "2")


class Client(Exchange):
    """A connection, which counts its requests."""

    def __init__(self, port):
        super().__init__(socket.create_connection(("127.0.0.1", port)))
        self.requests = 0

    def ask(self, method, target, body=""):
        self.requests += 1
        self.socket.sendall(request(method, target, body, HEADERS))
        _, text = self.next_message()
        return json.loads(text)


def fill(port, documents):
    client = Client(port)
    for first in range(0, documents, 1000):
        docs = [{"_id": "d%06d" % number, "n": number, "text": "x" * 40} for number in range(first, min(first + 1000, documents))]
        client.ask("POST", "/db/_bulk_docs", {"docs": docs})
    client.close()


def one_batch(source, target, since):
    """The changes after a number, brought to the target; the number after them, or nothing where there were none."""
    page = source.ask("GET", "/db/_changes?style=all_docs&since=%d&limit=%d" % (since, BATCH))
    if not page["results"]:
        return None
    asked = {row["id"]: [change["rev"] for change in row["changes"]] for row in page["results"]}
    missing = target.ask("POST", "/db/_revs_diff", asked)
    documents = []
    for id, found in missing.items():
        revs = "%5B" + "%2C".join("%22" + rev + "%22" for rev in found["missing"]) + "%5D"
        opened = source.ask("GET", "/db/%s?revs=true&latest=true&open_revs=%s" % (id, revs))
        documents += [one["ok"] for one in opened]
    if documents:
        assert target.ask("POST", "/db/_bulk_docs", {"docs": documents, "new_edits": False}) == []
    return page["last_seq"]


def checkpoint(end, rev, last_seq):
    body = {"last_seq": last_seq} if rev is None else {"_rev": rev, "last_seq": last_seq}
    return end.ask("PUT", "/db/_local/loop", body)["rev"]


def loop(source, target):
    """How many requests a replication took."""
    source.ask("GET", "/db/_local/loop")
    target.ask("GET", "/db/_local/loop")
    since, at_source, at_target = 0, None, None
    while (last := one_batch(source, target, since)) is not None:
        at_target = checkpoint(target, at_target, last)
        at_source = checkpoint(source, at_source, last)
        since = last
    return source.requests + target.requests


def seconds(work, *given):
    """How long the work takes, and what it gives."""
    start = time.monotonic()
    found = work(*given)
    return time.monotonic() - start, found


def replicated(program, source, target, id):
    """The seconds and what was printed of a run of the program that is done."""
    took, ran = seconds(replicate, program, source, target, id)
    if ran.status:
        sys.exit(ran.errors or ran.output)
    return took, ran.output.strip()


def most_memory(program, documents):
    """The most bytes that a replication of so many documents held, as it was seen every ten milliseconds."""
    most = 0
    with served(program) as source, served(program) as target:
        fill(source.port, documents)
        with subprocess.Popen(replication(program, source.port, target.port, "m"), stdout=subprocess.PIPE) as process:
            while process.poll() is None:
                try:
                    most = max(most, memory(process.pid, "VmHWM"))
                except (OSError, StopIteration):
                    break  # it ends
                time.sleep(0.01)
            text = process.stdout.read().decode().strip()
    print("%d documents: %s; at most %.1f MB" % (documents, text, most / 1e6))
    if process.returncode:
        sys.exit(text)
    return most


def from_afar(given):
    """The seconds of a replication from a source that is far away, and those of an exchange with it."""
    with served(given.couchd) as source, served(given.couchd) as target:
        fill(source.port, given.documents)
        with Relay(source.port, given.milliseconds / 1000) as relay:
            trip = relay.round_trip()
            took, text = replicated(given.couchd, relay.port, target.port, "afar")
    rate = given.documents / took
    print("from %g ms away: %s; %.2f s, %.0f documents a second" % (given.milliseconds, text, took, rate))
    return took, trip


def main():
    reader = with_store(arguments(__doc__, "couchd"))
    reader.add_argument("--documents", type=int, default=10_000)
    reader.add_argument("--milliseconds", type=float, default=10)
    given = reader.parse_args()
    with served(given.couchd) as source, served(given.couchd) as by_program, served(given.couchd) as by_loop:
        fill(source.port, given.documents)
        program, text = replicated(given.couchd, source.port, by_program.port, "program")
        plain, requests = seconds(loop, Client(source.port), Client(by_loop.port))
    print("couchd replicate: %s; %.0f documents a second" % (text, given.documents / program))
    print("the loop: %.0f documents a second, %.2f requests a document" % (given.documents / plain, requests / given.documents))
    afar, trip = from_afar(given)
    few, many = most_memory(given.couchd, given.documents), most_memory(given.couchd, 10 * given.documents)
    ratios = Ratios("replicate", given)
    ratios.add("documents a second, of the loop's", plain / program, more_is_better=True)
    ratios.add("a document from a distance, of an exchange over it", afar / trip / given.documents)
    ratios.add("memory of a replication of ten times as many documents", many / few)
    return ratios.report()


if __name__ == "__main__":
    sys.exit(main())
