"""Times reads and writes of `couchd serve` while nothing else is done, and beside compactions, and prints a table.

    python3 benches/bench_beside_compaction.py [--thousands N] [--rounds N] [--seconds N] [--store] [COUCHD]

There are so many thousand documents of 10 revisions each, 100 where
no number is given. One connection reads documents, and in other times puts new ones, each request after the response before.
In each round it does either for so many seconds alone, and then for as long while another connection compacts again and again;
so both kinds of time are spread alike over what else the machine does. For each, the latencies that 50, 99 and 99.9 of 100
requests stay under, in milliseconds, and what the p99 beside compactions is of the p99 alone, which are the ratios. Then how many
compactions there were, how long they took, and the machine's load.
"""
import json
import random
import sys
import threading
import time

from shared import machine
from shared.ratios import Ratios, with_store

from lib import server as served_by
from lib.programs import arguments
from lib.requests import bulk, request

BULK = 1000
REVISIONS = 10


class Connection(served_by.Connection):
    """A connection whose requests are made beforehand."""

    def answered(self, data):
        """The status of the response, and its body."""
        self.socket.sendall(data)
        return self.next_response()


def wanted(answer, status):
    if answer[0] != status:
        sys.exit("status %d in place of %d: %r" % (answer[0], status, answer[1][:200]))
    return answer[1]


def name(number):
    return "note-%06d" % number


def load(connection, thousands):
    """Puts the documents, revision by revision."""
    revs = [None] * (thousands * BULK)
    for generation in range(REVISIONS):
        for first in range(0, len(revs), BULK):
            docs = []
            for number in range(first, first + BULK):
                doc = {"_id": name(number), "kind": "note", "number": number, "edit": generation, "text": "a small document"}
                if generation:
                    doc["_rev"] = revs[number]
                docs.append(doc)
            written = wanted(connection.answered(bulk(docs)), 201)
            revs[first : first + BULK] = [row["rev"] for row in json.loads(written)]


class Compactions:
    """Compactions, one after another, on a connection of their own."""

    def __init__(self, port):
        self.connection = Connection(port)
        self.seconds, self.refused = [], 0

    def once(self):
        began = time.perf_counter()
        status, body = self.connection.answered(request("POST", "/db/_compact", {}))
        if status == 202:
            self.seconds.append(time.perf_counter() - began)
        elif status == 503:
            self.refused += 1
        else:
            sys.exit("status %d: %r" % (status, body))

    def go_on(self, ended):
        while not ended.is_set():
            self.once()

    def beside(self, work):
        """Does the work while compactions are under way, from first to last."""
        ended = threading.Event()
        thread = threading.Thread(target=self.go_on, args=(ended,))
        thread.start()
        found = work()
        ended.set()
        thread.join()
        return found


class Requests:
    """Requests of one kind, each after the response before, and how long each took."""

    def __init__(self, port, made, status, seconds):
        self.connection, self.made, self.status, self.seconds = Connection(port), made, status, seconds

    def work(self):
        taken = []
        end = time.perf_counter() + self.seconds
        began = 0
        while began < end:
            data = self.made()
            began = time.perf_counter()
            answer = self.connection.answered(data)
            taken.append(time.perf_counter() - began)
            wanted(answer, self.status)
        return taken


def percentile(taken, part):
    return sorted(taken)[min(len(taken) - 1, int(len(taken) * part))] * 1e3


def print_row(kind, alone, beside):
    parts = (0.5, 0.99, 0.999)
    cells = ["%.3f / %.3f" % (percentile(alone, part), percentile(beside, part)) for part in parts]
    ratio = percentile(beside, 0.99) / percentile(alone, 0.99)
    print("| %s | %d / %d | %s | %.2f |" % (kind, len(alone), len(beside), " | ".join(cells), ratio), flush=True)
    return ratio


def measure(port, given, ratios):
    load(Connection(port), given.thousands)
    source = random.Random(1)
    count = iter(range(1 << 60))
    reads = lambda: request("GET", "/db/" + name(source.randrange(given.thousands * BULK)), b"")
    puts = lambda: request("PUT", "/db/new-%d" % next(count), {"kind": "note", "text": "a small document"})
    compactions = Compactions(port)
    compactions.once()
    print("| Request | how many, alone / beside compactions | p50 | p99 | p99.9 | p99, beside to alone |")
    print("|---|---|---|---|---|---|")
    for kind, made, status in (("GET of a document", reads, 200), ("PUT of a new document", puts, 201)):
        requests = Requests(port, made, status, given.seconds)
        requests.work()
        alone, beside = [], []
        for _ in range(given.rounds):
            alone += requests.work()
            beside += compactions.beside(requests.work)
        ratios.add("p99 of %s beside a compaction, of the same alone" % kind, print_row(kind, alone, beside))
    seconds = compactions.seconds
    text = "%d compactions took %.2f to %.2f seconds, %d were refused"
    print(text % (len(seconds), min(seconds), max(seconds), compactions.refused))


def main():
    reader = with_store(arguments(__doc__, "couchd"))
    reader.add_argument("--thousands", type=int, default=100)
    reader.add_argument("--rounds", type=int, default=5)
    reader.add_argument("--seconds", type=float, default=3)
    given = reader.parse_args()
    ratios = Ratios("beside_compaction", given)
    with served_by.Server(given.couchd, "--workers", "8") as server:
        measure(server.port, given, ratios)
    print(machine.load())
    return ratios.report()


if __name__ == "__main__":
    sys.exit(main())
