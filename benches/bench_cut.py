"""Times a cut of the log of purges, and what others wait for meanwhile.

    python3 benches/bench_cut.py [--purges N] [--store] [COUCHD]

A server has its limit of the log set to so many purges (1,000,000 where no number is given), and as many documents are put and
purged, 10,000 by each request. Then one connection sets the limit to 1, while a second one reads and a third one writes a
document, again and again. The same two are timed beside a bulk that fills a request. The ratio is of the cut to that bulk.
"""
import sys
import threading
import time

from shared.ratios import Ratios, with_store

from lib.programs import arguments
from lib.server import Connection, Server

EACH = 10_000  # documents of a request
BULK = 60_000  # documents whose bulk is nearly as long as a request may be
LIMIT = "/db/_purged_infos_limit"
SECONDS = 600  # that an answer may take


class Client(Connection):
    """A connection whose answers are timed."""

    def __init__(self, port):
        super().__init__(port)
        self.socket.settimeout(SECONDS)

    def timed(self, method, target, body=None):
        """The answer, and the seconds that it took."""
        began = time.monotonic()
        status, value = self.ask(method, target, body)
        if status >= 300:
            raise ValueError("%s %s is answered %d" % (method, target, status))
        return value, time.monotonic() - began


def fill(client, purges):
    """Puts as many documents, and purges them."""
    client.timed("PUT", LIMIT, purges)
    for first in range(0, purges, EACH):
        ids = ["note-%07d" % number for number in range(first, min(first + EACH, purges))]
        written, _ = client.timed("POST", "/db/_bulk_docs", {"docs": [{"_id": id} for id in ids]})
        client.timed("POST", "/db/_purge", {row["id"]: [row["rev"]] for row in written})


def repeat(port, method, target, ended, found):
    """Asks again and again until the event, and keeps how long each answer took."""
    client = Client(port)
    while not ended.is_set():
        body, at = ({}, "%s-%d" % (target, len(found))) if method == "PUT" else (None, target)
        found.append(client.timed(method, at, body)[1])


def beside(port, client, what, number, *request):
    """Makes the request while others read and write, prints how long it and the longest of theirs took, and gives its time."""
    ended, reads, writes = threading.Event(), [], []
    others = [
        threading.Thread(target=repeat, args=(port, "GET", "/db", ended, reads)),
        threading.Thread(target=repeat, args=(port, "PUT", "/db/beside-%d" % number, ended, writes)),
    ]
    for other in others:
        other.start()
    time.sleep(0.5)
    before = max(reads), max(writes)
    began = len(reads), len(writes)
    _, took = client.timed(*request)
    time.sleep(0.5)
    ended.set()
    for other in others:
        other.join()
    shown = what, took, before[0], max(reads[began[0] :]), before[1], max(writes[began[1] :])
    print("%s: %.4f seconds; the longest read %.4f before and %.4f beside, the longest write %.4f and %.4f" % shown, flush=True)
    return took


def main():
    reader = with_store(arguments(__doc__, "couchd"))
    reader.add_argument("--purges", type=int, default=1_000_000)
    given = reader.parse_args()
    with Server(given.couchd, "--workers", "8") as server:
        client = Client(server.port)
        fill(client, given.purges)
        cut = beside(server.port, client, "cut of %d purges to 1" % given.purges, 0, "PUT", LIMIT, 1)
        docs = {"docs": [{"_id": "%05x" % number} for number in range(BULK)]}
        filled = beside(server.port, client, "bulk of %d documents" % BULK, 1, "POST", "/db/_bulk_docs", docs)
    ratios = Ratios("cut", given)
    ratios.add("cut of %d purges, of a bulk of %d documents" % (given.purges, BULK), cut / filled)
    return ratios.report()


if __name__ == "__main__":
    sys.exit(main())
