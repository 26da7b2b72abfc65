"""Dumps whose history begins from a base."""
import os

from lib.requests import request
from reference import rows
from reference.bases import read_first_line
from reference.dump_rows import Dump
from reference.history import Recorder
from reference.once import Connection

ROWS = os.path.join(os.path.dirname(os.path.dirname(os.path.abspath(__file__))), "rows", "dumps")

# a stripped document, a deleted one, a local one, a log at its limit, and limits of its own
SMALL = [
    'docs [{"id":"a","revs":[{"deleted":false,"rev":"1-a"},{"body":{"n":1},"deleted":false,"parent":"1-a","rev":"2-b"}],"seq":4},'
    '{"id":"b","revs":[{"body":{},"deleted":true,"rev":"1-c"}],"seq":3}]',
    "limit 2",
    'locals [{"body":{},"id":"r","k":7}]',
    "purge_seq 5",
    "purged_limit 1",
    'purges [{"id":"x","leaves":["1-a"],"seq":5}]',
    "update_seq 6",
]
# what is asked over it: an edit that is stemmed, a local write over its counter, and a purge
ASKED = [
    request("PUT", "/db/a?rev=2-" + 32 * "b", "{}"),
    request("PUT", "/db/_local/r?rev=0-7", "{}"),
    request("POST", "/db/_purge", {"b": ["1-" + 32 * "c"]}),
]


def small_dump():
    """A base with something of everything, and entries whose replies depend on it."""
    recorder = Recorder(read_first_line(Dump(map(rows.written_out, SMALL)).data()))
    for data in ASKED:
        for _ in Connection(recorder).responses(data):
            pass
    return recorder.dump()


def all_rows():
    """The rows of `tests/rows/dumps`."""
    for name in sorted(os.listdir(ROWS)):
        with open(os.path.join(ROWS, name), encoding="utf-8") as file:
            yield from rows.read(name, file.read())
