#!/usr/bin/env python3
"""Compares the built program with the reference on requests at random, some with faults, and on inputs near the limits.

    python3 tests/test_fuzz.py [--seed N] [--inputs N] [COUCHD]

The requests are sequences that make sense, refusals, and cut and malformed input; the same seed makes the same ones. An input is
many requests, so that a run of the program answers many cases. Where it differs, hangs or ends otherwise, the input is made
smaller and kept in a file. The last line counts inputs.
"""
import random
import sys

from lib.checks import report
from lib.differential import Case, compare
from lib.generators import broken, large
from lib.generators.legal import Maker
from lib.programs import arguments
from lib.requests import request
from reference.once import Connection

REQUESTS = 40  # of an input
FAULTS = 0.3  # how many of them have a fault


def make_input(source):
    """The requests of one input, and the responses to them."""
    connection = Connection()
    maker = Maker(source, connection.session.database)
    pieces, responses = [], []
    for _ in range(REQUESTS):
        asked = maker.one()
        pieces.append(broken.fault(source, asked) if source.random() < FAULTS else request(*asked))
        responses += connection.responses(pieces[-1])
    pieces.append(broken.last_bytes(source, maker.last()))
    responses += connection.responses(pieces[-1])
    return pieces, responses


def cases(seed, inputs, counted):
    """Each input, whose responses are added to those that are counted."""
    for name, data in large.inputs():
        responses = list(Connection().responses(data))
        counted.append(len(responses))
        yield Case(name, [data], [b"".join(responses)])
    for number in range(inputs):
        pieces, responses = make_input(random.Random("%d %d" % (seed, number)))
        counted.append(len(responses))
        yield Case("seed %d, input %d" % (seed, number), pieces, [b"".join(responses)])


def main():
    reader = arguments(__doc__, "couchd")
    reader.add_argument("--seed", type=int, default=1)
    reader.add_argument("--inputs", type=int, default=120)
    given = reader.parse_args()
    counted = []
    passed, failed = compare(given.couchd, cases(given.seed, given.inputs, counted))
    print("%d responses compared, seed %d" % (sum(counted), given.seed))
    return report(passed, failed)


if __name__ == "__main__":
    sys.exit(main())
