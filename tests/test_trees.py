"""Compares the built program with the reference on 5,000 documents whose revisions make trees at random.

    python3 tests/test_trees.py [--seed N] [--trees N] [COUCHD]

Half of the trees have long histories, wide conflicts, and paths that meet, reach further back or contradict what is known, under
small limits of revisions; the others have branches about as deep as the limit, whose leaves are edited in turn while the limit
falls and rises and leaves are purged. A tree is one document, and a run of the program has many. Each is written by merges and
edits, some of them sent again, and read with all leaves, paths, conflicts and what is known of the winner's path. The same seed
makes the same requests. The last line counts trees.
"""
import random
import sys

from lib.checks import report
from lib.differential import Case, compare
from lib.generators.trees import document
from lib.programs import arguments
from lib.requests import request
from reference.once import Connection

TREES = 100  # of a run


def make_run(source, count):
    """The requests of each tree, and the responses to them."""
    connection = Connection()
    for number in range(count):
        asked, responses = [], []
        for one in document(source, connection.session.database, "t%d" % number).requests():
            asked.append(request(*one))
            responses += connection.responses(asked[-1])
        yield b"".join(asked), b"".join(responses)


def cases(seed, trees):
    """Each run: its pieces and the parts of its output are trees."""
    for start in range(0, trees, TREES):
        name = "seed %d, run %d" % (seed, start // TREES)
        pieces, wanted = zip(*make_run(random.Random(name), min(TREES, trees - start)))
        yield Case(name, pieces, wanted)


def main():
    reader = arguments(__doc__, "couchd")
    reader.add_argument("--seed", type=int, default=1)
    reader.add_argument("--trees", type=int, default=5000)
    given = reader.parse_args()
    return report(*compare(given.couchd, cases(given.seed, given.trees)))


if __name__ == "__main__":
    sys.exit(main())
