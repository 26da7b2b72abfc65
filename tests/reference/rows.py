"""The rows of `tests/rows`: what is done, and what comes of it.

A row is a block of lines: its kind, and then statements, each with what must come of it behind `->`, pieces with `;` between. A
name of a revision means its text, and `(TEXT)*N` for the text N times, `#` in it for the number from 0, in as many digits.
"""
import re
from dataclasses import dataclass

from . import containers, copies, dump_rows, versions, worlds
from .json_profile import EMPTY, Body
from .revisions import child, text

A1 = child(None, False, EMPTY)
A2 = child(A1, False, Body({"n": 1}))
X2 = child(A1, True, EMPTY)
NAMES = {
    "A1": A1,
    "A2": A2,
    "A3": child(A2, False, Body({"n": 2})),
    "X2": X2,
    "X3": child(X2, False, EMPTY),
    "N1": child(None, False, Body({"n": 1})),
}
NAME = re.compile(r"\b(?:%s|([1-9][0-9]*)-([0-9a-f]))\b" % "|".join(NAMES))
REPEATED = re.compile(r"\(([^()]*)\)\*([0-9]+)")

KINDS = {
    "database": versions.results,
    "copies": copies.results,
    "world": worlds.results,
    "map": containers.map_results,
    "list": containers.list_results,
    "tree": containers.tree_results,
    "runs": containers.runs_results,
    # those that go on over the end of a history
    "epochs": versions.results,
    "epoch_copies": copies.results,
    "epoch_world": worlds.results_after,
    "epoch_steps": worlds.results_after,
    "dump": dump_rows.results,
}


@dataclass
class Row:
    name: str
    kind: str
    statements: list  # texts
    wanted: list  # pieces

    def input(self):
        """The line that the program reads."""
        return "%s %s" % (self.kind, "; ".join(self.statements).replace("; |; ", " | "))

    def second_reading(self):
        """The pieces that the reference gives."""
        return [plain(piece) for piece in KINDS[self.kind](self.statements)]


def read(name, content):
    """The rows of a file. A comment in front of a row is its name."""
    for block in re.split(r"\n\s*\n", content):
        lines = [line for line in block.splitlines() if line and not line.startswith("#")]
        if lines:
            comment = re.search(r"^# (.*)", block, re.M)
            yield row("%s: %s" % (name, comment.group(1) if comment else lines), *lines)


def row(name, kind, *lines):
    statements, wanted = [], []
    for line in lines:
        statement, arrow, result = line.partition("->")
        if statement.strip():
            statements.append(written_out(statement.strip()))
        if arrow:
            wanted += pieces(written_out(result))
    return Row(name, kind, statements, wanted)


def written_out(line):
    return NAME.sub(revision, REPEATED.sub(repeated, line))


def repeated(found):
    return "".join(numbered(found.group(1), number) for number in range(int(found.group(2))))


def numbered(line, number):
    return re.sub("#+", lambda found: "%0*d" % (len(found.group()), number), line)


def revision(found):
    return text(NAMES[found.group()]) if found.group(1) is None else "%s-%s" % (found.group(1), 32 * found.group(2))


def pieces(line):
    """What a program prints of each statement, or what it must print."""
    return [plain(piece) for piece in line.removesuffix(";").split(";")]


def plain(piece):
    return " ".join(piece.split())
