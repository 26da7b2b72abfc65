"""Checks that the sources report out of memory at the listed places, and at no other.

    python3 tests/test_faults.py           compares the places with those of tests/faults/places
    python3 tests/test_faults.py --list    prints the places that are not listed, as lines for that file

No contract counts the allocations that were refused, so a body that reports out of memory too often is proved. Each place
at which the code names that fault to return it has a line in `places`, under the reason why it is right there. A place is its
file, its function, the blocks around it and its own statement, so code may move within its file. What patterns, types,
declarations, contracts and tests name is no place.
"""
import os
import re
import sys
from collections import Counter

from lib.checks import report
from lib.programs import CRATES, TESTS

LISTED = os.path.join(TESTS, "faults", "places")

WANT = {"AllocError", "AllocFailed", "Memory", "NoMemory", "OutOfMemory", "no_memory"}

SKIPPED = re.compile(
    r"""//[^\n]* | /\*.*?\*/ | b?r(\#*)".*?"\1 | b?"(?:\\.|[^"\\])*" | b?'(?:\\.[^']*|[^'\\])' | \s+ | \#!?\[(?:[^\[\]]|\[[^\]]*\])*\]""",
    re.S | re.X,
)
TOKEN = re.compile(r"[A-Za-z_]\w*|'\w+|\d\w*|::|=>|->|==|!=|<=|>=|&&|\|\||\.\.=?|.", re.S)
CLAUSE = re.compile(r"(?:requires|ensures)\b[^{;]*(?=\{)")


def end_of_block(text, at):
    """Where the block ends whose brace is there."""
    depth = 0
    while True:
        depth += {"{": 1, "}": -1}.get(text[at], 0)
        at += 1
        if depth == 0:
            return at


def end_of_ghost(text, at):
    """Where a ghost item ends: at its semicolon, or where its block ends and none follows."""
    while text[at] not in "{;":
        at += 1
    if text[at] == "{":
        at = end_of_block(text, at)
        return end_of_ghost(text, at) if re.match(r"\s*[;.]", text[at:]) else at
    return at + 1


def tokens(text):
    """The tokens of the code, without comments, attributes, imports and all that is for the prover; each with its place."""
    at, found = 0, []
    while at < len(text):
        skipped = SKIPPED.match(text, at)
        clause = CLAUSE.match(text, at)
        if skipped:
            if skipped.group().lstrip("br#").startswith('"'):
                found.append(('""', at, skipped.end()))
            at = skipped.end()
            continue
        if clause:
            at = end_of_block(text, clause.end())
            continue
        token = TOKEN.match(text, at).group()
        if token == "ghost":
            at = end_of_ghost(text, at)
        elif token == "use":
            at = text.index(";", at) + 1
        else:
            found.append((token, at, at + len(token)))
            at += len(token)
    return found


class Block:
    """A pair of brackets that is open: where its content begins, and what is in front of it."""

    def __init__(self, bracket, head, start):
        self.bracket, self.head, self.start = bracket, head, start


class Source:
    """The tokens of a file."""

    def __init__(self, text):
        self.tokens = tokens(text)
        self.words = [word for word, _, _ in self.tokens]

    def word(self, at):
        return self.words[at] if 0 <= at < len(self.words) else ""

    def text(self, start, end):
        """The tokens from one to before another as a line, with a space where the source has one."""
        line, last = "", None
        for word, begin, after in self.tokens[start:end]:
            line += (" " if last not in (None, begin) else "") + word
            last = after
        return line

    def path_start(self, at):
        """Where the path begins that the name ends."""
        while self.word(at - 1) == "::":
            at -= 2
        return at

    def statement_end(self, at):
        """Where the statement or the arm ends that the token is in."""
        depth = 0
        while at < len(self.words):
            word = self.words[at]
            if depth == 0 and word in ("{", "}", ";", ","):
                break
            depth = max(0, depth + {"(": 1, "[": 1, ")": -1, "]": -1}.get(word, 0))
            at += 1
        return at

    def is_type(self, at):
        """Whether the name is an argument of a type, or the type of a parameter."""
        following = self.word(at + 1)
        return following in (">", "<") or self.word(self.path_start(at) - 1) == ":" and following == ")"

    def is_pattern(self, at):
        """Whether the name is only looked for: in front of an arrow, of the `=` of a `let`, or after `==`."""
        if self.word(self.path_start(at) - 1) in ("==", "!="):
            return True
        rest = self.words[at : self.statement_end(at)]
        return "=>" in rest or "=" in rest

    def is_declared(self, at, blocks):
        """Whether the name is declared here: as a function, or as a variant."""
        declared = blocks and re.match(r"(?:pub(?:\([a-z]+\))? )?(?:enum|struct|trait)\b", blocks[-1].head)
        return self.word(at - 1) == "fn" or bool(declared)


def heads(blocks):
    """The function, and the heads of the blocks in it, outermost first."""
    function, inner = "", []
    for block in (block for block in blocks if block.bracket == "{"):
        named = re.search(r"\bfn (\w+)", block.head)
        implemented = re.match(r"impl\b.*?(\w+(?:<[^{]*>)?) for (\w+)", block.head)
        if named:
            function += named.group(1)
            inner = []
        elif implemented:
            function = "%s for %s, " % implemented.groups()
        else:
            inner.append(block.head)
    return function, inner


def places(path):
    """The places of a file: the function, and the heads and the statement."""
    with open(path, encoding="utf-8") as file:
        source = Source(file.read())
    blocks = []
    item = start = 0  # where the item and the statement or the arm begin that a token is in
    for at, word in enumerate(source.words):
        if word in ("{", "(", "["):
            is_item = word == "{" and ("fn" in source.words[item:at] or "impl" in source.words[item:at])
            blocks.append(Block(word, source.text(item if is_item else start, at), start))
            if word == "{":
                item = start = at + 1
        elif word in ("}", ")", "]"):
            closed = blocks.pop()
            if word == "}":
                goes_on = source.word(at + 1) in ("else", ")", ".", "?")
                item, start = at + 1, closed.start if goes_on else at + 1
        elif word in (";", ",") and (not blocks or blocks[-1].bracket == "{"):
            start = at + 1
            item = start if word == ";" else item
        elif word in WANT:
            if source.is_type(at) or source.is_pattern(at) or source.is_declared(at, blocks):
                continue
            function, inner = heads(blocks)
            own = source.text(start, source.statement_end(at))
            yield function, " { ".join(inner + [own])


def is_tested(crate, path):
    """Whether the file is of tests or benches."""
    parts = path.split(os.sep)
    return crate.startswith(("test_", "bench_")) or "tests" in parts or parts[-1] == "tests.rt"


def found_places():
    for crate in sorted(os.listdir(CRATES)):
        source = os.path.join(CRATES, crate, "src")
        for folder, folders, names in os.walk(source):
            folders.sort()
            for name in sorted(names):
                path = os.path.join(folder, name)
                short = os.path.relpath(path, CRATES)
                if name.endswith(".rt") and not is_tested(crate, os.path.relpath(path, source)):
                    for function, text in places(path):
                        yield "%s %s: %s" % (short, function, text)


def listed_places():
    """The lines of the list: places, each under a line of its reason that begins with `#`."""
    reason = None
    with open(LISTED, encoding="utf-8") as file:
        for line in file.read().splitlines():
            if line.startswith("#"):
                reason = line[1:].strip()
            elif line and not reason:
                sys.exit("no reason above: %s" % line)
            elif line:
                yield line
            else:
                reason = None


def main():
    found, listed = Counter(found_places()), Counter(listed_places())
    new = list((found - listed).elements())
    if "--list" in sys.argv[1:]:
        print("\n".join(new))
        return 0
    gone = list((listed - found).elements())
    for line in new:
        print("not listed: %s" % line)
    for line in gone:
        print("listed, and not there: %s" % line)
    return report(sum((found & listed).values()), len(new) + len(gone))


if __name__ == "__main__":
    sys.exit(main())
