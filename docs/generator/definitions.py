"""Reads the definitions that contracts cite: files of `specs/`, each a heading, its imports and its definitions."""
import glob
import itertools
import os
import re
from dataclasses import dataclass

from lib.programs import ROOT

from .markdown import first_sentence

IMPORT = re.compile(r"^(?:ghost )?(?:pub )?use ([\w.]+?)(?:\.\{(.*?)\}| as (\w+))?;?$")
DECLARED = re.compile(r"^(?:abbrev |unfoldable )?(?:pub )?(?:(record|data) )?(\S+)(.*)$")
CITES = re.compile(r"CouchDB: |RFC \d+, ")
BLOCK = re.compile(r"^(?:(?:abbrev )?mutual$|module _)")


@dataclass
class Definition:
    """A definition: its comment, what that cites, and its name with its type or its parameters."""

    comment: str
    cites: str
    head: str


class Definitions:
    """A file of definitions, by its path in the repository."""

    def __init__(self, path):
        self.path = path
        with open(os.path.join(ROOT, path), encoding="utf-8") as file:
            self.lines = file.read().splitlines()

    @property
    def name(self):
        return re.sub(r"^crates/\w+/specs/|\.antt$", "", self.path)

    def comment(self):
        """What the file says of itself: the comment before its imports, up to its first full stop."""
        return first_sentence(" ".join(comment_lines(self.lines)))

    def imports(self):
        """The modules that it uses, each once."""
        found = (IMPORT.match(line) for line in self.lines)
        return list(dict.fromkeys(it.group(1) for it in found if it))

    def definitions(self):
        """What it makes public, in order."""
        at = next((at for at, line in enumerate(self.lines) if line and not line.startswith(("--", "use "))), len(self.lines))
        while at > 0 and self.lines[at - 1].startswith("--"):
            at -= 1
        return list(read_definitions(self.lines[at:]))


def comment_lines(lines):
    """The lines of the comment that begins these lines."""
    return [line[2:].strip() for line in itertools.takewhile(lambda line: line.startswith("--"), lines)]


def comment_of(lines):
    """The comment that begins these lines, as one line, and what it cites behind that."""
    taken = comment_lines(lines)
    at = next((at for at, line in enumerate(taken) if CITES.match(line)), len(taken))
    return " ".join(taken[:at]), " ".join(taken[at:])


def paragraphs(lines):
    """The lines in pieces, between empty ones."""
    piece = []
    for line in [*lines, ""]:
        if line:
            piece.append(line)
        elif piece:
            yield piece
            piece = []


def within(lines):
    """The lines of a block without their margin."""
    return [line[2:] for line in lines]


def blocks(lines):
    """The paragraphs at the margin, each with those below it that are moved in."""
    block = []
    for piece in paragraphs(lines):
        if block and piece[0].startswith("  "):
            block += ["", *piece]
            continue
        if block:
            yield block
        block = piece
    if block:
        yield block


def read_definitions(lines):
    for block in blocks(lines):
        comment, cites = comment_of(block)
        text = [line for line in block if not line.startswith("--")]
        if not text:
            continue
        if BLOCK.match(text[0]):
            yield from read_definitions(within(text[1:]))
        elif "pub " in text[0] or text[0].startswith("  pub"):
            yield Definition(comment, cites, head_of(text))


def head_of(text):
    """The name of a definition with its type or its parameters, as one line."""
    kind, name, rest = DECLARED.match(text[0]).groups()
    lines = [rest.strip()]
    for line in text[1:]:
        if kind or not line.startswith("  "):
            break
        lines.append(line.strip())
    head = ("%s %s" % (name, " ".join(lines))).strip()
    return re.sub(r"( : Type \d+)?( where)?$", "", head) if kind else head


def files_of(crate):
    """The files of definitions of a crate, in the order of its list of them."""
    paths = glob.glob("crates/%s/specs/**/*.antt" % crate, root_dir=ROOT, recursive=True)
    found = {path: Definitions(path) for path in sorted(paths)}
    root = found.pop("crates/%s/specs/Lib.antt" % crate, None)
    listed = re.findall(r"pub mod ([\w.]+)", "\n".join(root.lines)) if root else []
    order = {name: at for at, name in enumerate(listed)}
    return sorted(found.values(), key=lambda it: (order.get(it.name.split("/")[0], len(order)), it.path))
