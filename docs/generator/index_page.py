"""The index of the crates by group, with the pictures of what depends on what, and a table for each group."""
import re

from lib import crates

from . import definitions, edits
from .crate_page import is_law
from .markdown import NOTE, code, docs_text, first_sentence, names, page, table

HEAD = """\
Each crate has a page, with its public calls and their contracts, its definitions, laws and edits. [Which files one reads to
believe the theorems](reading.md) is a page of its own. The groups are the headings of `crates.txt`; an arrow means "depends
on", and arrows that others imply are left out."""
COLUMNS = ["Crate", "What it is", "Types, and what contracts see them as", "Calls", "Definitions", "Laws", "Edits"]


def box(heading):
    return re.sub(r"\W", "_", heading)


def chains(arrows):
    """Lines of arrows, those from one name on one line."""
    by_name = {}
    for name, it in arrows:
        by_name.setdefault(name, []).append(it)
    return ["    %s --> %s" % (name, " & ".join(them)) for name, them in by_name.items()]


def picture_of_groups(lines, said=()):
    """The groups, each with what is said of it, or with the number of its crates."""
    members = crates.groups()
    texts = {it: "%d %s" % (len(of), "crates" if len(of) > 1 else "crate") for it, of in members.items()} | dict(said)
    below = crates.groups_below({name: it.below for name, it in lines.items() if not it.is_aside}, members)
    boxes = ['    %s["**%s**: %s"]' % (box(it), it, texts[it]) for it in reversed(members)]
    arrows = [(box(name), box(it)) for name, it in reversed(crates.arrows(below))]
    return code(["flowchart TD", *boxes, *chains(arrows)], "mermaid")


def picture_of_crates(lines):
    groups = []
    for heading, members in crates.groups().items():
        groups += ['    subgraph group_%s["%s"]' % (box(heading), heading), "        " + " & ".join(members), "    end"]
    below = {name: it.below for name, it in lines.items() if not it.is_aside}
    return code(["flowchart TD", *groups, *chains(reversed(crates.arrows(below)))], "mermaid")


def seen_types(crate):
    """The types of a crate, each with what contracts see it as."""
    found = [it for it in crate.publics if it.item.kind in ("struct", "enum", "trait")]
    return ", ".join("`%s`%s" % (it.name, " as `%s`" % it.seen_as if it.seen_as else "") for it in found).replace("|", "\\|")


def count(number):
    return str(number) if number else ""


def row(name, crate):
    laws = sum(is_law(it) for it in crate.publics)
    calls = sum((it.item.kind == "fn") + len(it.calls) for it in crate.publics) - laws
    defined = sum(len(file.definitions()) for file in definitions.files_of(name))
    refused = len(edits.at_the_gate(name)) + len(edits.by_hand(name))
    said = first_sentence(docs_text(crate.docs()))
    return [names([name]), said, seen_types(crate), *(count(it) for it in (calls, defined, laws, refused))]


def tables(found):
    for aside in (False, True):
        for heading, members in crates.groups(aside).items():
            yield "## %s" % heading
            yield table(COLUMNS, [row(name, found[name]) for name in members])


def index_page(found, lines):
    """The index, of all crates that were read."""
    return page(
        "# The crates",
        NOTE,
        HEAD,
        picture_of_groups(lines),
        "The crates of each group but those of tests, lowest at the bottom:",
        picture_of_crates(lines),
        *tables(found),
    )
