"""The parts of written documents that are made from crates.txt, from the sources and from what benches drew: what is between two
comments, of which the first names it."""
import json
import os
import re

from lib import crates
from lib.documents import content, written
from lib.programs import ROOT
from lib.steps import STEPS

from .index_page import picture_of_crates, picture_of_groups
from .markdown import docs_text, first_sentence, names, table
from .reading_page import totals_table

REGION = re.compile(r"(<!-- docs/make\.py: ([\w ]+) -->\n)(.*?)(<!-- docs/make\.py ends -->)", re.S)
BOX = re.compile(r'"\*\*([^*"]+)\*\*: ([^"]*)"')  # a group, and what its box says
PLOTS = {
    "throughput": "Requests a second over 1 to 64 connections, beside plain Rust, nginx and redis.",
    "growth": "What an operation takes as the database grows, of what it takes at the first size.",
    "starts": "Starts over a journal, beside the PUTs that it keeps.",
}  # of each plot what it shows
CELL = re.compile(r"^\| \[?`([\w/]+)`[^|]*\|[^|]*\| ([^|]*[^| ]) *\|$", re.M)  # a name, and the third cell of its row


def table_of_crates(found, old):
    """A table for each group, of the crates with what they are, and with what the old text says in the last column, which a
    person writes."""
    last = dict(CELL.findall(old))
    columns = ["Crate", "What it is", *(["What its contracts say"] if last else [])]
    parts = []
    for heading, members in crates.groups().items():
        rows = [[names([name], "reference/"), first_sentence(docs_text(found[name].docs()))] for name in members]
        if last:
            rows = [[*row, last.get(name, "")] for name, row in zip(members, rows)]
        parts += ["### %s" % heading[0].upper() + heading[1:], table(columns, rows)]
    return "\n\n".join(parts)


def table_of_steps(old):
    """The steps of tests/all with what they do, and with the seconds that the old text says they take."""
    seconds = dict(CELL.findall(old))
    rows = [["`%s`" % step.name, step.about, seconds.get(step.name, "")] for step in STEPS]
    return table(["Step", "What it does", "Seconds"], rows)


def pictures():
    """The plots that benches/all drew from the figures that are stored, in the order of the page, each with what it shows."""
    path = "benches/measured.json"
    found = json.loads(content(path)) if os.path.exists(os.path.join(ROOT, path)) else {}
    shown = ["![%s](plots/%s.svg)" % (about, name) for name, about in PLOTS.items() if name in found]
    return "\n\n".join(shown) or "No plot is drawn yet."


def filled(text, found, lines, theorems):
    """A document with its made parts as they are now."""
    made = {
        "groups": lambda old: picture_of_groups(lines, BOX.findall(old)),
        "crates": lambda _: picture_of_crates(lines),
        "table": lambda old: table_of_crates(found, old),
        "steps": table_of_steps,
        "reading": lambda _: totals_table(theorems, "reference/reading.md"),
        "plots": lambda _: pictures(),
    }
    return REGION.sub(lambda it: "%s\n%s\n\n%s" % (it[1], made[it[2]](it[3]), it[4]), text)


def documents(found, lines, theorems):
    """Each written document that has such a part, with its text."""
    texts = {name: content(name) for name in written()}
    return {name: filled(text, found, lines, theorems) for name, text in texts.items() if REGION.search(text)}
