"""The crates of the repository, as crates.txt has them: in groups, each under a heading, lowest first."""
import functools
import os
import re
from dataclasses import dataclass

from .programs import ROOT

HEADING = "# ---- "
ASIDE = re.compile(r"(test|bench|probe|soak)_")  # what only tests, times or probes


@dataclass
class Line:
    """A line of crates.txt: a crate, the heading it is under, what it may do, and the crates and libraries that it depends on."""

    name: str
    group: str
    more: list
    below: list
    kit: list

    @property
    def is_aside(self):
        return ASIDE.match(self.name) is not None


def text_lines():
    with open(os.path.join(ROOT, "crates.txt"), encoding="utf-8") as file:
        return [line for line in file.read().splitlines() if line]


@functools.cache
def every():
    """All crates by name, lowest first."""
    found, group = {}, None
    for line in text_lines():
        if line.startswith(HEADING):
            group = line[len(HEADING) :]
        elif not line.startswith("#"):
            head, _, named = line.partition(":")
            name, *more = head.split()
            below = [it for it in named.split() if it in found]
            found[name] = Line(name, group, more, below, [it for it in named.split() if it not in found])
    return found


def depends_on():
    """For each crate that a program or a proof depends on, those of this repository that its line names, lowest first."""
    return {name: line.below for name, line in every().items() if not line.is_aside}


def groups(aside=False):
    """For each heading of crates.txt the names under it: those that only test, time or probe, or the others."""
    found = {}
    for name, line in every().items():
        if line.is_aside == aside:
            found.setdefault(line.group, []).append(name)
    return found


def all_below(below):
    """For each name all that it depends on, by way of others too."""
    reached = {}
    for name, names in below.items():
        reached[name] = set(names).union(*(reached[it] for it in names))
    return reached


def arrows(below):
    """The pairs of a name and one below it with no third between them, in the order of the names."""
    reached = all_below(below)
    return [(name, it) for name, names in below.items() for it in names if not any(it in reached[other] for other in names)]


def groups_below(below, members):
    """For each group those that its crates depend on, itself aside, lowest group first."""
    group = {name: heading for heading, names in members.items() for name in names}
    found = {heading: {group[it] for name in names for it in below[name]} - {heading} for heading, names in members.items()}
    return {heading: [it for it in members if it in found[heading]] for heading in members}
