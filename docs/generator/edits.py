"""The wrong bodies that the prover must refuse: the edits of a crate."""
import glob
import os
import re
from dataclasses import dataclass

from lib.programs import ROOT


@dataclass
class Edit:
    """An edit: its file, what it does in its own words, and which source it changes."""

    path: str
    what: str
    source: str


def read(path):
    with open(os.path.join(ROOT, path), encoding="utf-8") as file:
        source = re.search(r"^file: (.*)$", file.read(), re.M).group(1)
    name = os.path.basename(path).removesuffix(".edit")
    return Edit(path, name.replace("_", " "), source)


def edits_in(folder):
    return [read(path) for path in sorted(glob.glob(folder + "/*.edit", root_dir=ROOT))]


def at_the_gate(crate):
    """Those that the gate tries."""
    return edits_in("crates/%s/must-fail" % crate)


def by_hand(crate):
    """Those that `tests/edits/run` tries."""
    return edits_in("tests/edits/" + crate)
