"""Figures that a bench measures, as the plots show them: kept in benches/measured.json.

The file has for each plot when it was measured and under which load, and its panels, each with its lines: pairs of numbers by the
name of the line.
"""
import datetime
import json
import os

from . import BENCHES, machine

PATH = os.path.join(BENCHES, "measured.json")


def stored():
    """The stored figures, by plot."""
    if not os.path.exists(PATH):
        return {}
    with open(PATH, encoding="utf-8") as file:
        return json.load(file)


class Figures:
    """The figures of a plot, which the arguments of a bench have asked to be stored or not."""

    def __init__(self, plot, given):
        self.plot, self.is_stored = plot, given.store
        self.panels = {}

    def add(self, panel, line, at, value):
        """A point of a line: what was measured at a number of connections, documents or entries."""
        self.panels.setdefault(panel, {}).setdefault(line, []).append([at, float("%.4g" % value)])

    def store(self):
        """Stores them, if that was asked for."""
        if not self.is_stored or not self.panels:
            return
        everything = stored()
        everything[self.plot] = {
            "measured": datetime.date.today().isoformat(),
            "machine": "%d processors, %s" % (os.cpu_count(), machine.load()),
            "panels": self.panels,
        }
        with open(PATH, "w", encoding="utf-8") as file:
            json.dump(everything, file, indent=4, sort_keys=True)
            file.write("\n")
