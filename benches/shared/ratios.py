"""Ratios that a bench measures, compared with those that are stored in benches/baseline.json.

A ratio says little about a machine and much about a program, so it can be compared from machine to machine. The file has for each
bench its ratios by name: what was measured, and the bound that a run must keep, `at_most` or `at_least`. `--store` writes what
was measured, with a bound of one and a half times as much, or of two thirds where more is better; a bound that is there stays.
"""
import json
import os

from lib.checks import report

from . import BENCHES

PATH = os.path.join(BENCHES, "baseline.json")
ROOM = 1.5  # by which a ratio may be worse than what was stored


def stored():
    """The stored ratios, by bench and by name."""
    if not os.path.exists(PATH):
        return {}
    with open(PATH, encoding="utf-8") as file:
        return json.load(file)


def keeps(ratio, bound):
    return ratio <= bound.get("at_most", float("inf")) and ratio >= bound.get("at_least", 0)


def bound_text(bound):
    return "at most %.4g" % bound["at_most"] if "at_most" in bound else "at least %.4g" % bound["at_least"]


def short(ratio):
    """The ratio with three digits that count."""
    return float("%.3g" % ratio)


class Ratios:
    """The ratios of a bench, which `arguments` has asked to be stored or not."""

    def __init__(self, bench, given):
        self.bench, self.is_stored = bench, given.store
        self.found = {}

    def add(self, name, ratio, more_is_better=False):
        self.found[name] = ratio, more_is_better

    def report(self):
        """Compares or stores the ratios, prints them and their count, and returns the exit status."""
        if self.is_stored:
            self.store()
        known = stored().get(self.bench, {})
        failed = 0
        print()
        for name, (ratio, _) in self.found.items():
            bound = known.get(name)
            is_right = bound is not None and keeps(ratio, bound)
            failed += not is_right
            text = "no bound" if bound is None else "stored %s, %s" % (bound.get("stored", "nothing yet"), bound_text(bound))
            print("%s%s: %.4g (%s)" % ("" if is_right else "FAILED: ", name, ratio, text))
        return report(len(self.found) - failed, failed)

    def store(self):
        everything = stored()
        known = everything.setdefault(self.bench, {})
        for name, (ratio, more_is_better) in self.found.items():
            bound = {"at_least": short(ratio / ROOM)} if more_is_better else {"at_most": short(ratio * ROOM)}
            known[name] = {**bound, **known.get(name, {}), "stored": short(ratio)}
        with open(PATH, "w", encoding="utf-8") as file:
            json.dump(everything, file, indent=4, sort_keys=True)
            file.write("\n")


def with_store(reader):
    """The reader of a bench's arguments, with `--store`."""
    reader.add_argument("--store", action="store_true", help="store the ratios in benches/baseline.json")
    return reader
