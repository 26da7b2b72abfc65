"""The documents of the repository that are written by hand."""
import glob
import os

from .programs import ROOT

FIRST = ["README.md", "CONTRIBUTING.md", "CHANGELOG.md", "tests/README.md", "benches/README.md"]
EXPERIMENTS = "docs/experiments/"
REFERENCE = "docs/reference/"  # which docs/make.py writes


def content(path):
    with open(os.path.join(ROOT, path), encoding="utf-8") as file:
        return file.read()


def every():
    """The names of all documents."""
    return [*FIRST, *sorted(glob.glob("docs/**/*.md", root_dir=ROOT, recursive=True))]


def written():
    """Those that say what is there: no experiment, and no page that docs/make.py writes."""
    return [name for name in every() if not name.startswith((EXPERIMENTS, REFERENCE))]
