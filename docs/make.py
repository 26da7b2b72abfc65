#!/usr/bin/env python3
"""Writes the pages of docs/reference from crates.txt and the sources, or checks that they are as they would be written.

    python3 docs/make.py            writes them
    python3 docs/make.py --check    says which pages are not as they would be written; status 1 where one is not

A written document may have parts that are made too: between `<!-- docs/make.py: PART -->` and `<!-- docs/make.py ends -->`,
where PART is `groups` or `crates` for the pictures of what depends on what, `table` for the crates with what they are,
`reading` for how much one reads to believe each theorem, `steps` for those of tests/all, or `plots` for what benches/all drew.
What the third column of a table of crates or steps says, and the boxes of groups, is written by hand, and stays.
"""
import argparse
import glob
import os
import sys

HERE = os.path.dirname(os.path.abspath(__file__))
sys.path[:0] = [HERE, os.path.join(os.path.dirname(HERE), "tests")]

from generator import regions  # noqa: E402
from generator.crate_page import crate_page  # noqa: E402
from generator.index_page import index_page  # noqa: E402
from generator.reading_page import reading_page, theorems_read  # noqa: E402
from generator.rust import Crate  # noqa: E402
from lib import crates  # noqa: E402
from lib.checks import Checks  # noqa: E402
from lib.documents import REFERENCE, content  # noqa: E402
from lib.programs import CRATES, ROOT  # noqa: E402


def made():
    """Each file that has made parts, with its text, by its path in the repository."""
    lines = crates.every()
    found = {name: Crate(os.path.join(CRATES, name)) for name in lines}
    pages = {name + ".md": crate_page(name, crate, lines) for name, crate in found.items()}
    theorems = theorems_read()
    pages |= {"README.md": index_page(found, lines), "reading.md": reading_page(theorems)}
    return {REFERENCE + name: text for name, text in pages.items()} | regions.documents(found, lines, theorems)


def is_as_made(path, text):
    return os.path.exists(os.path.join(ROOT, path)) and content(path) == text


def strays(files):
    """Pages that would not be written."""
    return sorted(set(glob.glob(REFERENCE + "*", root_dir=ROOT)) - set(files))


def check(files):
    checks = Checks(100)
    for path, text in files.items():
        checks.check(is_as_made(path, text), "%s is not as docs/make.py writes it", path)
    for path in strays(files):
        checks.check(False, "%s is of no crate", path)
    return checks.report()


def write(files):
    os.makedirs(os.path.join(ROOT, REFERENCE), exist_ok=True)
    for path in strays(files):
        os.remove(os.path.join(ROOT, path))
    for path, text in files.items():
        if not is_as_made(path, text):
            with open(os.path.join(ROOT, path), "w", encoding="utf-8") as file:
                file.write(text)
            print(path)
    return 0


def main():
    reader = argparse.ArgumentParser(description=__doc__, formatter_class=argparse.RawDescriptionHelpFormatter)
    reader.add_argument("--check", action="store_true")
    given = reader.parse_args()
    return check(made()) if given.check else write(made())


if __name__ == "__main__":
    sys.exit(main())
