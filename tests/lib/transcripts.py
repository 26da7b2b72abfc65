"""The transcripts and the examples: for each case the bytes of its requests, and those of the responses."""
import glob
import os

from .programs import ROOT

PATTERNS = ["tests/transcripts/*/*.http", "examples/*.http"]


def content(name):
    """The bytes of a file of the repository."""
    with open(os.path.join(ROOT, name), "rb") as file:
        return file.read()


def requests():
    """The name of each file of requests, and its bytes."""
    for pattern in PATTERNS:
        for name in sorted(glob.glob(pattern, root_dir=ROOT)):
            yield name, content(name)


def responses(name):
    """What must be answered to the requests of that file."""
    return content(name.removesuffix(".http") + ".expected")
