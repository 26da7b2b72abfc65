"""Writes the stored transcripts and examples from their cases, or checks that they are as they would be written.

Of each case it stores the bytes of its requests and what the reference answers, of an example also the dump of its history.

    python3 tests/transcripts/make.py            writes them
    python3 tests/transcripts/make.py --check    says which files are not as they would be written; status 1 where one is not
"""
import os
import sys

HERE = os.path.dirname(os.path.abspath(__file__))
sys.path.insert(0, os.path.dirname(HERE))

from lib.checks import report  # noqa: E402
from lib.programs import ROOT  # noqa: E402
from transcripts.cases import (
    conflicts,
    edges,
    examples,
    filters,
    first_path,
    head_alone,
    purge_log,
    purges,
    queries,
    wire_edges,
)  # noqa: E402
from reference import history, once  # noqa: E402

# the cases of each folder
FOLDERS = {
    "first-path": first_path.CASES,
    "conflicts": conflicts.CASES,
    "queries": {**queries.CASES, **edges.CASES, **filters.CASES},
    "purges": {**purges.PURGES, **purge_log.CASES},
    "compactions": purges.COMPACTIONS,
    "broken-input": first_path.BROKEN_INPUT,
    "wire-edges": wire_edges.CASES,
    "head-alone": head_alone.CASES,
}


def answers(requests):
    """The bytes of the requests, and of what they are answered."""
    data = b"".join(requests)
    return data, once.run(data)[0]


def files():
    """Each file with its bytes."""
    made = {}
    for folder, cases in FOLDERS.items():
        for name, requests in cases.items():
            path = os.path.join(HERE, folder, name)
            made[path + ".http"], made[path + ".expected"] = answers(requests)
    for name, requests in examples.CASES.items():
        path = os.path.join(ROOT, "examples", name)
        made[path + ".http"], made[path + ".expected"] = answers(requests)
        made[path + ".dump"] = history.dump_of(b"".join(requests))
    return made


def content(path):
    if not os.path.exists(path):
        return None
    with open(path, "rb") as file:
        return file.read()


def strays(made):
    """Transcripts that no case makes."""
    for folder in FOLDERS:
        path = os.path.join(HERE, folder)
        for name in sorted(os.listdir(path)) if os.path.isdir(path) else []:
            if os.path.join(path, name) not in made:
                yield os.path.join(path, name)


def main():
    made = files()
    changed = [path for path, data in made.items() if content(path) != data]
    stale = changed + list(strays(made))
    if sys.argv[1:] == ["--check"]:
        for path in stale:
            print("not as it would be written: " + os.path.relpath(path))
        return report(len(made) - len(changed), len(stale))
    for path in stale:
        if path in made:
            os.makedirs(os.path.dirname(path), exist_ok=True)
            with open(path, "wb") as file:
                file.write(made[path])
        else:
            os.remove(path)
    print("%d files, %d written or removed" % (len(made), len(stale)))
    return 0


if __name__ == "__main__":
    sys.exit(main())
