"""Looks up in the sources each name, path, option and step that the written documents show as code, so that none is out of date.

    python3 tests/test_names.py

The documents are README.md, CONTRIBUTING.md, CHANGELOG.md, tests/README.md, benches/README.md and those of docs/. Of
experiments, which are dated, and of the pages that docs/make.py writes none is read. Code is what is in backticks, and no
block.

- A name as `in_words`, `InWords` or `crate::Item` is a word of the code: of the crates' sources, definitions and proofs, or of
  the scripts. A path with `::` is written in the code as it is, or what it ends with is defined in the crate, the module or the
  file of the type that it begins with.
- A path with `/` from a folder of the repository, from a crate's name, or from `src`, `specs` or `proofs` of a crate, leads to
  a file or a folder; the name of a file of code is that of one.
- An option `--name` is one of `command_line`, or of the script that is run with it. Those of other programs are theirs.
- What is called a step, and what `tests/all --only` is run with, is a step of tests/all.

`tests/names` lists the names that are none of ours, each group under the program or the text that has them.
"""
import functools
import glob
import os
import re
import sys

from lib.checks import Checks
from lib.crates import every
from lib.documents import content, written
from lib.programs import ROOT, TESTS, arguments
from lib.steps import STEPS

SPAN = re.compile(r"(?<!`)`([^`\n]+)`(?!`)")
BLOCK = re.compile(r"^ *```.*?^ *```$", re.S | re.M)
PART = re.compile(r"[A-Za-z_]\w*(?:::[A-Za-z_]\w*)+|[A-Za-z_]\w*")
PATH = re.compile(r"^(crates|tests|docs|benches|examples|src|specs|proofs|must-fail)/[\w./*{},-]+$")
OF_CRATE = re.compile(r"^(\w+)/(src|specs|proofs|must-fail)\b[\w./*{},-]*$")
SOURCE = re.compile(r"^[\w-]+\.(rt|antt|py|rs)$")
SINGLE = re.compile(r"^[A-Za-z_]\w*(::[A-Za-z_]\w*)*(\(\))?$")
OPTION = re.compile(r"(?<![\w-])--([a-z][a-z-]*)")
NAMED = re.compile(r"\bsteps? ((?:`[\w./]+`(?:, | and | or )?)+)")
ONLY = re.compile(r"tests/all --only ([\w./ ]+)")
FOLDERS = ("crates", "tests", "docs", "benches", "examples")
ITEM = re.compile(r"\b(?:fn|struct|enum|trait|type|const|static|mod) (\w+)")
MEMBER = re.compile(r"^ +(?:pub(?:\([^)]*\))? )?(?:ghost )?(\w+)(?=[:,({ ])", re.M)  # a field, a variant, or a ghost of a trait
STEP_NAMES = {step.name for step in STEPS}
OURS = ("couchd", "replay")
CODE = [
    *("crates/*/src/**/*.rt", "crates/*/specs/**/*.antt", "crates/*/proofs/**/*.antt", "crates.txt"),
    *(
        "tests/**/*.py",
        "tests/**/*.c",
        "tests/all",
        "tests/edits/run",
        "benches/**/*.py",
        "benches/**/*.rs",
        "benches/all",
        "docs/**/*.py",
    ),
]


# ---- the code


@functools.cache
def files():
    """The text of each file of code, without the file that lists other names."""
    paths = {path for pattern in CODE for path in glob.glob(pattern, root_dir=ROOT, recursive=True)}
    return {path: content(path) for path in sorted(paths)}


@functools.cache
def words_of(path):
    return set(re.findall(r"\w+", files()[path]))


@functools.cache
def known():
    """Each word of the code, and each name of one of its files."""
    found = set(every()) | {step.name for step in STEPS}
    for path in files():
        found |= words_of(path) | {os.path.basename(path).split(".")[0]}
    return found


@functools.cache
def others():
    """The names of others, as tests/names lists them."""
    with open(os.path.join(TESTS, "names"), encoding="utf-8") as file:
        return {it for line in file if not line.startswith("#") for it in line.split()}


# ---- names


def is_name(part):
    """Whether a part of some code is a name that only code has."""
    return "NAME" not in part and "_" in part.rstrip("_") or re.match(r"[A-Z][a-z0-9]+([A-Z][a-z0-9]*)+$", part) is not None


def names_of(span):
    """The names of some code: it itself where it is one name, or its parts that can be nothing else."""
    if SINGLE.match(span):
        bare = span.removesuffix("()")
        return [bare] if "::" in bare or is_name(bare) or re.match(r"[A-Z]\w*[a-z]", bare) or bare != span else []
    return [it for it in PART.findall(span) if "::" in it or is_name(it)]


@functools.cache
def defined_in(path):
    """What a file defines: items, members of types, what it makes known of others, and each word of a file of definitions."""
    text = files()[path]
    if not path.endswith(".rt"):
        return words_of(path)
    given_on = " ".join(re.findall(r"^ *pub(?:\([^)]*\))? use ([^;]*);", text, re.M))
    return set(ITEM.findall(text)) | set(MEMBER.findall(text)) | set(re.findall(r"\w+", given_on))


def leads(path):
    """Whether a path with `::` leads to something, or is written so in the code, as one of the standard library is."""
    first, *_, last = path.split("::")
    if any(path in text for text in files().values()):
        return True
    if first in every():
        return any(last in defined_in(it) for it in files() if it.startswith("crates/%s/" % first))
    is_of = re.compile(r"\b(?:struct|enum|trait|type|impl\b[^{;]*?|class) ?%s\b" % re.escape(first))
    homes = [it for it, text in files().items() if os.path.basename(it).split(".")[0] == first or is_of.search(text)]
    return any(last in defined_in(it) for it in homes)


def is_known(name):
    if name in others():
        return True
    return leads(name) if "::" in name else name in known()


# ---- paths, options and steps


def spread(path):
    """The paths that one with braces is short for."""
    found = re.search(r"\{([^{}]*)\}", path)
    if not found:
        return [path]
    return [it for part in found.group(1).split(",") for it in spread(path[: found.start()] + part + path[found.end() :])]


def is_there(path):
    path = re.sub(r"(?<![a-zA-Z])[A-Z]{2,}(?![a-zA-Z])", "*", path).split("/out")[
        0
    ]  # a word for any name; what is built may not be there
    front = "" if path.split("/")[0] in FOLDERS else "crates/" if OF_CRATE.match(path) else "crates/*/"
    return all(glob.glob(front + it, root_dir=ROOT) for it in spread(path))


def is_path(span):
    return PATH.match(span) or OF_CRATE.match(span)


def is_file(name):
    """Whether some file of code has this name; NAME stands for any."""
    return "NAME" in name or any(os.path.basename(path) == name for path in files())


@functools.cache
def options_of(program):
    """The options of a program: of ours, those that `command_line` names; of a script, those that it has."""
    if program in OURS:
        quoted = " ".join(text for path, text in files().items() if path.startswith("crates/command_line/src/"))
        return set(re.findall(r'"([a-z][a-z-]*)"', quoted)) | {"help", "version"}
    path = os.path.join(ROOT, program)
    return set(re.findall(r'"--([a-z][a-z-]*)"', content(program))) | {"help"} if os.path.isfile(path) else None


def programs_of(span):
    """Which programs an option in some code may be of: the one that it runs, or, of an option alone, ours and each script."""
    first, *rest = span.split()
    if first == "python3" and rest:
        first = rest[0]
    if first.startswith("-"):
        return [*OURS, *(path for path in files() if path.startswith(("tests/", "benches/", "docs/")))]
    return [first]


def unknown_options(span):
    programs = programs_of(span)
    for option in OPTION.findall(span):
        found = [options_of(program) for program in programs]
        if "--" + option not in others() and all(it is not None for it in found) and not any(option in it for it in found):
            yield "--" + option


def named_steps(text):
    for listed in NAMED.findall(text):
        yield from re.findall(r"`([\w./]+)`", listed)
    for listed in ONLY.findall(text):
        yield from (it for it in listed.split() if it != "STEP..")


# ---- the documents


def check_document(checks, name):
    text = BLOCK.sub("", content(name))
    for span in dict.fromkeys(SPAN.findall(text)):
        if is_path(span) and span not in STEP_NAMES:
            checks.check(is_there(span), "%s: there is no `%s`", name, span)
            continue
        if SOURCE.match(span):
            checks.check(is_file(span), "%s: there is no file `%s`", name, span)
            continue
        for it in names_of(span):
            checks.check(is_known(it), "%s: `%s` is no name of the code, in `%s`", name, it, span)
        for option in unknown_options(span):
            checks.check(False, "%s: no program has `%s`, in `%s`", name, option, span)
    for step in named_steps(text):
        checks.check(step in STEP_NAMES, "%s: tests/all has no step `%s`", name, step)


def say_unused():
    """Says which names of others no document shows any more."""
    shown = " ".join(span for name in written() for span in SPAN.findall(BLOCK.sub("", content(name))))
    for it in sorted(others()):
        if it not in shown:
            print("tests/names lists %s, which no document shows" % it)


def main():
    arguments(__doc__).parse_args()
    checks = Checks(200)
    for name in written():
        check_document(checks, name)
    say_unused()
    return checks.report()


if __name__ == "__main__":
    sys.exit(main())
