"""The files that one reads to believe a theorem: its contract, the definitions and types that it cites, and all that these
cite."""
from typing import NamedTuple

from .closure import Read
from .markdown import NOTE, file_link, names, page, table

HEAD = """\
To believe a theorem one need not read its proof, which the checker reads. One reads its contract, and each definition that
this cites, down to the standard library of the kit. This page lists these files, with their lines. It is made by following
the imports of the files, so each list is complete; a file is counted whole where one of its definitions is cited. Of the
sources it has the contract, and the traits and types that contracts and definitions name, with what contracts see them as;
their other code is proved against that."""


class Theorem(NamedTuple):
    """A contract, and what it is about."""

    title: str
    about: str
    path: str
    function: str


THEOREMS = [
    Theorem(
        "A connection",
        "What one connection of any session reads, is answered, and leaves.",
        "crates/http_turns/src/connection.rt",
        "serve",
    ),
    Theorem(
        "A server in memory",
        "What `couchd serve` does without `--data`: all connections of all its sessions.",
        "crates/http_front/src/server.rt",
        "run_server",
    ),
    Theorem(
        "The whole server",
        "What `couchd serve --data` does, epoch after epoch, with its journal.",
        "crates/journal_front/src/server.rt",
        "run_kept",
    ),
    Theorem(
        "A write beside others",
        "What a write of a session leaves, while other threads write to the same database.",
        "crates/sessions/src/writing.rt",
        "write",
    ),
    Theorem("An audit", "What `replay check` finds of a dump.", "crates/replay_cli/src/audit.rt", "check"),
    Theorem("A replication", "What a step of a worker between two ends may write.", "crates/replicator/src/worker.rt", "step"),
]


def read(theorem):
    found = Read()
    found.contract(theorem.path, theorem.function)
    return found


def crate_of(path):
    return path.split("/")[1]


def totals(found):
    """Files and lines of definitions, and parts of sources and their lines."""
    return len(found.definitions), sum(found.definitions.values()), len(found.parts), sum(found.parts.values())


def crate_rows(found):
    """For each crate, its files of definitions, its parts of sources, and the lines of both."""
    for crate in sorted({crate_of(path) for path in found.definitions} | {crate_of(path) for path, _ in found.parts}):
        files = {path: lines for path, lines in sorted(found.definitions.items()) if crate_of(path) == crate}
        parts = {part: lines for part, lines in sorted(found.parts.items()) if crate_of(part[0]) == crate}
        shown = [
            file_link(path, "`%s`" % path.rsplit("specs/")[1].removesuffix(".antt")) + " %d" % lines
            for path, lines in files.items()
        ]
        types = [file_link(path, "`%s`" % name) + " %d" % lines for (path, name), lines in parts.items()]
        yield [names([crate]), ", ".join(shown), ", ".join(types), str(sum(files.values()) + sum(parts.values()))]


def kit_text(found):
    modules = sorted({name.removeprefix("Rattle.").removesuffix(".TheVariants") for name in found.kit})
    return "Of the kit: %s." % ", ".join("`%s`" % it for it in modules)


def section(theorem, found):
    counted = "{:,} files of definitions with {:,} lines, and {:,} contracts, traits and types with {:,} lines".format(
        *totals(found)
    )
    return page(
        "## %s" % theorem.title,
        "%s The contract of `%s` in %s: %s." % (theorem.about, theorem.function, file_link(theorem.path), counted),
        table(
            ["Crate", "Definitions, and their lines", "Contracts, traits and types, and their lines", "Lines"],
            list(crate_rows(found)),
        ),
        kit_text(found),
    ).rstrip()


def totals_table(found, page_name=""):
    """A row for each theorem, with what one reads to believe it."""
    rows = [
        ["[%s](%s#%s)" % (it.title, page_name, it.title.lower().replace(" ", "-")), "`%s`" % it.function]
        + ["{:,}".format(number) for number in totals(of)]
        for it, of in found
    ]
    return table(["Theorem", "Contract of", "Files of definitions", "Lines", "Contracts, traits and types", "Lines"], rows)


def theorems_read():
    return [(theorem, read(theorem)) for theorem in THEOREMS]


def reading_page(found):
    return page("# What to read to believe a theorem", NOTE, HEAD, totals_table(found), *(section(*it) for it in found))
