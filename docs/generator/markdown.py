"""Docs as Markdown that a code forge shows."""
import os
import re

from lib.programs import ROOT

NOTE = "<!-- docs/make.py writes this page from the sources. -->"
REFERENCE = os.path.join(ROOT, "docs", "reference")
LINKED = re.compile(r"\[(`[^`]+`)\](?:\([^)]*\))?")


def link_to(path):
    """The path of a file of the repository, from a page of the reference."""
    return os.path.relpath(os.path.join(ROOT, path), REFERENCE)


def file_link(path, shown=None):
    return "[%s](%s)" % (shown or path, link_to(path))


def docs_text(lines):
    """Docs without links between items, which only a compiler knows, and with headings as bold text."""
    lines = [re.sub(r"^#+ (.*)$", r"**\1**", line) for line in lines]
    return LINKED.sub(r"\1", "\n".join(lines)).strip()


def first_sentence(text):
    return re.match(r"(.*?\.)(?: |$)", " ".join(text.split()) + " ", re.S).group(1)


def code(lines, language="rust"):
    return "```%s\n%s\n```" % (language, "\n".join(lines))


def table(head, rows):
    lines = ["| %s |" % " | ".join(head), "|%s" % ("---|" * len(head))]
    return "\n".join([*lines, *("| %s |" % " | ".join(row) for row in rows)])


def names(them, folder=""):
    """Crates as links to their pages."""
    return ", ".join("[`%s`](%s%s.md)" % (it, folder, it) for it in them)


def page(*parts):
    """A page of these parts, with a line between them; empty ones are left out."""
    return "\n\n".join(part for part in parts if part) + "\n"
