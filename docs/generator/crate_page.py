"""The page of a crate: what it is, what depends on it, its public calls with their contracts, its definitions, laws and edits."""
import os
import re

from lib import crates

from . import definitions, edits
from .markdown import NOTE, code, docs_text, file_link, names, page


def heading(line):
    sides = [
        "Group: [%s](README.md#%s)." % (line.group, line.group.replace(" ", "-")),
        "Depends on: %s." % (names(line.below) or "no other crate"),
        "Libraries of the kit: %s." % ", ".join("`%s`" % it for it in line.kit) if line.kit else "",
    ]
    return "  \n".join(it for it in sides if it)


def used_by(line, lines):
    """Which crates depend on it directly, and how many in all."""
    direct = [it.name for it in lines.values() if line.name in it.below]
    reached = crates.all_below({name: it.below for name, it in lines.items()})
    every = sum(line.name in below for below in reached.values())
    return "Used by: %s; %d crates depend on it in all." % (names(direct), every) if direct else "Used by: no other crate."


# ---- public calls


def is_law(public):
    """A function that takes nothing and gives nothing only says something."""
    return public.item.kind == "fn" and "()" in public.item.lines[0] and "->" not in public.item.lines[0]


def shown_type(item):
    """The lines of a type that a caller sees."""
    shown = {"struct": shown_struct, "trait": shown_trait}.get(item.kind)
    return shown(item) if shown else [line for line in item.lines if not line.strip().startswith("#[")]


def shown_struct(item):
    """Its head with its public fields."""
    head, fields = item.head(), item.fields()
    if not fields:
        return [*head[:-1], re.sub(r"\((?!pub).*\);$", "(..);", head[-1])]
    public = [line for it in fields if it.is_public for line in it.docs_and_lines()]
    hidden = [".."] if any(not it.is_public for it in fields) else []
    if not public:
        return [*head[:-1], head[-1] + " .. }"]
    return [*head, *("    " + line for line in [*public, *hidden]), "}"]


def shown_trait(item):
    """Its head with what contracts know of it; its calls are shown by themselves."""
    ghosts = [it for it in item.members() if it.kind == "ghost" and not it.lines[0].startswith("ghost use")]
    if not ghosts:
        return [*item.head()[:-1], item.head()[-1].removesuffix(" {").removesuffix(" {}") + " { .. }"]
    return [*item.head(), *("    " + line for it in ghosts for line in it.docs_and_lines()), "    ..", "}"]


def call_section(prefix, item, level):
    return page("%s `%s`" % ("#" * level, prefix + item.name), docs_text(item.docs), code(item.signature())).rstrip()


def type_section(public):
    parts = [
        "### `%s`" % public.name,
        docs_text(public.item.docs),
        "In contracts: `%s`." % public.seen_as if public.seen_as else "",
        code(shown_type(public.item)),
        "Implements %s." % ", ".join("`%s`" % it for it in public.traits) if public.traits else "",
        *(call_section(public.item.name + "::", call, 4) for call in public.calls),
    ]
    return page(*parts).rstrip()


def given_on(crate):
    """What the crate makes public of others, a line for each of these."""
    for other in dict.fromkeys(other for _, other in crate.elsewhere):
        them = ["`%s`" % name for name, of in crate.elsewhere if of == other]
        yield "- of %s: %s" % (names([other]) if other in crates.every() else "`%s`" % other, ", ".join(them))


def public_sections(crate):
    kept = [it for it in crate.publics if not is_law(it)]
    parts = [
        call_section(it.name.removesuffix(it.item.name), it.item, 3) if it.item.kind == "fn" else type_section(it) for it in kept
    ]
    if crate.elsewhere:
        parts.append(page("### Of other crates", "\n".join(given_on(crate))).rstrip())
    return page("## Public calls and types", *parts).rstrip() if parts else ""


def law_sections(crate):
    laws = [it for it in crate.publics if is_law(it)]
    return (
        page("## Laws", *(call_section(it.name.removesuffix(it.item.name), it.item, 3) for it in laws)).rstrip() if laws else ""
    )


# ---- definitions and edits


def definition_line(it):
    text = (" " if it.comment.endswith(".") else "; ").join(part for part in (it.comment, it.cites) if part)
    return "- `%s`%s" % (it.head, ": " + text if text else "")


def definition_sections(name):
    found = []
    for file in definitions.files_of(name):
        rows = "\n".join(definition_line(it) for it in file.definitions())
        found.append(page("### %s" % file_link(file.path, "`%s`" % file.name), file.comment(), rows).rstrip())
    return page("## Definitions", *found).rstrip() if found else ""


def edit_lines(found):
    return "\n".join("- %s (`%s`)" % (file_link(it.path, it.what), it.source) for it in found)


def edit_sections(name):
    gate, hand = edits.at_the_gate(name), edits.by_hand(name)
    if not gate and not hand:
        return ""
    return page(
        "## Edits",
        "Wrong bodies that these contracts refuse, each with the file that it changes.",
        page("Tried by the gate:", edit_lines(gate)).rstrip() if gate else "",
        page("Tried by `tests/edits/run %s`:" % name, edit_lines(hand)).rstrip() if hand else "",
    ).rstrip()


def crate_page(name, crate, lines):
    """The page of a crate, whose sources are read."""
    line = lines[name]
    source = os.path.relpath(crate.root.path, os.path.dirname(os.path.dirname(crate.folder)))
    return page(
        "# `%s`" % name,
        NOTE,
        docs_text(crate.docs()),
        heading(line) + "  \n" + used_by(line, lines),
        "Source: %s." % file_link(os.path.dirname(source)),
        public_sections(crate),
        law_sections(crate),
        definition_sections(name),
        edit_sections(name),
    )
