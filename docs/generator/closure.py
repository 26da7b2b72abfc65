"""Which definitions and types one reads to understand a contract: those that it cites, those that these cite, and so on."""
import os
import re
from dataclasses import dataclass, field

from lib import crates
from lib.programs import ROOT

from .definitions import IMPORT, Definitions
from .rust import Module

USE = re.compile(r"^use ([\w:]+)(?:::\{(.*)\})?;$")
WORD = re.compile(r"\w+")


def source(crate, *names):
    """The file of a module of a crate."""
    path = os.path.join("crates", crate, "src", *names) + ".rt"
    return path if os.path.exists(os.path.join(ROOT, path)) else None


def root_of(crate):
    return source(crate, "lib") or source(crate, "main")


def statements(lines, word):
    """The `use` statements of this kind, each as one line."""
    found, open_ = [], None
    for line in lines:
        line = line.strip()
        if open_ is not None or line.startswith(word + " "):
            open_ = line if open_ is None else "%s %s" % (open_, line)
            if open_.endswith(";"):
                found.append(open_)
                open_ = None
    return found


def imported(names):
    """The names that a list of imports makes known."""
    return [it.split(" as ")[-1].strip() for it in names.split(",") if it.strip()]


def cited(lines, text):
    """The modules of definitions from which some code, whose file has these lines, cites anything."""
    for statement in statements(lines, "ghost use"):
        module, names, alias = IMPORT.match(statement).groups()
        if any(is_cited(name, text) for name in (imported(names) if names is not None else [alias or module.rsplit(".", 1)[-1]])):
            yield module


def is_cited(name, text):
    """Whether a text cites a name; that of an operator is written with places for what it stands between."""
    return name.strip("◌") in text if "◌" in name else re.search(r"(?<![\w.])%s(?!\w)" % re.escape(name), text) is not None


@dataclass
class Read:
    """What one reads: files of definitions, parts of sources by file and name, and modules of the kit."""

    definitions: dict = field(default_factory=dict)
    parts: dict = field(default_factory=dict)
    kit: set = field(default_factory=set)

    def contract(self, path, name, is_followed=True):
        """Adds the head and the contract of a function, what it cites, and the types and traits that it names."""
        module = Module(os.path.join(ROOT, path))
        calls = [call for it in module.items for call in ([it] if it.kind == "fn" else it.members() if it.kind == "impl" else [])]
        item = next((it for it in calls if it.kind == "fn" and it.name == name), None)
        if item is None:
            raise LookupError("docs/generator/reading_page.py names the contract of %s in %s, which is not there" % (name, path))
        self.add(path, name, module, item.docs_and_lines()[: len(item.docs)] + item.signature(), is_followed)

    def add(self, path, name, module, lines, is_followed):
        if (path, name) in self.parts:
            return
        self.parts[path, name] = len(lines)
        text = "\n".join(lines)
        for cites in cited(module.lines, text):
            self.cite(cites)
        if is_followed:
            for word in dict.fromkeys(WORD.findall(re.sub(r"//.*", "", text))):
                self.named(path, module, word)

    def named(self, path, module, word):
        """Adds a type or a trait that a contract names, where it is one of this repository."""
        crate = path.split("/")[1]
        if any(it.name == word and it.kind in ("struct", "enum", "trait") for it in module.items):
            self.type(path, word)
            return
        for statement in statements(module.lines, "use"):
            found = USE.match(statement)
            if found is None:
                continue
            front, names = found.groups()
            if word in (imported(names) if names is not None else [front.rsplit("::", 1)[-1]]):
                first, *rest = front.split("::")[: None if names is not None else -1]
                self.exported(crate if first == "crate" else first, rest, word)

    def exported(self, crate, modules, word):
        if crate not in crates.every():
            return
        path = source(crate, *modules) if modules else root_of(crate)
        found = Module(os.path.join(ROOT, path)).find(word) if path else None
        if found is not None:
            self.type(os.path.relpath(found[0].path, ROOT), word)

    def type(self, path, name):
        """Adds a type or a trait: its docs and its text, and for a type what contracts see it as."""
        module = Module(os.path.join(ROOT, path))
        item = next((it for it in module.items if it.name == name and it.kind in ("struct", "enum", "trait")), None)
        if item is None:
            return
        views = [it for it in module.items if it.kind == "impl" and re.match(r"impl(<.*>)? Model for %s\b" % name, it.lines[0])]
        lines = [line for it in [item, *views] for line in it.docs_and_lines()]
        self.add(path, name, module, lines, item.kind == "trait")

    def cite(self, name):
        """Adds a module of definitions by its name."""
        parts = name.split(".")
        if parts[0] != "Rattle" or parts[1] not in crates.every() or parts[2] != "specs":
            self.kit.add(name)
            return
        crate, rest = parts[1], parts[3:]
        if rest[0] == "declared":
            self.declared(crate, [it for it in rest[1:] if it != "TheVariants"])
            return
        path = "crates/%s/specs/%s.antt" % (crate, "/".join(rest))
        if path not in self.definitions:
            file = Definitions(path)
            self.definitions[path] = len(file.lines)
            for module in file.imports():
                self.cite(module)

    def declared(self, crate, names):
        """Adds a type of the code that definitions cite."""
        *modules, name = names
        self.type(source(crate, *modules) if modules else root_of(crate), name)
