"""Reads the sources of a crate: what its library makes public, with the docs and contracts of that.

The sources are as `rt fmt` leaves them, so an item begins at the margin of its block, and ends there.
"""
import glob
import os
import re
from dataclasses import dataclass, field

IN_TEXT = re.compile(r'"(?:\\.|[^"\\])*"|\'(?:\\.[^\']*|[^\'\\])\'|//.*')
OPENED = re.compile(r"[({\[]")
CLOSED = re.compile(r"[)}\]]")
VISIBLE = re.compile(r"pub(?:\([^)]*\))? ")
KIND = re.compile(
    r"(?:pub(?:\([^)]*\))? )?(?:const |unsafe |extern \"C\" )*"
    r"(fn|struct|enum|trait|impl|mod|use|const|type|static|ghost)\b\s*(\w*)"
)
SELF_TYPE = re.compile(r"impl(?:<.*?>)? (?:(.+?) for )?&?(?:'\w+ )?(\w+)")


@dataclass
class Item:
    """A part of a source file: its docs, the lines of its code without their margin, its kind and its name."""

    docs: list = field(default_factory=list)
    lines: list = field(default_factory=list)

    @property
    def kind(self):
        found = KIND.match(self.lines[0])
        return found.group(1) if found else None

    @property
    def name(self):
        found = KIND.match(self.lines[0])
        return found.group(2) if found else None

    @property
    def is_public(self):
        return self.lines[0].startswith("pub ")

    def docs_and_lines(self):
        return [*("/// " + line if line else "///" for line in self.docs), *self.lines]

    def body(self):
        """The lines within its braces, without their margin."""
        return [line[4:] for line in self.lines[1:] if line.startswith("    ") or not line]

    def members(self):
        return read_items(self.body())

    def head(self):
        """Its lines up to the brace that opens it."""
        at = next((at for at, line in enumerate(self.lines) if line.endswith("{")), len(self.lines) - 1)
        return self.lines[: at + 1]

    def fields(self):
        """The fields of a type, each with its docs."""
        found, docs = [], []
        for line in self.body() if len(self.lines) > 1 else []:
            if line.startswith("///"):
                docs.append(line[3:].removeprefix(" "))
            elif line and not line.startswith((" ", "#[", "//", ")", "}")):
                found.append(Item(docs, [line]))
                docs = []
            elif found and line.startswith((" ", ")", "}")):
                found[-1].lines.append(line)
        return found

    def signature(self):
        """The head of a function with its contract."""
        for at, line in enumerate(self.lines):
            if line in ("{", "{}"):
                return self.lines[:at]
            if at == 0 and line.endswith((" {}", ";")):
                return [line.removesuffix(" {}")]
            if line.endswith((" {", " {}")) and not line.startswith("    "):
                return [*self.lines[:at], re.sub(r" \{\}?$", "", line)]
        return self.lines


def depth_of(line):
    """By how much the braces of a line are more open at its end than at its beginning."""
    code = IN_TEXT.sub("", line)
    return len(OPENED.findall(code)) - len(CLOSED.findall(code))


def is_end(item, line, depth):
    """Whether an item, whose last line this is, ends with it."""
    if depth != 0:
        return False
    code = IN_TEXT.sub("", line).rstrip()
    return code.endswith(";") or line.startswith("}") or line == "{}" or (len(item.lines) == 1 and code.endswith("}"))


def read_items(lines):
    """The items of a file, or those within the braces of one."""
    items, item, depth = [], Item(), 0
    for line in lines:
        if not item.lines:
            if line.startswith("///"):
                item.docs.append(line[3:].removeprefix(" "))
                continue
            if not line:
                item.docs = []
                continue
            if line.startswith(("//", "#[", "#![")):
                continue
        item.lines.append(line)
        depth += depth_of(line)
        if is_end(item, line, depth):
            items.append(item)
            item, depth = Item(), 0
    return items


class Module:
    """A source file, and the modules that lie below it."""

    def __init__(self, path):
        with open(path, encoding="utf-8") as file:
            self.lines = file.read().splitlines()
        is_root = os.path.basename(path) in ("lib.rt", "main.rt")
        self.path, self.below = path, os.path.dirname(path) if is_root else path.removesuffix(".rt")
        self.items = read_items(self.lines)

    def docs(self):
        """Its `//!`."""
        return [line[3:].removeprefix(" ") for line in self.lines if line.startswith("//!")]

    def child(self, name):
        path = os.path.join(self.below, name + ".rt")
        return Module(path) if os.path.exists(path) else None

    def uses(self):
        """What it makes known under its own name: pairs of a name and the path that leads to it, by its public `use` alone."""
        for item in self.items:
            if item.kind == "use" and VISIBLE.match(item.lines[0]):
                text = " ".join(item.lines).removesuffix(";").split("use ", 1)[1]
                front, _, names = text.partition("{")
                for name in names.rstrip("} ").split(",") if names else [text]:
                    if name.strip():
                        path = (front + name.strip() if names else name.strip()).replace(" ", "").split("::")
                        yield path[-1], path

    def find(self, name):
        """The item of that name, and the module that has it."""
        for item in self.items:
            if item.name == name and item.kind not in ("use", "impl", "mod", "ghost"):
                return self, item
        for used, path in self.uses():
            below = self.child(path[0])
            if used == name and below is not None:
                return below.find(path[-1])
        return None


@dataclass
class Public:
    """A public item: under which name a caller finds it, in which file it is, and for a type its calls."""

    name: str
    path: str
    item: Item
    calls: list = field(default_factory=list)
    traits: list = field(default_factory=list)
    seen_as: str = ""


class Crate:
    """A crate's sources: its `//!` and what is public of it."""

    def __init__(self, folder):
        self.folder = folder
        root = next(
            path for path in (os.path.join(folder, "src", name) for name in ("lib.rt", "main.rt")) if os.path.exists(path)
        )
        self.root = Module(root)
        self.is_library = root.endswith("lib.rt")
        self.modules = [Module(path) for path in sorted(glob.glob(os.path.join(folder, "src", "**", "*.rt"), recursive=True))]
        self.elsewhere = []
        self.publics = list(self.read_publics()) if self.is_library else []

    def docs(self):
        return self.root.docs()

    def read_publics(self):
        """What is public, in the order of the root."""
        for item in self.root.items:
            if item.is_public and item.kind == "mod":
                module = self.root.child(item.name)
                for it in module.items:
                    if it.is_public and it.kind not in ("use", "mod"):
                        yield self.public(item.name + "::" + it.name, module, it)
            elif item.is_public and item.kind not in ("use", None):
                yield self.public(item.name, self.root, item)
        for name, path in self.root.uses():
            module = self.root.child(path[0])
            found = module.find(path[-1]) if module is not None else None
            if found is None:
                self.elsewhere.append((name, path[0]))
            else:
                yield self.public(name, *found)

    def public(self, name, module, item):
        found = Public(name, os.path.relpath(module.path, self.folder), item)
        if item.kind == "trait":
            found.calls = [it for it in item.members() if it.kind == "fn"]
        if item.kind in ("struct", "enum", "type"):
            self.add_impls(found)
        return found

    def add_impls(self, public):
        """Adds the calls of a type, those of its own file first, its traits, and what contracts see it as."""
        own = os.path.join(self.folder, public.path)
        for module in sorted(self.modules, key=lambda it: (it.path != own, it.path)):
            for item in module.items:
                head = SELF_TYPE.match(" ".join(item.signature())) if item.kind == "impl" else None
                if head is None or head.group(2) != public.item.name:
                    continue
                trait = head.group(1)
                if trait is None:
                    public.calls += [it for it in item.members() if it.kind == "fn" and it.is_public]
                elif re.match(r"Model\b", trait):
                    public.seen_as = value_of(item)
                elif not re.match(r"(Drop|Clone|Copy|Debug|From|Eq|PartialEq|Ord|PartialOrd|Error)\b", trait):
                    public.traits.append(trait)


def value_of(model):
    """What contracts see a type as, by its `impl Model`."""
    text = " ".join(" ".join(model.lines).split())
    found = re.search(r"ghost Value = \{ (.*?) \};", text)
    return found.group(1) if found else ""
