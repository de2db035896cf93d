"""The pages of docs/api: the public items of each library but those of tests, with doc comments and clauses.

    python3 gate/api_pages.py            says which pages are not those of the sources
    python3 gate/api_pages.py --write    writes them

An item is on its crate's page if a crate above can name it: by a public module, or by a name that the crate's root exports. A method is
under its type, in whichever file it stands.
"""
import os
import re
import sys

import ledger
from repository import TOP

FOLDER = "docs/api"
# The crates of crates.txt from this line on are tests and measurements.
END_OF_PRODUCT = "\n# Run and not proved"
MODULE = re.compile(r"^(pub )?mod (\w+);", re.M)
PUBLIC_USE = re.compile(r"^pub use (?:crate::)?(\w+)(?:::\w+)*::(?:\{([^}]*)\}|(\w+));", re.M)
HEAD = re.compile(r"^( *)(pub (?:const |extern \"C\" )?fn|pub struct|pub enum|pub trait|pub const|pub type|fn) (\w+)")
CLAUSE = re.compile(r" *(?:ensures|requires)\b")
USE = re.compile(r"^use (?:crate|super)((?:::\w+)*)::(?:\{([^}]*)\}|(\w+));", re.M)
IMPL = re.compile(r"^impl\b(?:<.*?>)? ?(.*?) \{")


class Item:
    """A public item: its kind, its name, its doc comment and its code. Of a type also its methods and the traits that it has."""

    def __init__(self, kind, name, doc, code):
        self.kind, self.name, self.doc, self.code = kind, name, doc, code
        self.methods, self.traits = [], []


def names_in(group):
    """Returns the names that a `use` lists."""
    return [name.strip().split("::")[-1] for name in group.split(",") if name.strip()]


def plain_name(head):
    """Returns the name of a type or a trait, without paths and generic arguments."""
    return re.sub(r"<.*", "", head.strip()).split("::")[-1].strip("& ")


def head_of(lines, at):
    """Returns the lines of an item's head from `at` on, without the body of a function, and the place after it."""
    first = lines[at]
    indent = len(first) - len(first.lstrip())
    if re.match(r" *(?:pub )?(?:const |extern \"C\" )?fn ", first):
        code = []
        while at < len(lines):
            line = lines[at]
            at += 1
            if line.strip() in ("{", "{}") and len(line) - len(line.lstrip()) == indent:
                break
            code.append(line)
            if line.endswith((" {", " {}")) and not any(CLAUSE.match(part) for part in code):
                code[-1] = re.sub(r" \{\}?$", "", line)
                break
            if line.endswith(";") and "".join(code).count("{") == "".join(code).count("}"):
                break
        return [line[indent:] for line in code], at
    if first.endswith((";", "}")):
        return [first.strip()], at + 1
    code = [first]
    while at + 1 < len(lines) and not lines[at].startswith(" " * indent + "}"):
        at += 1
        code.append(lines[at])
    return [line[indent:] for line in code], at + 1


class Source:
    """A file of a crate, read item by item."""

    def __init__(self, module, text):
        self.module, self.lines = module, text.splitlines()
        self.named = {name: at.split("::")[1] for at, group, single in USE.findall(text) if at for name in (names_in(group) if group else [single])}
        self.items, self.methods, self.traits = [], [], []
        self.read()

    def module_of(self, name):
        """Returns the module that has the type that the file means by a name."""
        return self.module if any(item.name == name for item in self.items) else self.named.get(name, "")

    def read(self):
        """Reads the items of the file; stops at its tests."""
        at, doc, derived, owner, shown = 0, [], [], "", False
        while at < len(self.lines):
            line = self.lines[at]
            if line.startswith("#[cfg(test)]"):
                return
            found, block = HEAD.match(line), IMPL.match(line + (" {" if line.startswith("impl") and not line.endswith("{") else ""))
            if line.strip().startswith("///"):
                doc.append(line.strip()[3:].removeprefix(" "))
            elif line.startswith("#[derive("):
                derived += names_in(line[len("#[derive("):].rstrip(")]"))
            elif block:
                owner, shown = self.block(block[1])
            elif line == "}":
                owner, shown = "", False
            elif found and self.is_shown(found, owner, shown):
                at = self.item(found, at, doc, derived, owner)
                doc, derived = [], []
                continue
            if not line.strip().startswith(("///", "#[")):
                doc, derived = [], []
            at += 1

    def block(self, head):
        """Notes an impl. Returns its type, and whether its public functions are the type's own."""
        head = head.split(" where ")[0]
        trait, is_for, name = head.rpartition(" for ")
        if is_for:
            self.traits.append((plain_name(name), plain_name(trait)))
        return plain_name(name), not is_for

    @staticmethod
    def is_shown(found, owner, shown):
        """Returns `True` if the item is public, or a method of the trait or the type before it."""
        indent, word, _ = found.groups()
        if indent:
            return bool(owner) and shown and (word.startswith("pub") or owner.startswith("trait "))
        return word.startswith("pub")

    def item(self, found, at, doc, derived, owner):
        """Adds the item at a line. Returns the place after it."""
        kind, name = found[2].removeprefix("pub ").removeprefix("const "), found[3]
        if kind == "trait":
            return self.trait(at, name, doc)
        code, after = head_of(self.lines, at)
        if kind == "struct" and not any(re.match(r" +pub \w+:", line) for line in code) and len(code) > 1:
            code = [code[0] + " .. }"]
        made = Item(kind, name, doc, code)
        if found[1]:
            self.methods.append((owner.removeprefix("trait "), made))
        else:
            made.traits = [trait for trait in derived if trait != "Drop"]
            self.items.append(made)
        return after

    def trait(self, at, name, doc):
        """Adds a trait with its methods. Returns the place after it."""
        made, inner = Item("trait", name, doc, [self.lines[at].rstrip("{ ")]), []
        at += 1
        while self.lines[at] != "}":
            line = self.lines[at].strip()
            if line.startswith("///"):
                inner.append(line[3:].removeprefix(" "))
                at += 1
            elif line.startswith("fn "):
                code, at = head_of(self.lines, at)
                made.methods.append(Item("fn", re.match(r"fn (\w+)", line)[1], inner, code))
                inner = []
            else:
                inner = []
                at += 1
        self.items.append(made)
        return at + 1


class Crate:
    """The public items of a crate."""

    def __init__(self, root, name):
        folder = f"{root}/crates/{name}/src"
        head = ledger.read(f"{folder}/lib.rt").decode()
        self.name = name
        self.intro = [line[3:].removeprefix(" ") for line in head.splitlines() if line.startswith("//!")]
        self.modules = MODULE.findall(head)
        self.exported = {}
        for module, group, single in PUBLIC_USE.findall(head):
            self.exported.update((name, module) for name in (names_in(group) if group else [single]))
        self.types, self.homes, self.functions = {}, {}, []
        sources = [(True, Source("", head))] + [(bool(public), source) for public, module in self.modules for source in self.files(folder, module)]
        self.sources = [source for _, source in sources]
        for is_public, source in sources:
            self.add(is_public, source)
        for source in self.sources:
            self.fill(source)

    @staticmethod
    def files(folder, module):
        """Returns the sources of a module and of those below it."""
        paths = [f"{folder}/{module}.rt"]
        for at, _, names in sorted(os.walk(f"{folder}/{module}")):
            paths += [f"{at}/{name}" for name in sorted(names) if name.endswith(".rt")]
        return [Source(module, ledger.read(path).decode()) for path in paths if os.path.isfile(path) and module != "tests"]

    def add(self, is_public, source):
        """Adds the items that a crate above can name."""
        for item in source.items:
            if is_public or item.name in self.exported and self.exported[item.name] == source.module:
                if item.kind in ("struct", "enum", "trait"):
                    self.types[item.name], self.homes[item.name] = item, source.module
                else:
                    self.functions.append(item)

    def fill(self, source):
        """Gives types their methods and traits."""
        for owner, method in source.methods:
            if owner in self.types and self.is_at_home(owner, source):
                self.types[owner].methods.append(method)
        for owner, trait in source.traits:
            if owner in self.types and trait not in ("Drop", "Model") and self.is_at_home(owner, source):
                self.types[owner].traits.append(trait)

    def is_at_home(self, owner, source):
        """Returns `True` if a file means the public type by a name: a private type may have the same name."""
        return source.module_of(owner) in (self.homes[owner], "")

    def page(self):
        """Returns the page's lines."""
        yield from (f"# `{self.name}`", "", "Made by `gate/api_pages.py` from the sources: public items with their clauses.", "", *self.intro)
        for item in self.types.values():
            yield from described("##", item, item.name)
            if item.traits:
                yield from ("", "Implements " + ", ".join(f"`{trait}`" for trait in dict.fromkeys(item.traits)) + ".")
            for method in item.methods:
                yield from described("###", method, f"{item.name}::{method.name}")
        if self.functions:
            yield from ("", "## Functions and constants")
        for item in self.functions:
            yield from described("###", item, item.name)


def described(level, item, name):
    """Returns the lines about an item."""
    yield from ("", f"{level} `{name}`", "")
    if item.doc:
        yield from (*(line.replace("# ", "**", 1) + "**" if line.startswith("# ") else line for line in item.doc), "")
    yield from ("```rust", *item.code, "```")


def pages(root):
    """Returns the text of each page, by its path."""
    crates = ledger.read(f"{root}/crates.txt").decode().split(END_OF_PRODUCT)[0]
    names = [name for name in re.findall(r"^(\w+)(?: staticlib)?:", crates, re.M) if os.path.isfile(f"{root}/crates/{name}/src/lib.rt")]
    made = {f"{FOLDER}/{name}.md": "\n".join(Crate(root, name).page()) + "\n" for name in names}
    rows = "".join(f"- [`{name}`]({name}.md)\n" for name in names)
    made[f"{FOLDER}/README.md"] = f"# The public items of each crate, lowest layers first\n\nMade by `gate/api_pages.py`.\n\n{rows}"
    return made


def main(words):
    made = pages(TOP)
    kept = {f"{FOLDER}/{name}" for name in os.listdir(f"{TOP}/{FOLDER}")} if os.path.isdir(f"{TOP}/{FOLDER}") else set()
    wrong = sorted(path for path in {*made, *kept} if path not in kept or path not in made or ledger.read(f"{TOP}/{path}").decode() != made[path])
    if words == ["--write"]:
        os.makedirs(f"{TOP}/{FOLDER}", exist_ok=True)
        for path in wrong:
            if path not in made:
                os.remove(f"{TOP}/{path}")
                continue
            with open(f"{TOP}/{path}", "w", encoding="utf-8") as file:
                file.write(made[path])
        return 0
    for path in wrong:
        print(f"{path} is not that of the sources: python3 gate/api_pages.py --write")
    return int(bool(wrong))


if __name__ == "__main__":
    sys.exit(main(sys.argv[1:]))
