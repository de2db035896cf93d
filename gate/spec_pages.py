"""The page docs/SPECS.md: which files of specs/ a reader of the public contracts has to believe.

    python3 gate/spec_pages.py            says if the page is not that of the sources
    python3 gate/spec_pages.py --write    writes it
    python3 gate/spec_pages.py WORD ..    says by which way each definition of these names is cited, if it is

The definitions that a clause of a public item names, those that these name, and so on. The public items are those of docs/api. A name is
followed wherever it may mean an imported definition, so that the page rather has a file too many.
"""
import os
import re
import sys

import api_pages
import ledger
from repository import TOP

PAGE = "docs/SPECS.md"
# What a user of documents and tools calls.
TOP_CRATES = ["rust_document", "document_requests", "renamer", "rust_source", "source_tools", "source_rewrites"]
GHOST_USE = re.compile(r"^ *ghost (use .*?);", re.M)
CODE_USE = re.compile(r"^use (\w+)(?:::\w+)*::(?:\{([^}]*)\}|(\w+));", re.M)
USE = re.compile(r"^(pub )?use Rattle\.(\w+)\.specs\.([\w.]+?)(?:\.\{([^}]*)\}| as (\S+))?$")
HEAD = re.compile(r"^( *)(?:(?:abbrev|unfoldable|opaque|pub|private) +)*(?:(data|record) +([^\s(){}:]+)|([^\s(){}:]+|'[^' ]+') +:(?: |$))")
BLOCK = re.compile(r"^(?:abbrev )?(?:mutual|module)\b")
IMPL = re.compile(r"^impl\b(?:<.*?>)? ?(.*?) for ([\w:]+).*?\{", re.S)
# What an impl says of a trait's items; the others are proofs.
GHOST = re.compile(r"^ +ghost (?!(?:use|invariant|laws|coded|size|size_decreases|respects_eq|undoes)\b)\w+ = (.*?);$", re.M | re.S)
CLAUSES = re.compile(r"^ *(?:ensures|requires)\b.*", re.M | re.S)
LABEL = re.compile(r"\b(?:ensures|requires) +\w* *\{")
SPLIT = re.compile(r"[\s(){},;]+")
HEADLINE = """# Definitions to believe

`gate/spec_pages.py` makes this page from the sources, and `./test` checks it. Each file of `specs/` of the product's crates is in one column:

- *documents*: a public call of {tops} cites a definition of it, or a definition that such a call cites does, and so on. Whoever rests on documents, requests or tools believes these.
- *crates*: the same holds of a public call of another crate only.
- *laws*: only contracts of public laws cite it (a law does nothing: its contract is the statement).
- *proofs*: no public contract cites it. It serves private functions and proofs, which `rt check` judges: no reader has to believe it.

The model of a type counts as cited where a contract speaks of the type; its invariant does not, since it is proved. Crates of tests are not listed. What each file is about, its first comment says; [`ARCHITECTURE.md`](ARCHITECTURE.md#definitions) has them by subject.

| crate | documents | crates | laws | proofs |
|---|---|---|---|---|
"""
COLUMNS = ["documents", "crates", "laws", "proofs"]


def without_comments(text):
    """Returns the text of a file of specs without its comments."""
    return re.sub(r"(^|\s)--(?=\s|$).*", "", text)


def words_of(text):
    """Returns the words of a definition or a clause, each also without what follows its first dot."""
    words = set(SPLIT.split(text))
    return words | {word.split(".")[0] for word in words if "." in word}


class Names:
    """What names mean in a file: the definitions or files that they may stand for."""

    def __init__(self, lines):
        self.names, self.files, self.exported = {}, {}, {}
        for line in lines:
            found = USE.match(line)
            if found:
                self.add(*found.groups())

    def add(self, public, crate, path, group, alias):
        """Adds an import. Of a type of the code, the path has the word `declared`."""
        parts = path.split(".")
        types = [part for part in parts[1:] if part[0].isupper() and part != "TheVariants"]
        file = ("declared", crate, types[0]) if parts[0] == "declared" and types else (crate, parts[0])
        if alias or group is None:
            self.files.setdefault(alias or parts[-1], set()).add(file)
        for name in group.split(", ") if group else []:
            old, _, new = name.partition(" as ")
            target = file if file[0] == "declared" else (*file, old)
            self.names.setdefault(new or old, set()).add(target)
            if public:
                self.exported[new or old] = target

    def cited(self, text):
        """Returns what a definition or a clause may cite."""
        words = words_of(text)
        targets = set()
        for name, meant in self.names.items():
            if name in words or "◌" in name and all(part in (words if part.isalnum() else text) for part in name.split("◌") if part):
                targets |= meant
        for name, meant in self.files.items():
            inner = {word.split(".")[1] for word in words if word.startswith(name + ".")}
            targets |= {file if file[0] == "declared" else (*file, part) for file in meant for part in inner}
        return targets


class Spec:
    """A file of specs: its definitions and what each may cite."""

    def __init__(self, crate, name, text):
        self.file, lines = (crate, name), without_comments(text).splitlines()
        self.names = Names(lines)
        self.home, self.texts, shared = {}, {}, []
        current, in_block = None, False
        for line in lines:
            if not line.strip() or USE.match(line):
                continue
            if not line.startswith((" ", "}")):
                in_block = bool(BLOCK.match(line))
            if BLOCK.match(line):
                shared.append(line)
                continue
            found = HEAD.match(line)
            if found:
                indent, kind, name = len(found[1]), found[2], found[3] or found[4]
                if indent == 0 or in_block and indent == 2 or kind:
                    current = name
                self.home.setdefault(name, set()).add(current or name)
            if current:
                self.texts[current] = self.texts.get(current, "") + line + "\n"
        for name in self.home:
            self.names.names.setdefault(name, set()).add((*self.file, name))
        self.shared = "\n".join(shared)

    def cited(self, name):
        """Returns what a definition of the file cites."""
        if name in self.names.exported and name not in self.home:
            return {self.names.exported[name]}
        text = "".join(self.texts.get(owner, "") for owner in self.home.get(name, ()))
        return self.names.cited(text + self.shared) if text else set()


class Contracts:
    """The public contracts of a crate, and the models of its types."""

    def __init__(self, name):
        self.calls, self.laws, self.models = set(), set(), {}
        crate = api_pages.Crate(TOP, name)
        shown = {id(item) for item in [*crate.types.values(), *crate.functions]}
        shown |= {id(method) for item in crate.types.values() for method in item.methods}
        for source in crate.sources:
            self.read(name, crate, source, shown)

    def read(self, name, crate, source, shown):
        """Reads a file of a crate."""
        text = "\n".join(source.lines)
        names = Names([line for line in GHOST_USE.findall(text)])
        types = {part: crate for crate, group, single in CODE_USE.findall(text) for part in (api_pages.names_in(group) if group else [single])}
        for item in [*source.items, *(method for _, method in source.methods)]:
            if id(item) in shown:
                self.add("laws" if source.module == "laws" else "calls", name, names, types, item)
        for block in re.findall(r"^impl\b.*?^\}", text, re.M | re.S):
            self.implemented(name, crate, names, block)

    def add(self, kind, name, names, types, item):
        """Adds what the clauses of an item and of its methods cite, and the types that it names."""
        for part in [item, *(item.methods if item.kind == "trait" else [])]:
            code = "\n".join(part.code)
            clauses = CLAUSES.search(code)
            cited = names.cited(LABEL.sub("{", clauses[0])) if clauses else set()
            head = code[: clauses.start()] if clauses else code
            cited |= {("declared", types.get(word, name), word) for word in re.findall(r"\b[A-Z]\w+", head)}
            getattr(self, kind).update(cited)

    def implemented(self, name, crate, names, block):
        """Adds what an impl of a trait for a public type cites; of `Model`, apart, what a contract sees of the type."""
        found = IMPL.match(block)
        if not found:
            return
        trait, owner = api_pages.plain_name(found[1]), api_pages.plain_name(found[2])
        text = "\n".join([*GHOST.findall(block), *(LABEL.sub("{", clause) for clause in CLAUSES.findall(block))])
        if trait == "Model":
            self.models[owner] = names.cited(text)
        elif owner in crate.types and trait != "Drop":
            self.calls |= names.cited("\n".join([*GHOST.findall(block), *clauses_of(block)]))


def clauses_of(block):
    """Returns the clauses of the functions of an impl, without their labels."""
    return [LABEL.sub("{", clause) for clause in re.findall(r"^ +(?:ensures|requires)\b.*?(?=^ {4}\{)", block, re.M | re.S)]


class Citations:
    """All definitions, and what is cited by the public contracts."""

    def __init__(self):
        text = ledger.read(f"{TOP}/crates.txt").decode().split(api_pages.END_OF_PRODUCT)[0]
        self.crates = [name for name in re.findall(r"^(\w+):", text, re.M) if os.path.isfile(f"{TOP}/crates/{name}/src/lib.rt")]
        self.contracts = {name: Contracts(name) for name in self.crates}
        self.specs = {}
        for crate in self.crates:
            folder = f"{TOP}/crates/{crate}/specs"
            for name in sorted(os.listdir(folder)) if os.path.isdir(folder) else []:
                if name.endswith(".antt") and name != "Lib.antt":
                    file = (crate, name.removesuffix(".antt"))
                    self.specs[file] = Spec(*file, ledger.read(f"{folder}/{name}").decode())

    def next_of(self, cited):
        """Returns what a definition or a type of the code cites."""
        if cited[0] == "declared":
            return self.contracts[cited[1]].models.get(cited[2], set()) if cited[1] in self.contracts else set()
        spec = self.specs.get(cited[:2])
        return spec.cited(cited[2]) if spec else set()

    def reached(self, roots):
        """Returns all that these cite, each with what cites it."""
        came = dict.fromkeys(sorted(roots))
        open_ones = list(came)
        while open_ones:
            at = open_ones.pop()
            for cited in sorted(self.next_of(at)):
                if cited not in came:
                    came[cited] = at
                    open_ones.append(cited)
        return came

    def roots(self, kind, crates):
        return {cited for name in crates for cited in getattr(self.contracts[name], kind)}

    def columns(self):
        """Returns the column of each file."""
        reached = [self.reached(self.roots("calls", TOP_CRATES)), self.reached(self.roots("calls", self.crates)), self.reached(self.roots("laws", self.crates))]
        files = [{cited[:2] for cited in part} for part in reached]
        return {file: next((name for name, part in zip(COLUMNS, files) if file in part), COLUMNS[-1]) for file in self.specs}


def page():
    """Returns the text of the page."""
    citations = Citations()
    columns = citations.columns()
    rows = []
    for crate in citations.crates:
        files = [file for file in citations.specs if file[0] == crate]
        if files:
            cells = [", ".join(f"`{name}`" for _, name in files if columns[crate, name] == column) for column in COLUMNS]
            rows.append(f"| `{crate}` | " + " | ".join(cells) + " |\n")
    counts = [f"{sum(1 for column in columns.values() if column == name)}" for name in COLUMNS]
    rows.append("| files | " + " | ".join(counts) + " |\n")
    tops = ", ".join(f"`{name}`" for name in TOP_CRATES)
    return HEADLINE.format(tops=tops) + "".join(rows)


def show_ways(words):
    """Prints by which way each definition of these names is cited."""
    citations = Citations()
    came = citations.reached(citations.roots("calls", citations.crates) | citations.roots("laws", citations.crates))
    for cited in came:
        if cited[-1] in words or ".".join(cited[:2]) in words:
            way = [cited]
            while came[way[-1]]:
                way.append(came[way[-1]])
            print(" <- ".join(".".join(part) for part in way))
    return 0


def main(words):
    if words and words != ["--write"]:
        return show_ways(words)
    made = page()
    kept = ledger.read(f"{TOP}/{PAGE}").decode() if os.path.isfile(f"{TOP}/{PAGE}") else ""
    if words:
        with open(f"{TOP}/{PAGE}", "w", encoding="utf-8") as file:
            file.write(made)
        return 0
    if kept != made:
        print(f"{PAGE} is not that of the sources: python3 gate/spec_pages.py --write")
    return int(kept != made)


if __name__ == "__main__":
    sys.exit(main(sys.argv[1:]))
