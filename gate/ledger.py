"""The sums that must-fail edits rest on, and the ledgers of the edits that the prover has refused.

Each crate has its own ledger, `crates/NAME/must-fail.ledger`, beside the folder of its edits ('rt' takes each further file in that
folder for a bad edit). A row is a sum, how the refusal was seen, and the edit's file name:

    alone       by a check of the crate with this edit only
    together    by a check of the functions that it and other edits change (together.py)
    unknown     before ledgers recorded how
"""
import hashlib
import os
import re
import subprocess

import together

# The folders of a crate that its check reads.
PARTS = ("src", "specs", "proofs")
COMMENT = re.compile(r"\s*//")
ALONE, TOGETHER, UNKNOWN = "alone", "together", "unknown"
HEAD = "# The refused must-fail edits of this crate: sum, how it was seen, file. Written by gate/edits.py.\n"


def sum_of(*parts):
    """Returns one sum of texts and bytes. Each part is summed by itself first: lists with other boundaries have other sums."""
    whole = hashlib.sha256()
    for part in parts:
        whole.update(hashlib.sha256(part if isinstance(part, bytes) else part.encode()).digest())
    return whole.hexdigest()


def read(path):
    with open(path, "rb") as file:
        return file.read()


def files_below(folder):
    """Returns the files below a folder, in an order that is the same on every machine."""
    paths = [os.path.join(at, name) for at, _, names in os.walk(folder) for name in names]
    return sorted(paths)


def logic():
    """Returns the hash of the kit's logic, as 'rt version' names it. Builds of the kit with one logic prove by the same rules."""
    version = subprocess.run(["rt", "version"], stdout=subprocess.PIPE, text=True, check=True).stdout
    found = re.search(r"\blogic (\w+)", version)
    if not found:
        raise ValueError(f"'rt version' names no logic: {version.strip()}")
    return found[1]


def crate_lines(root):
    """Returns the line of each crate in crates.txt, without comments and extra blanks."""
    lines = [" ".join(line.partition("#")[0].split()) for line in read(f"{root}/crates.txt").decode().splitlines()]
    return {line.replace(":", " ").split()[0]: line for line in lines if line.strip(" :")}


def libraries(line):
    """Returns the libraries that a crate's line lists, those of the kit included."""
    return line.partition(":")[2].replace(",", " ").split()


def without_comments(text):
    """Returns the text of a Rust file without the lines that are comments."""
    return "\n".join(line for line in text.split("\n") if not COMMENT.match(line))


def interface(file, text):
    """Returns what crates above can depend on of a file of src/: its text without comments and the bodies of its functions."""
    for body in reversed(together.bodies(file, text)):
        text = text[: body.first] + text[body.end :]
    return without_comments(text)


class Sums:
    """The sums of the crates of one tree."""

    def __init__(self, root):
        self.root = root
        self.lines = crate_lines(root)
        handles = f"{root}/HANDLES"
        self.shared = sum_of(logic(), read(handles) if os.path.isfile(handles) else b"")
        self.cache = {}

    def files(self, name, part):
        """Returns the texts of the files in a folder of a crate, by their paths from the root of the tree."""
        files = files_below(f"{self.root}/crates/{name}/{part}")
        return {os.path.relpath(file, self.root): read(file).decode(errors="replace") for file in files}

    def below(self, name, above=()):
        """Returns the crates of the tree that a crate depends on."""
        if name in above:
            raise ValueError(f"{name} depends on itself")
        found = {it for it in libraries(self.lines[name]) if it in self.lines}
        return found.union(*(self.below(it, (*above, name)) for it in found))

    def once(self, kind, name, compute):
        """Returns a sum of a crate, which is computed once."""
        if (kind, name) not in self.cache:
            self.cache[kind, name] = compute()
        return self.cache[kind, name]

    def interface(self, name):
        """Returns the sum of what crates above depend on: a crate's definitions, and its sources without bodies and comments."""

        def compute():
            sources = {file: interface(file, text) for file, text in self.files(name, "src").items() if file.endswith(".rt")}
            return sum_of(*(part for row in sorted({**sources, **self.files(name, "specs")}.items()) for part in row))

        return self.once("interface", name, compute)

    def crate(self, name):
        """Returns the sum that a crate's edits rest on: the logic, the handles, the crate's line and files, and the interfaces below.

        A library of the kit counts by its name in the crate's line. The bodies and the proofs of crates below do not count: no proof
        of this crate reads a body below, and a lemma there is cited by what it states."""

        def compute():
            files = {file: text for part in PARTS for file, text in self.files(name, part).items()}
            texts = {file: without_comments(text) if file.endswith(".rt") else text for file, text in files.items()}
            own = [part for row in sorted(texts.items()) for part in row]
            return sum_of(self.shared, self.lines[name], *own, *map(self.interface, sorted(self.below(name))))

        return self.once("crate", name, compute)

    def edits(self):
        """Returns the sum of each must-fail edit, by its path: the sum of its crate, its file name and its text."""
        return {edit: sum_of(self.crate(crate_of(edit)), os.path.basename(edit), read(f"{self.root}/{edit}")) for edit in self.paths()}

    def paths(self):
        """Returns the paths of all must-fail edits, from the root of the tree."""
        files = [file for name in sorted(self.lines) for file in files_below(f"{self.root}/crates/{name}/must-fail")]
        return [os.path.relpath(file, self.root) for file in files if file.endswith(".edit")]


def crate_of(edit):
    """Returns the crate of an edit, by its path."""
    return edit.split("/")[1]


def by_crate(edits):
    """Returns the edits of each crate; crates and edits are sorted by name."""
    groups = {}
    for edit in sorted(edits):
        groups.setdefault(crate_of(edit), []).append(edit)
    return groups


def ledger_of(root, name):
    """Returns the path of a crate's ledger."""
    return f"{root}/crates/{name}/must-fail.ledger"


def crate_rows(root, name):
    """Returns the rows of a crate's ledger, by the edit's path: the sum and how the refusal was seen.

    Raises ValueError if a row is none, or is the second one of an edit."""
    path, found = ledger_of(root, name), {}
    lines = read(path).decode().splitlines() if os.path.isfile(path) else []
    for row in (line.split() for line in lines if line and not line.startswith("#")):
        if len(row) != 3 or row[1] not in (ALONE, TOGETHER, UNKNOWN):
            raise ValueError(f"{path} has a row that is no sum, mark and file: {' '.join(row)}")
        edit = f"crates/{name}/must-fail/{row[2]}"
        if edit in found:
            raise ValueError(f"{path} has two rows of {row[2]}")
        found[edit] = row[0], row[1]
    return found


def recorded(root):
    """Returns the rows of all ledgers of a tree, by the edit's path."""
    return {edit: row for name in crate_lines(root) for edit, row in crate_rows(root, name).items()}


def recorded_edits(root):
    """Returns the rows of all ledgers of a tree, by the edit's path. Raises ValueError if one is of an edit that is not there."""
    found = recorded(root)
    for edit in sorted(found):
        if not os.path.isfile(f"{root}/{edit}"):
            raise ValueError(f"the ledger of {crate_of(edit)} has a row of {os.path.basename(edit)}, which is no edit of the crate")
    return found


def record(root, name, tried, refused):
    """Writes to a crate's ledger the edits that were refused, by path, each with its sum and how that was seen.

    Rows of edits that were tried and not refused go, and those of files that are gone. Other rows stay, as another run may have
    recorded them meanwhile."""
    others = {edit: row for edit, row in crate_rows(root, name).items() if edit not in tried and os.path.isfile(f"{root}/{edit}")}
    rows = sorted({**others, **refused}.items())
    with open(ledger_of(root, name), "w", encoding="utf-8") as file:
        file.write(HEAD)
        file.writelines(f"{key} {how} {os.path.basename(edit)}\n" for edit, (key, how) in rows)
