"""The tables of docs/GUIDE.md of what is read, beside what the reader says.

    python3 gate/guide_rows.py            says which cells are wrong
    python3 gate/guide_rows.py --write    mends the cells of the whole language

The reader is `tree_dump`: its fast build, which is made first where it lacks or is older than a source. Not part of ./test, whose proved
tests have the rows of the profile.
"""
import glob
import os
import re
import subprocess
import sys

import fast_build
from repository import TOP

GUIDE = f"{TOP}/docs/GUIDE.md"
FOLDER = f"{TOP}/crates/tree_dump"
EDITION = "2024"
# A row, its text and the cell of the whole language, if the table has one.
ROW = re.compile(r"^(\| [^\n]*? \| (`+) ?(.*?) ?\2 \|)(?: (yes|no) \|)?$")
HEADS = ("| construct | example |", "| construct | more examples |")


def program():
    """Returns the path of a build of `tree_dump` that is not older than any source."""
    stamp = f"{FOLDER}/out/fast/stamp"
    newest = max(os.path.getmtime(path) for path in glob.glob(f"{TOP}/crates/*/src/**/*.rt", recursive=True))
    if not os.path.isfile(stamp) or os.path.getmtime(stamp) < newest:
        if not fast_build.keep(FOLDER):
            sys.exit("tree_dump cannot be built")
    return f"{FOLDER}/out/fast/program"


def are_read(texts, grammar):
    """Returns for each text if it is read without messages."""
    records = "".join(f"{EDITION} SourceFile{grammar}\n{text}\x1e" for text in texts)
    ran = subprocess.run([program(), "records"], input=records, stdout=subprocess.PIPE, text=True, check=True)
    trees = ran.stdout.split("\n\n")[: len(texts)]
    return [not any(line.startswith("!") for line in tree.splitlines()) for tree in trees]


def rows_of(lines):
    """Returns the places of the rows, each with its text, and if its table says that the profile reads it."""
    rows, is_silent, table = [], True, False
    for at, line in enumerate(lines):
        if line.startswith(HEADS):
            table, is_silent = True, "whole language" not in line
        elif table and not line.startswith("|"):
            table = False
        found = ROW.match(line) if table else None
        if found:
            rows.append((at, found[3].replace("\\|", "|"), is_silent))
    return rows


def main(words):
    with open(GUIDE, encoding="utf-8") as file:
        lines = file.read().split("\n")
    rows = rows_of(lines)
    texts = [text for _, text, _ in rows]
    wrong = 0
    for (at, text, is_silent), profile, whole in zip(rows, are_read(texts, ""), are_read(texts, " whole")):
        if profile != is_silent or is_silent and not whole:
            print(f"the table of this row is another one: {text}")
            wrong += 1
        cell = "yes" if whole else "no"
        found = ROW.match(lines[at])
        if found[4] and found[4] != cell:
            print(f"the whole language: {cell}: {text}")
            lines[at] = f"{found[1]} {cell} |"
            wrong += words != ["--write"]
    if words == ["--write"]:
        with open(GUIDE, "w", encoding="utf-8") as file:
            file.write("\n".join(lines))
    print(f"{len(rows)} rows, {wrong} wrong")
    return int(wrong > 0)


if __name__ == "__main__":
    sys.exit(main(sys.argv[1:]))
