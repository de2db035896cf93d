#!/usr/bin/env python3
"""Renames in real files by the command: are its diffs taken, and do the files come back?

usage: command_renames.py [--diffs N] [--back N] [--seed N] PROGRAM DIRECTORY

PROGRAM is a build of `tevondimby`. First `rename` prints N diffs (1,000) of names taken at random from the `.rs` files in DIRECTORY,
each called in the file's own folder, in the one above it and by the absolute path from elsewhere. Each is given to `git apply --check`
and to `patch -p1` in the folder of the call, or in the one that standard error names; both have to take it, and what `patch` makes has to
be the text that `rename` prints as a filter. Then copies of all files are renamed in with `--write` and back, for up to N names of each
(4): names that are also in strings, comments, macro definitions and lifetimes come first. Each file has to have its bytes again, or
standard error has to say what stands in the way. The status is 1 if a row is not so.
"""
import argparse
import collections
import os
import random
import re
import shutil
import subprocess
import sys
import tempfile

WORD = re.compile(r"(?<![\w'$])[A-Za-z_]\w*")
NO_CODE = re.compile(r'//[^\n]*|/\*.*?\*/|"(?:[^"\\]|\\.)*"', re.S)
LIFETIME = re.compile(r"'[a-z]\w*(?!['\w])")
# Places where a renaming leaves a name.
LEFT = (re.compile(r"\$([A-Za-z_]\w*)"), re.compile(r"\$\w+\s*:\s*(\w+)"), re.compile(r"\{([a-z_]\w*)[:}]"), re.compile(r"//.*?\b([a-z_]\w*)"))
NOT_NAMES = frozenset("""_ as async await break const continue crate default dyn else enum extern false fn for if impl in let loop macro_rules match mod
    move mut pub ref return self Self static struct super trait true type union unsafe use where while 'static""".split())
ELSEWHERE = re.compile(r"the diff names files in (.*): `git apply`")


def call(words, folder, given=b""):
    """Runs a program in a folder. Returns its status, output and errors."""
    ran = subprocess.run(words, cwd=folder, input=given, capture_output=True)
    return ran.returncode, ran.stdout, ran.stderr.decode(errors="replace")


def rust_files(folder):
    """Returns the paths of the Rust files below a folder, in order."""
    return sorted(f"{at}/{name}" for at, _, names in os.walk(folder) for name in names if name.endswith(".rs"))


def read(path):
    with open(path, "rb") as file:
        return file.read()


def names_of(path, source):
    """Returns names of a file: those that a renaming may leave somewhere come first."""
    text = read(path).decode(errors="replace")
    code = NO_CODE.sub(" ", text)
    words, lifetimes = sorted(set(WORD.findall(code))), sorted(set(LIFETIME.findall(code)))
    left = sorted({name for form in LEFT for name in form.findall(text)}.intersection(words))
    for part in (left, words, lifetimes):
        source.shuffle(part)
    chosen = [*left[:2], *lifetimes[:1], *words]
    return [name for name in dict.fromkeys(chosen) if name not in NOT_NAMES and not name.startswith("__")]


def fresh(old):
    """Returns a name of the sort of another one that no file has."""
    return "'zz_fresh" if old.startswith("'") else "zz_fresh"


class Diffs:
    """Are diffs taken where they are printed?"""

    def __init__(self, program):
        self.program, self.counts, self.wrong = program, collections.Counter(), []

    def take(self, old, path, folder, named):
        """Renames in the file at `path`, which is `named` in a folder. Returns whether there was a diff."""
        rename = [self.program, "rename", "--edition", "2021", old, fresh(old)]
        status, diff, said = call([*rename, named], folder)
        if status != 0 or not diff:
            self.counts[f"status {status}"] += 1
            return False
        elsewhere = ELSEWHERE.search(said)
        room = elsewhere[1] if elsewhere else folder
        with tempfile.NamedTemporaryFile(suffix=".rs") as made:
            git = call(["git", "apply", "--check", "-"], room, diff)
            patch = call(["patch", "-p1", "-s", "-o", made.name], room, diff)
            taken = git[0] == 0 and patch[0] == 0 and read(made.name) == call([*rename, "-"], folder, read(path))[1]
        self.counts["taken" if taken else "not taken"] += 1
        if not taken:
            self.wrong.append((old, path, folder, named, git[2], patch[2]))
        return True

    def take_from_all(self, old, path):
        """Renames in a file from its folder, from above and by its absolute path. Returns whether there were diffs."""
        folder, name = os.path.split(path)
        above, inner = os.path.split(folder)
        if not self.take(old, path, folder, name):
            return False
        self.take(old, path, above, f"{inner}/{name}")
        self.take(old, path, folder, f"../{inner}/{name}")
        self.take(old, path, tempfile.gettempdir(), path)
        return True


def try_diffs(program, files, count, source):
    """Takes diffs of so many renamings. Returns the wrong ones."""
    diffs, made = Diffs(program), 0
    while made < count:
        path = source.choice(files)
        names = names_of(path, source)
        if names:
            made += diffs.take_from_all(source.choice(names), path)
    print(f"{made} renamings:", ", ".join(f"{number} {what}" for what, number in sorted(diffs.counts.items())))
    return diffs.wrong


def back_again(program, old, path, before, counts):
    """Renames in a file and back. Returns the words that say what is wrong, if something is."""
    new, flags = fresh(old), ["--write", "--edition", "2021"]
    status, _, said = call([program, "rename", *flags, old, new, path], None)
    if status != 0:
        counts["refused" if status == 2 else "no such name"] += 1
        return None if read(path) == before and said else f"status {status}: {said}"
    counts["with places that are left"] += bool(re.search(r"[1-9]\d* places? left", said))
    status, _, more = call([program, "rename", *flags, new, old, path], None)
    if status == 2 and f"`{old}` is here" in more:
        counts["back with --merge, as was said"] += 1
        status, _, more = call([program, "rename", "--merge", *flags, new, old, path], None)
    if read(path) == before:
        counts["same bytes"] += 1
        return None
    counts["other bytes, as was said"] += "spelled" in said
    return None if "spelled" in said else f"other bytes, status {status}: {said}{more}"


def try_back(program, directory, count, source):
    """Renames in copies of all files and back. Returns the wrong ones."""
    counts, wrong = collections.Counter(), []
    with tempfile.TemporaryDirectory(prefix="renames-") as room:
        files = rust_files(shutil.copytree(directory, f"{room}/files", symlinks=True))
        for path in files:
            before = read(path)
            for old in names_of(path, source)[:count]:
                why = back_again(program, old, path, before, counts)
                if why:
                    wrong.append((old, path, why))
                with open(path, "wb") as file:
                    file.write(before)
    print(f"{len(files)} files, there and back:", ", ".join(f"{number} {what}" for what, number in sorted(counts.items())))
    return wrong


def main():
    parser = argparse.ArgumentParser(description=__doc__, formatter_class=argparse.RawDescriptionHelpFormatter)
    parser.add_argument("--diffs", type=int, default=1000)
    parser.add_argument("--back", type=int, default=4)
    parser.add_argument("--seed", type=int, default=1)
    parser.add_argument("program")
    parser.add_argument("directory")
    asked = parser.parse_args()
    source, program, directory = random.Random(asked.seed), os.path.abspath(asked.program), os.path.abspath(asked.directory)
    wrong = try_diffs(program, rust_files(directory), asked.diffs, source) if asked.diffs else []
    wrong += try_back(program, directory, asked.back, source)
    for row in wrong[:20]:
        print(*row, sep="\n  ")
    print(f"{len(wrong)} wrong")
    return bool(wrong)


if __name__ == "__main__":
    sys.exit(main())
