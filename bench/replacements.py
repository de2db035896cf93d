#!/usr/bin/env python3
"""Replaces by each of some rules in copies of a directory, and looks for new messages.

usage: replacements.py [--edition EDITION] PROGRAM DIRECTORY

PROGRAM is a build of `tevondimby`. For each rule the directory is copied, `replace --write --skip --allow-messages` runs over the
copy, and `check` over what it wrote. A rule's row has the files that changed, the matches that were left, by reason, and the rows of
messages before and after, which have to be as many. The last line is 'N rules, M with new messages'.
"""
import argparse
import filecmp
import os
import shutil
import subprocess
import sys
import tempfile

RULES = [
    ("$a.unwrap()", "$a?"),
    ("$a.clone()", "*$a"),
    ("$a.wrapping_add($b)", "$a + $b"),
    ("$a.wrapping_sub($b)", "$a - $b"),
    ("cmp::max($a, $b)", "$a.max($b)"),
    ("$a.is_some()", "$a != None"),
    ("Some($x)", "Ok($x)"),
    ("mem::replace($a, Default::default())", "mem::take($a)"),
    ("$a.len() == 0", "$a.is_empty()"),
    ("if $c { true } else { false }", "$c"),
    ("Vec<$t>", "SmallVec<[$t; 4]>"),
    ("Box<$t>", "&'static $t"),
    ("&Vec<$t>", "&[$t]"),
    ("fn $f($$$p) -> Option<$t> { $$$b }", "fn $f($$$p) -> Result<$t, ()> { $$$b }"),
]
REASONS = {"another tree": "would read otherwise", "a comment would": "would lose a comment"}


def run(program, *words):
    """Runs the program. Returns the lines of its output and of its errors."""
    ran = subprocess.run([program, *words], stdin=subprocess.DEVNULL, capture_output=True, text=True, errors="replace")
    return ran.stdout.splitlines(), ran.stderr.splitlines()


def rust_files(folder):
    """Returns the paths of the Rust files below a folder, from there."""
    walk = os.walk(folder)
    return [os.path.relpath(f"{at}/{name}", folder) for at, _, names in walk for name in names if name.endswith(".rs")]


def main():
    parser = argparse.ArgumentParser(description=__doc__, formatter_class=argparse.RawDescriptionHelpFormatter)
    parser.add_argument("--edition", default="2021")
    parser.add_argument("program")
    parser.add_argument("directory")
    asked = parser.parse_args()
    edition = ("--edition", asked.edition)
    program = os.path.abspath(asked.program)
    before = len(run(program, "check", *edition, asked.directory)[0])
    failed = 0
    for pattern, template in RULES:
        with tempfile.TemporaryDirectory(prefix="replacements-") as room:
            copied = f"{room}/files"
            shutil.copytree(asked.directory, copied)
            _, errors = run(program, "replace", *edition, "--skip", "--allow-messages", "--write", pattern, template, copied)
            after = len(run(program, "check", *edition, copied)[0])
            files = rust_files(copied)
            changed = sum(not filecmp.cmp(f"{asked.directory}/{file}", f"{copied}/{file}", shallow=False) for file in files)
        left = [f"{sum(word in line for line in errors)} {reason}" for word, reason in REASONS.items()]
        print(f"{pattern}  to  {template}: {changed} of {len(files)} files, left: {', '.join(left)}; messages {before}, {after}", flush=True)
        failed += after != before
    print(f"{len(RULES)} rules, {failed} with new messages")
    return int(failed > 0)


if __name__ == "__main__":
    sys.exit(main())
