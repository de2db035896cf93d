#!/usr/bin/env python3
"""Tries the must-fail edits that no ledger has, and records those that are refused. Its last line is 'N passed, M failed'.

    gate/edits.py              of all crates, but for those whose functions call one another (grammar_reader)
    gate/edits.py NAME ..      of these crates
    gate/edits.py --anew ..    the edits that a ledger has, too
    gate/edits.py --alone ..   of such a crate also those that no check of several refuses

It works in copies of the tree, over the libraries that checks have built here from the same sources (trying.py). Edits of different
functions are tried by one check, the others one by one, but of a crate whose functions call one another only if --alone asks for it:
each takes minutes. A crate's ledger is written as soon as its edits were tried.
"""
import argparse
import sys
import tempfile

import ledger
import repository
import trying
from gate import write
from repository import fail
from selection import CYCLES


def edits_to_try(sums, rows, asked):
    """Returns the edits to try, by crate; fails if a crate that is named has no edits."""
    groups = ledger.by_crate(sums)
    for name in asked.names:
        if name not in groups:
            fail(f"no crate {name} has must-fail edits")
    names = asked.names or [name for name in groups if name not in CYCLES]
    wanted = {name: {edit for edit in groups[name] if asked.anew or rows.get(edit, ("",))[0] != sums[edit]} for name in names}
    return {name: edits for name, edits in wanted.items() if edits}


def run(copied, sums, wanted, alone):
    """Tries and records the edits of each crate. Returns how many were refused, and how many not."""
    passed, failed = 0, 0
    for name, refused in trying.try_all(copied, wanted, write, lambda name: alone or name not in CYCLES):
        ledger.record(repository.TOP, name, wanted[name], {edit: (sums[edit], how) for edit, how in refused.items()})
        passed, failed = passed + len(refused), failed + len(wanted[name]) - len(refused)
    return passed, failed


def arguments():
    parser = argparse.ArgumentParser(prog="gate/edits.py", description=__doc__, formatter_class=argparse.RawDescriptionHelpFormatter, allow_abbrev=False)
    parser.add_argument("--anew", action="store_true")
    parser.add_argument("--alone", action="store_true")
    parser.add_argument("names", nargs="*", metavar="NAME")
    return parser.parse_args()


def main():
    asked = arguments()
    with tempfile.TemporaryDirectory(prefix="gate-") as room:
        copied = repository.copy_in(room, ("rlib",))
        try:
            sums, rows = ledger.Sums(copied).edits(), ledger.recorded(copied)
        except (OSError, ValueError, LookupError) as error:
            fail(f"the sums of the edits cannot be computed: {error!r}")
        wanted = edits_to_try(sums, rows, asked)
        write(f"edits: {len(sums)} must-fail edits: {sum(map(len, wanted.values()))} to be tried, of {len(wanted)} crates")
        passed, failed = run(copied, sums, wanted, asked.alone)
    print(f"{passed} passed, {failed} failed")
    return int(failed > 0)


if __name__ == "__main__":
    sys.exit(main())
