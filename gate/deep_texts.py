"""The deeply nested texts that document_tool and the command answer on a stack of 8 MiB, at the end of ./test (bench/deep.py)."""
import os
import sys

from repository import TOP

# The command answers the requests as lines.
PROGRAMS = {"document_tool": [], "tevondimby": ["serve"]}


def failures(root, write):
    """Runs the programs on a text of each kind. Writes how many are answered, and returns the others."""
    present = {program: words for program, words in PROGRAMS.items() if os.path.isdir(f"{root}/crates/{program}")}
    if not present:
        return []
    sys.path.insert(0, f"{TOP}/bench")
    import deep

    found = []
    for program, words in present.items():
        failed = deep.unanswered([f"{root}/crates/{program}/out/{program}", *words])
        write(f"test: {program}, deep texts on a stack of 8 MiB: {len(deep.KINDS) - len(failed)} of {len(deep.KINDS)} kinds answered")
        found += [f"{program}, {kind}" for kind in failed]
    return found
