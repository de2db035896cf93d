"""The built programs whose requests for memory are refused, each in turn, at the end of ./test (bench/refused.py).

A run that meets the refusal answers out of memory: one that does without the memory, and gives its usual answer, is wrong. Of the command
over files alone it is right: there a list that grows by less than it asked for first is none that a contract speaks of.
"""
import glob
import os
import sys
from typing import NamedTuple

import ledger
from repository import TOP

# Each program, and how a run of it ends that met a refusal.
PROGRAMS = {
    "memory_suite": "calls",
    "document_memory_suite": "calls",
    "file_memory_suite": "calls",
    "command_suite": "calls",
    "document_tool": "fault",
    "tevondimby": "command",
}
# The runs of the command over files: its words and its standard input.
COMMANDS = (
    (("check", "-"), b"fn f() {\n\tlet x = ;\n}\n"),
    (("tree", "--json", "-"), b"fn f() {}\n"),
    (("search", "$a.unwrap()", "-"), b"fn f() { x.unwrap() }\n"),
    (("replace", "$a.unwrap()", "$a?", "-"), b"fn f() { x.unwrap() }\n"),
    (("rename", "f=g", "x=y", "-"), b"fn f(x: u8) { f(x) }\n"),
    (("serve",), b'{"text":"fn f() {}","commands":[{"do":"tree"}]}\n'),
    (("--version",), b""),
)


class Run(NamedTuple):
    """A run of a program: its name, what it is run on, its words, and its standard input."""

    program: str
    given: str
    words: tuple
    stdin: bytes


def inputs(root, name):
    """Yields what a program is run on: its stored input and the examples of requests, or commands."""
    if name == "tevondimby":
        for words, stdin in COMMANDS:
            yield Run(name, " ".join(words), words, stdin)
        return
    yield Run(name, "stored input", (), ledger.read(f"{root}/crates/{name}/stdin"))
    for path in sorted(glob.glob(f"{root}/examples/*.json")) if name == "document_tool" else ():
        yield Run(name, os.path.basename(path), (), ledger.read(path))


def runs(root):
    """Yields each run, for the programs that the repository has."""
    for name in PROGRAMS:
        if os.path.isdir(f"{root}/crates/{name}"):
            yield from inputs(root, name)


def failures(root, path_of, write):
    """Refuses each request of each run in turn; `path_of` gives the path of a program. Writes what became of the requests, and returns
    the runs that ended wrongly."""
    failed = []
    for run in runs(root):
        outcome = outcome_of([path_of(run.program), *run.words], PROGRAMS[run.program], run.stdin)
        for line in outcome.lines():
            write(f"test: {run.program}, {run.given}: {line}")
        if outcome.wrong:
            failed.append(f"{run.program}, {run.given}")
    return failed


def outcome_of(words, mode, stdin):
    """Runs a program with each request refused in turn. Returns what became of it."""
    sys.path.insert(0, f"{TOP}/bench")
    import refused

    return refused.tried(words, mode, stdin)
