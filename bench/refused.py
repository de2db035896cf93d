#!/usr/bin/env python3
"""Runs a built program again and again, and refuses one request for memory in each run: the first, the second, and so on, until a
run meets no refusal. Says how many runs there were, and which ended otherwise than they may.

    bench/refused.py [--fault | --calls | --command] [--stdin FILE] PROGRAM [ARGUMENT..]

A run that met a refusal ends as the run that met none, with the same output: so do tests that make a refused call again. With --fault
it ends with status 2, 'fault: memory' on standard error, and a front of the output: so does document_tool. With --calls its output has
one line more, which comes first and names the call that answered out of memory: so do memory_suite, document_memory_suite and command_suite. With
either of the two, a run that met a refusal and answers as if there was none is wrong. With --command it ends so, or with status 2, words for
memory at the end of standard error, and a front of the output: so does tevondimby.
Standard input is empty, or FILE. Wants glibc, and the Rattle kit's C compiler or another one.
"""
import argparse
import os
import re
import shutil
import subprocess
import sys
import tempfile
from collections import Counter
from concurrent.futures import ThreadPoolExecutor

HERE = os.path.dirname(os.path.realpath(__file__))
FAULT = 2, b"fault: memory\n"
# What a program with a table of calls prints of one that answered out of memory.
OUT_OF_MEMORY = re.compile(rb"\A1 out of memory: (.*)\n")
# How the last line of standard error ends, of a command that ran out of memory.
WORDS_FOR_MEMORY = re.compile(rb"(out of memory|memory allocation failed|fault: memory)(; no file is written)?\n\Z")
# The runs that are started before it is seen whether one of them met no refusal.
BATCH = 64
# The wrong runs that are shown.
SHOWN = 20


def compiler():
    """Returns the command of a C compiler: the kit's, or else the machine's."""
    rt = shutil.which("rt")
    own = f"{os.path.dirname(os.path.dirname(os.path.realpath(rt)))}/toolchain/bin/clang" if rt else ""
    return [own, "-nostdlib", "-fuse-ld=lld"] if os.access(own, os.X_OK) else ["cc"]


class Program:
    """A program, the bytes of its standard input, and a folder for the library that refuses requests."""

    def __init__(self, words, stdin, room):
        self.words, self.stdin, self.room, self.shim = words, stdin, room, f"{room}/refuse.so"
        subprocess.run([*compiler(), "-O1", "-shared", "-fPIC", "-o", self.shim, f"{HERE}/refuse.c"], check=True)

    def run(self, number):
        """Refuses the request of a number, or none where it is 0. Returns status, output and errors, and whether it was refused."""
        met = f"{self.room}/met-{number}"
        named = {"LD_PRELOAD": self.shim, "REFUSE": str(number), "REFUSED": met}
        ran = subprocess.run(self.words, input=self.stdin, capture_output=True, env={**os.environ, **named}, timeout=120)
        return (ran.returncode, ran.stdout, ran.stderr), os.path.exists(met)

    def refused_runs(self):
        """Yields each run that meets a refusal: the number of the request, and how the run ended."""
        first = 1
        with ThreadPoolExecutor(len(os.sched_getaffinity(0))) as pool:
            while True:
                numbers = range(first, first + BATCH)
                for number, (ended, is_met) in zip(numbers, pool.map(self.run, numbers)):
                    if not is_met:
                        return
                    yield number, ended
                first += BATCH


def refused_call(ended):
    """Returns the name of the call that answered out of memory, if the output begins with one."""
    named = OUT_OF_MEMORY.match(ended[1])
    return named and named[1].decode()


def is_as_it_may_be(ended, whole, mode):
    """Returns `True` if a run with a refusal ended as it may, beside one with none."""
    status, output, errors = ended
    if mode == "fault":
        return (status, errors) == FAULT and whole[1].startswith(output)
    if mode == "calls":
        output, named = OUT_OF_MEMORY.subn(b"", output, count=1)
        return named == 1 and (status, output) == whole[:2]
    if mode == "command" and WORDS_FOR_MEMORY.search(errors):
        return status == 2 and whole[1].startswith(output)
    return (status, output) == whole[:2]


class Outcome:
    """What became of all runs of a program."""

    def __init__(self, program, mode):
        self.whole = program.run(0)[0]
        self.count, self.same, self.wrong, self.calls = 0, 0, [], Counter()
        for number, ended in program.refused_runs():
            self.count += 1
            self.same += ended[:2] == self.whole[:2]
            self.calls[refused_call(ended)] += 1
            if not is_as_it_may_be(ended, self.whole, mode):
                self.wrong.append((number, ended))

    def lines(self):
        """Returns the counts and the first wrong runs, in words."""
        others = self.count - self.same
        yield f"status {self.whole[0]} and {len(self.whole[1])} bytes of output with no refusal"
        yield f"{self.count} requests refused in turn: {self.same} runs ended as that one, {others} otherwise; {len(self.wrong)} wrongly"
        for at, (status, output, errors) in self.wrong[:SHOWN]:
            yield f"request {at}: status {status}, {output[-200:]!r}, {errors[-200:]!r}"


def tried(words, mode="", stdin=b""):
    """Runs a program with each request refused in turn. Returns what became of it."""
    with tempfile.TemporaryDirectory(prefix="refused-") as room:
        return Outcome(Program(words, stdin, room), mode)


def main():
    parser = argparse.ArgumentParser(usage=__doc__, add_help=False, allow_abbrev=False)
    parser.add_argument("--fault", action="store_const", const="fault", dest="mode", default="")
    parser.add_argument("--calls", action="store_const", const="calls", dest="mode")
    parser.add_argument("--command", action="store_const", const="command", dest="mode")
    parser.add_argument("--stdin", default=os.devnull)
    parser.add_argument("words", nargs=argparse.REMAINDER)
    asked = parser.parse_args()
    with open(asked.stdin, "rb") as file:
        outcome = tried(asked.words, asked.mode, file.read())
    for line in outcome.lines():
        print(line)
    for call, count in outcome.calls.items() if asked.mode == "calls" else ():
        print(f"{count:6} {call}")
    return bool(outcome.wrong)


if __name__ == "__main__":
    sys.exit(main())
