#!/usr/bin/env python3
"""What the checks cost: the proved and the checked build of the command and of document_tool, side by side.

    bench/checks.py [--runs R] DIRECTORY

Each row is a command over the .rs files of a directory, or a request on the first BYTES of them in one text. Both builds run in turn, R
times (5). The columns are MB/s of the least user time, of the proved and of the checked build, and the first to the second; and the
instructions of both, counted by `valgrind`, with their ratio. A build that is not there has '-' (`rt run` in the crate's folder makes the
proved one, `tools/build NAME` the checked one). Both have to write the same bytes.
"""
import glob
import json
import os
import re
import resource
import shutil
import subprocess
import sys

TOP = os.path.dirname(os.path.dirname(os.path.realpath(__file__)))
BYTES = 1_300_000
COUNTED = re.compile(rb"I\s+refs:\s+([\d,]+)")


def builds(crate):
    """Returns the paths of a crate's proved and checked builds, each or nothing."""
    paths = (f"{TOP}/crates/{crate}/out/{crate}", f"{TOP}/crates/{crate}/out/fast/program")
    return [path if os.path.exists(path) else None for path in paths]


def run(program, words, given):
    """Runs a program. Returns its user time in seconds, and what it writes."""
    before = resource.getrusage(resource.RUSAGE_CHILDREN).ru_utime
    ran = subprocess.run([program, *words], input=given, stdout=subprocess.PIPE, stderr=subprocess.DEVNULL)
    return resource.getrusage(resource.RUSAGE_CHILDREN).ru_utime - before, ran.stdout


def instructions(program, words, given):
    """Returns the number of instructions that a run takes, or nothing without valgrind."""
    if not shutil.which("valgrind"):
        return None
    counting = ["valgrind", "--tool=cachegrind", "--cache-sim=no", "--cachegrind-out-file=/dev/null"]
    ran = subprocess.run([*counting, program, *words], input=given, stdout=subprocess.DEVNULL, stderr=subprocess.PIPE)
    return int(COUNTED.search(ran.stderr)[1].replace(b",", b""))


def ratio(one, other):
    """Returns a ratio in words."""
    return f"{one / other:.2f}" if one and other else "-"


def row(name, size, crate, words, given, runs):
    """Returns the row of a command."""
    programs = builds(crate)
    times, outputs = [[], []], set()
    for _ in range(runs):
        for at, program in enumerate(programs):
            if program:
                seconds, output = run(program, words, given)
                times[at].append(seconds)
                outputs.add(output)
    if len(outputs) > 1:
        sys.exit(f"{name}: the builds write different bytes")
    rates = [size / 1e6 / max(min(it), 1e-3) if it else None for it in times]
    counts = [instructions(program, words, given) if program else None for program in programs]
    cells = [f"{rate:.1f}" if rate else "-" for rate in rates] + [ratio(*rates)]
    cells += [f"{count / 1e6:.0f}" if count else "-" for count in counts] + [ratio(counts[1], counts[0])]
    return f"| {name} | {' | '.join(cells)} |"


def main(words):
    runs = 5
    if words[:1] == ["--runs"]:
        runs, words = int(words[1]), words[2:]
    if len(words) != 1:
        sys.exit(__doc__.strip())
    texts = []
    for path in sorted(glob.glob(f"{words[0]}/**/*.rs", recursive=True)):
        with open(path, encoding="utf-8") as file:
            texts.append(file.read())
    size = sum(len(text.encode()) for text in texts)
    print("| command | MB/s, proved | checked | ratio | million instructions, proved | checked | ratio |\n|---|---|---|---|---|---|---|")
    for command in (["check"], ["tokens"], ["tree"], ["rename", "Option", "Choice"]):
        print(row(command[0], size, "tevondimby", [*command, words[0]], b"", runs), flush=True)
    text = "".join(texts).encode()[:BYTES].decode(errors="ignore")
    for name, commands in (("open", []), ("open, edit, messages", [{"do": "edit", "start": 0, "end": 0, "text": " "}, {"do": "errors"}])):
        asked = json.dumps({"edition": "2021", "text": text, "commands": commands}).encode()
        print(row(name, len(text.encode()), "document_tool", [], asked, runs), flush=True)


if __name__ == "__main__":
    main(sys.argv[1:])
