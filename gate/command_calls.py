"""Calls of the command as a person makes them, each with what it has to print and write, at the end of ./test.

    python3 gate/command_calls.py PROGRAM [FILE]

FILE (command_calls.txt beside this) has the cases, each with a folder of its own. Its lines begin with a mark:

    == NAME         a case begins
    @ PATH          a file; its lines follow, each behind '| '. With '@ PATH -> TARGET' it is a link
    / FOLDER        where the following calls are made, from the case's folder on
    $ WORDS         a call, as a shell would read the words
    < LINE          a line of its standard input
    > LINE          a line that it has to print
    ! LINE          the same of standard error
    = STATUS        its status, if that is not 0
    % WORDS         another program, which has to take what the call printed, with status 0
    ? PATH          a file whose bytes have to be the lines that follow, each behind '| '

In a line ROOM is the case's folder, and \\xNN a byte.
"""
import os
import re
import shlex
import subprocess
import sys
import tempfile
from dataclasses import dataclass, field

CASES = f"{os.path.dirname(os.path.realpath(__file__))}/command_calls.txt"
PROGRAM = "tevondimby"
BYTE = re.compile(rb"\\x([0-9a-f]{2})")
# The lines of each mark after a call or a path.
LINES = {"|": "lines", "<": "given", ">": "out", "!": "err"}


@dataclass
class Step:
    """A file, a folder, a call or a look at a file: its mark and words, and the lines that follow."""

    mark: str
    words: str
    status: int = 0
    lines: list = field(default_factory=list)
    given: list = field(default_factory=list)
    out: list = field(default_factory=list)
    err: list = field(default_factory=list)


def cases_in(text):
    """Returns the names of the cases of a text, each with its steps."""
    found = {}
    for line in text.splitlines():
        mark, _, words = line.partition(" ")
        if mark == "==":
            steps = found.setdefault(words, [])
        elif mark in LINES:
            getattr(steps[-1], LINES[mark]).append(words)
        elif mark == "=":
            steps[-1].status = int(words)
        elif mark:
            steps.append(Step(mark, words))
    return found


def in_bytes(text, room):
    """Returns the bytes of a line."""
    return BYTE.sub(lambda byte: bytes([int(byte[1], 16)]), text.replace("ROOM", room).encode())


def joined(lines, room):
    """Returns the bytes of lines, each with its line feed."""
    return b"".join(in_bytes(line, room) + b"\n" for line in lines)


def make_file(step, room):
    """Makes the file or the link of a step."""
    path, _, target = step.words.partition(" -> ")
    at = os.path.join(room.encode(), in_bytes(path, room))
    os.makedirs(os.path.dirname(at), exist_ok=True)
    if target:
        os.symlink(target, at)
        return
    with open(at, "wb") as file:
        file.write(joined(step.lines, room))


def differences(step, room, ran):
    """Returns what differs between what a call did and what it has to do."""
    wanted = {"status": step.status, "output": joined(step.out, room), "standard error": joined(step.err, room)}
    made = {"status": ran.returncode, "output": ran.stdout, "standard error": ran.stderr}
    return [f"{step.words}: {what}: {made[what]!r} for {wanted[what]!r}" for what in wanted if made[what] != wanted[what]]


def run_case(program, steps, room):
    """Makes the calls of a case in a folder. Returns what differs."""
    found, folder, printed = [], room, b""
    for step in steps:
        if step.mark == "@":
            make_file(step, room)
        elif step.mark == "/":
            folder = os.path.join(room, step.words)
            os.makedirs(folder, exist_ok=True)
        elif step.mark == "$":
            words = [program.encode(), *(in_bytes(word, room) for word in shlex.split(step.words))]
            ran = subprocess.run(words, cwd=folder, input=joined(step.given, room), capture_output=True)
            found += differences(step, room, ran)
            printed = ran.stdout
        elif step.mark == "%":
            taken = subprocess.run(shlex.split(step.words), cwd=folder, input=printed, capture_output=True)
            found += [f"{step.words}: {taken.stdout + taken.stderr!r}"] * (taken.returncode != 0)
        else:
            with open(os.path.join(room, step.words), "rb") as file:
                now = file.read()
            found += [f"{step.words}: {now!r} for {step.lines}"] * (now != joined(step.lines, room))
    return found


def wrong_calls(program, text):
    """Makes the calls of all cases of a text. Returns how many cases there are, and what differs."""
    cases, found = cases_in(text), []
    for name, steps in cases.items():
        with tempfile.TemporaryDirectory(prefix="calls-") as room:
            found += [f"{name}: {why}" for why in run_case(os.path.abspath(program), steps, os.path.realpath(room))]
    return len(cases), found


def read_cases(path=CASES):
    with open(path, encoding="utf-8") as file:
        return file.read()


def is_quiet_at_closed_pipe(program):
    """Returns `True` if the program ends without a word when nobody reads what it prints."""
    text = "fn f() {}\n" * 20_000
    with subprocess.Popen([program, "tokens", "-"], stdin=subprocess.PIPE, stdout=subprocess.PIPE, stderr=subprocess.PIPE) as ran:
        ran.stdout.close()
        ran.stdin.write(text.encode())
        ran.stdin.close()
        return ran.stderr.read() == b""


def failures(path_of, write):
    """Makes all calls by the built command, if there is one. Writes how many cases there are, and returns what differs."""
    program = path_of(PROGRAM)
    if not os.path.exists(program):
        return []
    count, found = wrong_calls(program, read_cases())
    if not is_quiet_at_closed_pipe(program):
        found.append("a closed pipe is told")
    write(f"test: {PROGRAM}, calls as a person makes them: {count + 1} cases, {len(found)} with another answer")
    return found


if __name__ == "__main__":
    number, wrong = wrong_calls(sys.argv[1], read_cases(*sys.argv[2:]))
    wrong += [] if is_quiet_at_closed_pipe(os.path.abspath(sys.argv[1])) else ["a closed pipe is told"]
    for why in wrong:
        print(why)
    print(f"{number + 1} cases, {len(wrong)} other answers")
    sys.exit(bool(wrong))
