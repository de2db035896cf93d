#!/usr/bin/env python3
"""Measures commits of a built document_tool at n and at 2n, beside `open` of the same text. Prints a table.

    bench/edits.py [--less K] [--runs R] PROGRAM [ROW..]
    bench/edits.py --calls [--less K] [--runs R] REWRITE_SPEED [ROW..]

Each row of ROWS makes a text and the changes of one commit. The program runs with these, and again with no command, which opens the
text alone: user time, the least of R runs (3), and the most memory of these, by wait4. A run counts only if its commit is accepted.
--less divides all sizes, for builds that check what they do. ROW picks rows by the front of their names.

With --calls the rows are those of CALLS, calls that no request asks for. The program is a built rewrite_speed, which is given n and
the name of a work, and beside it `open`. It makes its text itself. A work that is refused ends with another status than 0.

The ratio is that of the time at 2n to the time at n, in each the time of `open` taken off. A row may grow as n log n, which
makes 2 (1 + 1 / log2 n). It may make 4 where each change names an element at a depth that grows with n, as the paths do (d n), or
where n calls compare a tree of n elements each (n trees; docs/DECISIONS.md says why `merge` compares it). A quarter more is let pass,
since lists that are in a cache at n may not be at 2n: `open`, which is linear, grows by up to 2.5 on a busy machine. A row of n log n
with a part that grows as n^2 goes past that if this part takes over a third of its time at n. Times below LEAST say nothing: the clock
of user time is coarse. Memory, that of `open` taken off, may grow as the time may.

Not measured here: `remove_attrs_and_docs` (its place takes the deletion of an attribute of each function), `==` of trees, keys of
hashes.
"""
import argparse
import json
import math
import os
import subprocess
import sys
import tempfile

MEBI = 1 << 20
SLACK = 1.25
# Seconds of user time below which a time is noise.
LEAST = 0.05
# Megabytes that no memory is measured below: those of the process that starts the program.
FLOOR = 20
ITEM = "struct S;\n"


def change(op, kind, start, length, entry=None, text=None):
    """Returns a change as the request names it."""
    made = {"op": op, "at": [kind, start, start + length]}
    if entry:
        made["with"] = [entry, text]
    return made


def items(count, op, kind, start, length, *new, every=1):
    """Returns a text of `count` structs, and a change in each, or in one of `every`."""
    size = len(ITEM)
    return ITEM * count, [change(op, kind, number * size + start, length, *new) for number in range(0, count, every)]


def literals(count, kind, *new):
    """Returns an array of `count` literals, each of them replaced."""
    return "fn f(){[" + "1," * count + "];}", [change("replace", kind, 8 + 2 * number, 1, *new) for number in range(count)]


def chain(count, changed):
    """Returns `1+1+..+1` of `count` levels, in which the tokens at the places `changed` are replaced."""
    text = "fn f(){" + "1+" * count + "1;}"
    return text, [change("replace", "INT_NUMBER", 7 + 2 * number, 1, "token", "2") for number in changed]


def brackets(depth, count):
    """Returns an array of `count` literals in `depth` brackets, each of them replaced."""
    front = "fn f(){" + "(" * depth + "["
    changes = [change("replace", "LITERAL", len(front) + 2 * number, 1, "expr", "2") for number in range(count)]
    return front + "1," * count + "]" + ")" * depth + ";}", changes


def nested_deletions(depth):
    """Returns nested blocks, each of them deleted: all but the outermost are discarded."""
    text = "fn f(){" + "{" * depth + "}" * depth + "}"
    return text, [change("delete", "BLOCK_EXPR", 7 + number, 2 * (depth - number)) for number in range(depth)]


def attributes(count):
    """Returns functions with an attribute each, all of which are deleted."""
    item = "#[a]\nfn f(){}\n"
    return item * count, [change("delete", "ATTR", number * len(item), 4) for number in range(count)]


def at_one(count, op, kind, length, *new):
    """Returns a text of one struct, and `count` changes at one element of it."""
    return ITEM, [change(op, kind, 0, length, *new)] * count


def sparse(count):
    """Returns 16 MiB of structs, less for fewer than 50,000 changes, of which `count` get another name, evenly spread."""
    size = 16 * MEBI * min(count, 50_000) // 50_000 // len(ITEM)
    text, changes = items(size, "replace", "IDENT", 7, 1, "token", "T", every=max(1, size // count))
    return text, changes[:count]


# The n, what it may grow as, and the text and the changes for an n.
ROWS = {
    "a token replaced at each level of 1+1+..": (1_250, "d n", lambda n: chain(n, range(n + 1))),
    "one token replaced at depth n of 1+1+..": (50_000, "n log n", lambda n: chain(n, [0])),
    "one literal replaced in n brackets": (50_000, "n log n", lambda n: brackets(n, 1)),
    "200 literals replaced in n brackets": (5_000, "n log n", lambda n: brackets(n, 200)),
    "blocks deleted at each level of n": (1_250, "d n", nested_deletions),
    "n nodes of a list, each replaced by a node": (32_000, "n log n", lambda n: literals(n, "LITERAL", "expr", "2")),
    "n tokens, each replaced": (50_000, "n log n", lambda n: items(n, "replace", "IDENT", 7, 1, "token", "T")),
    "an item put before each of n": (50_000, "n log n", lambda n: items(n, "before", "STRUCT", 0, 9, "item", "enum E{}")),
    "n items deleted": (50_000, "n log n", lambda n: items(n, "delete", "STRUCT", 0, 9)),
    "an attribute of each of n functions deleted": (50_000, "n log n", attributes),
    "n items put after one": (50_000, "n log n", lambda n: at_one(n, "after", "STRUCT", 9, "item", "enum E{}")),
    "one item replaced n times": (50_000, "n log n", lambda n: at_one(n, "replace", "STRUCT", 9, "item", "enum E{}")),
    "n tokens of 16 MiB replaced": (50_000, "n log n", sparse),
    "no change in n structs": (800_000, "n log n", lambda n: (ITEM * n, [])),
}

# Rows of rewrite_speed: the n, what it may grow as, and the name of the work.
CALLS = {
    "n items annotated, finished": (50_000, "n log n", "annotations"),
    "n items annotated, committed": (50_000, "n log n", "committed_annotations"),
    "n items wrapped by a mapping, each renamed": (50_000, "n log n", "wraps"),
    "n editors of one change, merged": (2_000, "n trees", "merges"),
    "n items compared as slices of the text": (400_000, "n log n", "slices"),
}


def write_request(file, name, size, is_open):
    """Writes the request of a row. Another process does: a program's peak memory counts that of the process that starts it."""
    maker = os.fork()
    if maker == 0:
        text, changes = ROWS[name][2](size)
        commands = [] if is_open else [{"do": "commit", "changes": changes}]
        file.write(json.dumps({"edition": "2021", "text": text, "commands": commands}).encode())
        file.flush()
        os._exit(0)
    if os.waitpid(maker, 0)[1]:
        raise SystemExit(f"no request of {name}")


def run(command, given):
    """Runs a command, whose standard input is the file `given`, once. Returns its user time in seconds and its peak memory in MB."""
    with tempfile.TemporaryFile() as output:
        given.seek(0)
        with subprocess.Popen(command, stdin=given, stdout=output, stderr=subprocess.DEVNULL) as ran:
            _, status, used = os.wait4(ran.pid, 0)
            ran.returncode = os.waitstatus_to_exitcode(status)
        output.seek(0)
        line = output.readline(100)
        is_accepted = ran.returncode == 0 and b'"err"' not in line
    if not is_accepted:
        raise SystemExit(f"status {ran.returncode}: {line!r}")
    return used.ru_utime, used.ru_maxrss * 1024 / 1e6


def measure(program, name, size, is_open, runs):
    """Returns the least user time and the most memory of a row's commit or work, or of `open` of its text alone."""
    command = [program]
    with tempfile.TemporaryFile() as given:
        if name in CALLS:
            command += [str(size), "open" if is_open else CALLS[name][2]]
        else:
            write_request(given, name, size, is_open)
        times, sizes = zip(*(run(command, given) for _ in range(runs)))
    return min(times), max(sizes)


def allowed(count, growth):
    """Returns the greatest ratio that a row may have."""
    return SLACK * (4 if growth in ("d n", "n trees") else 2 * (1 + 1 / math.log2(count)))


def cells(name, count, growth, pairs):
    """Returns the cells of a row. `pairs` are, at n and at 2n, time and memory of the commit or work and of `open`."""
    (small, opened), (large, twice) = pairs
    own = [max(0, whole[0] - alone[0]) for whole, alone in ((small, opened), (large, twice))]
    ratio = own[1] / own[0] if own[0] else 0
    bound = allowed(count, growth)
    verdict = "too short" if own[1] < LEAST else "as it may" if ratio <= bound else f"above {growth}"
    held = [whole[1] - alone[1] for whole, alone in ((small, opened), (large, twice))]
    if held[1] > max(FLOOR, bound * held[0]):
        verdict = f"above {growth} in memory"
    seconds = [f"{value:.3f}" for value in (small[0], large[0])]
    opens = f"{opened[0]:.3f}, {twice[0]:.3f}"
    memory = f"{small[1]:.0f}, {large[1]:.0f} ({opened[1]:.0f}, {twice[1]:.0f})"
    return [name, f"{count:,}", *seconds, f"{ratio:.2f}", f"{bound:.2f}", opens, memory, verdict]


def measure_row(program, name, less, runs):
    """Returns the cells of one row."""
    count, growth, _ = {**ROWS, **CALLS}[name]
    count = max(2, count // less)
    pairs = []
    for size in (count, 2 * count):
        pairs.append([measure(program, name, size, is_open, runs) for is_open in (False, True)])
    return cells(name, count, growth, pairs)


def main():
    """Measures the rows that are asked for. Returns whether one of them grows faster than it may."""
    parser = argparse.ArgumentParser(usage=__doc__, add_help=False, allow_abbrev=False)
    parser.add_argument("--calls", action="store_true")
    parser.add_argument("--less", type=int, default=1)
    parser.add_argument("--runs", type=int, default=3)
    parser.add_argument("program")
    parser.add_argument("rows", nargs="*")
    asked = parser.parse_args()
    is_above = False
    print("| row | n | s at n | s at 2n | ratio | may be | `open`, s | MB at n, 2n (`open`) | grows |")
    print("|---|---|---|---|---|---|---|---|---|", flush=True)
    for name in CALLS if asked.calls else ROWS:
        if not asked.rows or name.startswith(tuple(asked.rows)):
            row = measure_row(asked.program, name, asked.less, asked.runs)
            is_above = is_above or row[-1].startswith("above")
            print("| " + " | ".join(row) + " |", flush=True)
    return is_above


if __name__ == "__main__":
    sys.exit(main())
