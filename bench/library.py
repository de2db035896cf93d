#!/usr/bin/env python3
"""Measures lib/libtevondimby.so through ctypes, in CPU time of this process: a request answered by a call, and by a process each.

    bench/library.py [FILE]

The process is bench/once.c, with the same library. FILE is a text that is opened and written as rows; without it src/ of
crates/grammar_reader joined. The build is the one that lib/BUILD names.
"""
import glob
import json
import os
import resource
import subprocess
import sys
import tempfile

TOP = os.path.dirname(os.path.dirname(os.path.realpath(__file__)))
sys.path.insert(0, f"{TOP}/bindings/python")
os.environ.setdefault("TEVONDIMBY_LIBRARY", f"{TOP}/lib/libtevondimby.so")
import tevondimby  # noqa: E402

CALLS, PROCESSES, RUNS = 2000, 100, 5


def seconds(who):
    """Returns the CPU time used so far, in seconds."""
    used = resource.getrusage(who)
    return used.ru_utime + used.ru_stime


def measured(who, action):
    """Returns the CPU time of an action, the least of RUNS, in seconds."""
    times = []
    for _ in range(RUNS):
        begin = seconds(who)
        action()
        times.append(seconds(who) - begin)
    return min(times)


def requests():
    """Returns the first stored requests."""
    with open(f"{TOP}/crates/requests_suite/stdin", encoding="utf-8") as file:
        cases = [json.loads(line) for line in file]
    return [case["request"].encode() for case in cases if "request" in case][:CALLS]


def text_of(words):
    """Returns the text of FILE."""
    paths = words or sorted(glob.glob(f"{TOP}/crates/grammar_reader/src/**/*.rt", recursive=True))
    return "".join(open(path, encoding="utf-8").read() for path in paths)


def main(words):
    with open(f"{TOP}/lib/BUILD", encoding="utf-8") as file:
        print(f"the {file.read().strip()} build")
    asked = requests()
    a_call = measured(resource.RUSAGE_SELF, lambda: [tevondimby.run(request) for request in asked]) / len(asked)
    print(f"a call for a request: {a_call * 1e6:.0f} us, {1 / a_call:.0f} a second")
    with tempfile.TemporaryDirectory(prefix="library-") as room:
        program, some = f"{room}/once", asked[:PROCESSES]
        subprocess.run(["cc", "-O1", f"-I{TOP}/bindings/c", f"{TOP}/bench/once.c", f"{TOP}/lib/libtevondimby.a", "-o", program], check=True)
        a_process = measured(resource.RUSAGE_CHILDREN, lambda: [subprocess.run([program], input=it, capture_output=True) for it in some]) / len(some)
    print(f"a process for a request: {a_process * 1e6:.0f} us, {a_process / a_call:.1f} times a call")
    text = text_of(words)
    size = len(text.encode())
    opened = tevondimby.Document(text, grammar=tevondimby.Grammar.WHOLE)
    rows = {
        "opened": lambda: tevondimby.Document(text, grammar=tevondimby.Grammar.WHOLE).close(),
        "tokens": lambda: list(opened.tokens()),
        "tree": lambda: list(opened.tree()),
        "text": lambda: opened.text,
    }
    for name, action in rows.items():
        time = measured(resource.RUSAGE_SELF, action)
        print(f"{size} bytes, {name}: {time * 1000:.2f} ms, {size / max(time, 1e-9) / 1e6:.1f} MB/s")
    opened.close()
    return 0


if __name__ == "__main__":
    sys.exit(main(sys.argv[1:]))
