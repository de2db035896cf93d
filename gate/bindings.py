"""The checks of the library for C, Rust and Python (bindings/), in a folder with lib/ and bindings/ alone.

    python3 gate/bindings.py [--valgrind] [--large PROGRAM]

It makes the library if lib/ has none that is as new as the sources, the proved one if 'rt lib' has built that, and runs the examples and
tests of each language whose compiler is there. The requests of requests_suite are answered by each. ./test --quick runs this at its end.
With PROGRAM, a build of document_tool, these are REQUESTS: the others are made of the stored ones, and their answers are the program's;
and LARGE edits are made.
"""
import argparse
import contextlib
import itertools
import json
import os
import shutil
import struct
import subprocess
import sys
import tempfile

sys.dont_write_bytecode = True
import fast_library
from fast_build import is_current_since, stored
from repository import TOP

REQUESTS = 2000
EDITS, LARGE, THREADS, KIB = 8000, 100_000, 8, 2048
EDITIONS = ("2015", "2018", "2021", "2024", "next")
# The seconds of a run.
LIMIT = 900
EXPORTED = f"{TOP}/lib/BUILD"


def shown(command):
    """Returns what bindings/README.md shows that a command writes, which is named by its end."""
    with open(f"{TOP}/bindings/README.md", encoding="utf-8") as file:
        lines = file.read().splitlines(keepends=True)
    at = next(number for number, line in enumerate(lines) if line.startswith("$ ") and line.rstrip(")\n").endswith(command))
    return "".join(itertools.takewhile(lambda line: not line.startswith(("$ ", "```")), lines[at + 1 :]))


def stored_cases():
    """Returns the stored requests, each with its output and its status."""
    lines = map(json.loads, stored(f"{TOP}/crates/requests_suite", "stdin").splitlines())
    return [(case["request"].encode(), case["output"].encode(), case["status"]) for case in lines if "request" in case]


def varied(request, number):
    """Returns a request in another edition, with the tree and the messages asked for at its end, or nothing if it is no request."""
    with contextlib.suppress(ValueError, KeyError, TypeError, AttributeError):
        value = json.loads(request)
        value["edition"] = EDITIONS[number % len(EDITIONS)]
        value["commands"].extend([{"do": "tree"}, {"do": "errors"}])
        return json.dumps(value, ensure_ascii=False).encode()
    return None


def answered(program, request):
    """Returns a request with the output and the status of a program."""
    ran = subprocess.run([program], input=request, stdout=subprocess.PIPE, stderr=subprocess.DEVNULL, timeout=LIMIT)
    return request, ran.stdout, ran.returncode


def cases(program):
    """Returns requests with their answers, in the form of bindings/c/tests/requests.c."""
    found = stored_cases()
    if program:
        others = (varied(request, number) for number, (request, _, _) in enumerate(found))
        found += [answered(program, request) for request in itertools.islice(filter(None, others), REQUESTS - len(found))]
    return b"".join(struct.pack("<IIB", len(request), len(output), status) + request + output for request, output, status in found)


class Checks:
    """The runs in a folder `room` with copies of lib/ and bindings/, and the failed ones."""

    def __init__(self, room, program):
        self.room, self.failed, self.passed = room, [], 0
        self.cases, self.edits = cases(program), LARGE if program else EDITS
        for name in ("lib", "bindings"):
            shutil.copytree(f"{TOP}/{name}", f"{room}/{name}", ignore=shutil.ignore_patterns("target", "__pycache__"))

    def run(self, name, *words, given=b"", folder="", command="", **more):
        """Runs a command, and writes its last line. A status other than 0 is a failure, and an output other than bindings/README.md
        shows of `command`."""
        ran = subprocess.run(words, cwd=f"{self.room}/{folder}", input=given, capture_output=True, timeout=LIMIT, env={**os.environ, **more})
        lines = (ran.stdout + ran.stderr if ran.returncode else ran.stdout).decode(errors="replace").splitlines() or [""]
        if ran.returncode or command and ran.stdout.decode(errors="replace") != shown(command):
            self.failed.append(name)
            print(f"bindings: {name} FAILED, status {ran.returncode}:", *lines[-12:], sep="\n", flush=True)
        else:
            self.passed += 1
            print(f"bindings: {name}: {lines[-1]}", flush=True)
        return ran

    def compile(self, source):
        """Compiles a program of C. Returns its path."""
        program = f"{self.room}/{os.path.basename(source).removesuffix('.c')}"
        self.run(f"cc {source}", "cc", "-O1", "-Wall", "-Ibindings/c", f"bindings/c/{source}", "lib/libtevondimby.a", "-lpthread", "-o", program)
        return program

    def c(self, uses_valgrind):
        """Runs the example and the tests of C."""
        self.run("example.c", self.compile("example.c"), command="./example")
        self.run("handles.c", self.compile("tests/handles.c"))
        self.run("refused.c", self.compile("tests/refused.c"))
        self.run("deep.c", self.compile("tests/deep.c"), str(KIB))
        self.run("made.c", self.compile("tests/made.c"), str(KIB))
        edits = self.compile("tests/edits.c")
        self.run("edits.c", edits, str(self.edits // THREADS), str(THREADS), str(KIB))
        self.run("requests.c", self.compile("tests/requests.c"), given=self.cases)
        if uses_valgrind:
            words = ("valgrind", "-q", "--error-exitcode=9", "--leak-check=full")
            self.run("edits.c, valgrind", *words, edits, "100", "2", str(KIB))
            self.run("handles.c, valgrind", *words, f"{self.room}/handles")

    def rust(self):
        """Runs the examples and tests of Rust."""
        folder = "bindings/rust/tevondimby"
        self.run("cargo test", "cargo", "test", "--offline", "--quiet", folder=folder)
        self.run("tour.rs", "cargo", "run", "--offline", "--quiet", "--example", "tour", folder=folder, command="--example tour")
        self.run("requests.rs", "cargo", "run", "--offline", "--quiet", "--example", "requests", folder=folder, given=self.cases)

    def python(self):
        """Installs the package of Python and runs its example and tests."""
        packages = f"{self.room}/packages"
        words = ("-m", "pip", "install", "--no-index", "--quiet", "--target", packages, "./bindings/python")
        self.run("pip install", sys.executable, *words)
        for name in ("example", "requests"):
            given, command = (self.cases, "") if name == "requests" else (b"", "tests/example.py")
            self.run(f"{name}.py", sys.executable, f"bindings/python/tests/{name}.py", given=given, command=command, PYTHONPATH=packages)


def arguments(words):
    parser = argparse.ArgumentParser(prog="gate/bindings.py", description=__doc__, formatter_class=argparse.RawDescriptionHelpFormatter, allow_abbrev=False)
    parser.add_argument("--valgrind", action="store_true")
    parser.add_argument("--large", metavar="PROGRAM")
    return parser.parse_args(words)


def main(words):
    asked = arguments(words)
    if not all(map(shutil.which, ("cc", "ar", "objcopy"))):
        print("bindings: there is no C compiler, so the library is not tried\n0 passed, 0 failed")
        return 0
    if not is_current_since(EXPORTED, TOP) and fast_library.main([]):
        print("0 passed, 1 failed")
        return 1
    with tempfile.TemporaryDirectory(prefix="bindings-") as room:
        checks = Checks(room, asked.large)
        checks.c(asked.valgrind and shutil.which("valgrind"))
        if shutil.which("cargo"):
            checks.rust()
        checks.python()
    print(f"bindings: {checks.passed} passed, {len(checks.failed)} failed")
    return int(bool(checks.failed))


if __name__ == "__main__":
    sys.exit(main(sys.argv[1:]))
