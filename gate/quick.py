"""The quick mode, ./test --quick: runs the tests and each program on its stored input, and proves nothing.

All tests are compiled as one crate, and all programs but those of PROGRAMS_APART as another (combined.py). The tests run by the checked
build (checked_build.py): by that of 'rt try' for its sanitizer those that read texts of 16 MiB take minutes each. The programs run by
both builds, which have to write what is stored: the sanitizer alone sees a use of memory that was given back, and the checked build is
what users get. So do REQUESTS of the requests of requests_suite, by document_tool. Without a checked build the sanitizer's runs all.
"""
import json
import os
import re
import subprocess
import sys
import tempfile
import threading
import time
from concurrent.futures import ThreadPoolExecutor

import combined
import ledger
import repository
import unproved
from fast_build import CHECKED, SANITIZED, stored
from progress import BEAT, minutes
from rt_try import Try

# The programs that end with a status of their own, which a combined program does not hand on.
EXIT_CODE = re.compile(rb"fn main\(.*\) -> ExitCode\b")
# The other run of 'rt try', by an interpreter, is cut off at its first step. Its own run of a compiled program has an hour.
LIMITS = ("--steps", "1", "--seconds", "3600")
ENDED = re.compile(r"run=ended status=(\d+) .*proved=no")
REQUESTS, ANSWERING = 300, "document_tool"
# The last lines of a failure that are shown.
SHOWN = 20


class Report:
    """The results of the runs, with a line for each, and one at least each BEAT seconds."""

    def __init__(self):
        self.begin, self.passed, self.failed, self.running = time.monotonic(), 0, [], []
        self.lock, self.ended = threading.RLock(), threading.Event()

    def say(self, text):
        """Writes a line."""
        with self.lock:
            print(f"test: {self.passed} passed, {len(self.failed)} failed, {minutes(time.monotonic() - self.begin)}: {text}", flush=True)

    def perform(self, name, call, *arguments):
        """Makes a call, which returns why it fails, or nothing. Counts it and writes its line."""
        begin = time.monotonic()
        with self.lock:
            self.running.append(name)
        try:
            why = call(*arguments)
        except subprocess.TimeoutExpired as error:
            why = f"it did not end in {error.timeout:.0f} s"
        with self.lock:
            self.running.remove(name)
            if why:
                self.failed.append(name)
            else:
                self.passed += 1
            self.say(f"{name} {f'FAILED: {why}' if why else 'passed'} in {time.monotonic() - begin:.0f} s")

    def beat(self):
        """Writes a line each BEAT seconds until all has ended."""
        while not self.ended.wait(BEAT):
            with self.lock:
                self.say(f"at work: {', '.join(self.running) or 'compiling'}")


class Quick:
    """The runs of a copy of the tree, at `root` in the folder `room`."""

    def __init__(self, root, room, report):
        self.root, self.room, self.report = root, room, report
        self.names = [*ledger.crate_lines(root)]

    def tests(self):
        """Compiles all tests and runs them."""
        names = [name for name in self.names if repository.has_tests(self.root, name)]
        if names:
            combined.write_tests(self.root, names)
            self.report.perform("tests", self.error_of_tests, unproved.tests_in(self.root, names))

    def error_of_tests(self, count):
        """Returns which of `count` tests fail, or nothing."""
        with self.tried(combined.EVERY_TEST, "--test") as tried:
            tried.wait(tried.is_compiling)
            if tried.has_checked():
                os.chmod(tried.checked, 0o755)
                return "\n".join(unproved.run_tests(tried.checked, count)[1])
            self.report.say(f"tests: there is no checked build ({tried.why_unchecked()}), so the sanitizer's runs them")
            tried.wait(tried.is_running)
            ended = any(map(ENDED.match, tried.lines()[-1:]))
            return None if ended and tried.ran.returncode == 0 else "\n".join([*tried.output_lines(), *tried.lines()])

    def tried(self, name, *words):
        """Starts a run of 'rt try' of a crate."""
        os.mkdir(f"{self.room}/{name}")
        return Try(f"{self.root}/crates/{name}", f"{self.room}/{name}", *words, *LIMITS)

    def programs(self, crate, names):
        """Compiles a crate by both builds and runs the programs of `names`, which it has."""
        with self.tried(crate) as tried:
            # (its program is whole once 'rt try' has run it)
            tried.wait(lambda: tried.is_compiling() or tried.is_running())
        paths = {SANITIZED: tried.sanitized} if tried.is_linked else {}
        if tried.has_checked():
            paths[CHECKED] = tried.checked
        else:
            self.report.say(f"{crate}: there is no checked build ({tried.why_unchecked()})")
        if not paths:
            self.report.perform(crate, lambda: "\n".join(["it was not built:", *tried.lines()]))
        with ThreadPoolExecutor(repository.cores()) as pool:
            runs = [(name, kind, path) for kind, path in paths.items() for name in names]
            for ended in [pool.submit(self.run_stored, *run) for run in runs]:
                ended.result()
        if ANSWERING in names and len(paths) == 2:
            linked = {kind: unproved.link_program(path, f"{self.room}/{kind}", ANSWERING) for kind, path in paths.items()}
            self.report.perform(f"{REQUESTS} requests, by both builds", self.error_of_requests, linked)

    def run_stored(self, name, kind, program):
        """Runs a crate's program, by one build, on its stored input."""
        path = unproved.link_program(program, f"{self.room}/{kind}", name)
        os.chmod(path, 0o755)
        self.report.perform(f"{name}, {kind} build", unproved.run_stored, self.root, path, name)

    def error_of_requests(self, paths):
        """Returns the first request that a build answers otherwise than is stored, or nothing."""
        cases = [json.loads(line) for line in stored(f"{self.root}/crates/requests_suite", "stdin").splitlines()]
        cases = [case for case in cases if "request" in case]
        for case in cases[:: max(len(cases) // REQUESTS, 1)][:REQUESTS]:
            for kind, path in paths.items():
                ran = subprocess.run([path], input=case["request"].encode(), stdout=subprocess.PIPE, stderr=subprocess.DEVNULL)
                if (ran.returncode, ran.stdout) != (case["status"], case["output"].encode()):
                    return f"the {kind} build answers otherwise: {case['request'][:300]}"
        return None

    def run_all(self):
        """Does all runs."""
        programs = unproved.programs_of(self.root, self.names)
        apart = [name for name in programs if EXIT_CODE.search(ledger.read(f"{self.root}/crates/{name}/src/main.rt"))]
        others = [name for name in programs if name not in apart]
        if others:
            combined.write_programs(self.root, others)
        with ThreadPoolExecutor(repository.cores()) as pool:
            parts = [pool.submit(self.tests), *[pool.submit(self.programs, combined.EVERY_RUN, others)] * bool(others)]
            for part in [*parts, *(pool.submit(self.programs, name, [name]) for name in apart)]:
                part.result()


def error_of_bindings():
    """Returns what fails of the library for C, Rust and Python, or nothing."""
    ran = subprocess.run([sys.executable, f"{repository.TOP}/gate/bindings.py"], capture_output=True, text=True, errors="replace")
    return "\n".join((ran.stdout + ran.stderr).splitlines()[-SHOWN:]) if ran.returncode else None


def main():
    report = Report()
    thread = threading.Thread(target=report.beat, daemon=True)
    thread.start()
    with tempfile.TemporaryDirectory(prefix="gate-") as room:
        Quick(repository.copy_in(room), room, report).run_all()
    if os.path.isdir(f"{repository.TOP}/bindings"):
        report.perform("bindings", error_of_bindings)
    report.ended.set()
    thread.join()
    if report.failed:
        print(f"test: FAILED: {', '.join(report.failed)}")
    print(f"{report.passed} passed, {len(report.failed)} failed")
    return int(bool(report.failed))


if __name__ == "__main__":
    if sys.argv[1:]:
        print(__doc__, end="")
        sys.exit(0 if sys.argv[1:] == ["--help"] else "gate/quick.py takes no words")
    sys.exit(main())
