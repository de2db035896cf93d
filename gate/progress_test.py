"""Tests of the progress lines, of the estimate of the time left and of the watch over processes."""
import os
import subprocess
import sys
import tempfile
import time
import unittest
from unittest import mock

import progress
from processes import PROOF, TESTS, Checks
from stand_in import write

WEIGHTS = {("low", PROOF): 100.0, ("top", PROOF): 40.0, ("top", TESTS): 60.0, ("side", PROOF): 80.0}


class StandInChecks:
    """Checks whose processor seconds a test sets."""

    def __init__(self):
        self.seconds, self.running = {}, set()

    def sample(self):
        """Does nothing: a test sets what runs."""

    def total(self, crate, kind):
        return self.seconds.get((crate, kind), 0.0)

    def crates(self):
        return {crate: self.total(crate, PROOF) + self.total(crate, TESTS) for crate, _ in self.seconds}


class Progress(unittest.TestCase):
    """A program `top` over the library `low`, both proved, with `side` beside them; `unlisted` has no weight."""

    def setUp(self):
        room = tempfile.TemporaryDirectory(prefix="gate-test-")
        self.addCleanup(room.cleanup)
        for crate in ("low", "side", "unlisted"):
            write(f"{room.name}/crates/{crate}/src/lib.rt", "")
        write(f"{room.name}/crates/top/src/main.rt", "#[test]\n")
        write(f"{room.name}/crates.txt", "low:\ntop: low\nside:\nunlisted:\n")
        with mock.patch("progress.weights", return_value=WEIGHTS):
            self.plan = progress.Plan(room.name)
        self.now, self.lines, self.checks = 0.0, [], StandInChecks()
        self.progress = progress.Progress(self.plan, 4, self.checks, lambda: self.now, self.lines.append)

    def run_check(self, crate, kind, wall, processor):
        """Has a check run for `wall` seconds and use `processor` seconds."""
        self.checks.running = {(crate, kind)}
        self.progress.sample()
        self.now += wall
        self.checks.seconds[crate, kind] = processor
        self.checks.running = set()

    def feed(self, *lines):
        for line in lines:
            self.progress.line(f"{line}\n")

    def test_unlisted_crate_counts_the_median(self):
        self.assertEqual(self.plan.tasks["unlisted", PROOF], 70.0)

    def test_time_left_is_at_least_the_longest_chain(self):
        # the proof of low, and then that of top with its tests
        self.assertEqual(self.progress.left(), 100 + 40 + 60)
        self.progress.cores = 1
        self.assertEqual(self.progress.left(), sum(self.plan.tasks.values()))

    def test_time_left_shrinks_while_a_check_runs_and_grows_on_a_busy_machine(self):
        before = self.progress.left()
        self.checks.seconds["low", PROOF] = 60.0
        self.assertEqual(self.progress.left(), before - 60)
        self.run_check("low", PROOF, 300.0, 100.0)
        self.feed("rt: low proved")
        self.assertEqual(self.progress.left(), 3 * (40 + 60))

    def test_running_checks_stretch_the_time_left(self):
        self.run_check("low", PROOF, 100.0, 50.0)
        self.assertEqual(self.progress.left(), 2 * (50 + 40 + 60))

    def test_time_left_is_never_negative(self):
        for key in self.plan.tasks:
            self.checks.seconds[key] = 1e6
            self.assertGreater(self.progress.left(), 0)
        for key in self.plan.tasks:
            self.progress.end(key, "proved")
        self.assertEqual(self.progress.left(), 0)

    def test_line_names_counts_crate_and_seconds(self):
        self.run_check("side", PROOF, 50.0, 90.0)
        self.feed("== side", "fn side::f: proved", "rt: note: a note", "rt: side proved")
        self.assertEqual(self.lines[0], "rt: note: a note")
        self.assertRegex(self.lines[1], r"test: 1 of 7 done, 50 s, about \d+ min left: side: proved in 50 s \(90 processor seconds\)$")
        self.assertEqual(len(self.lines), 2)

    def test_silence_is_at_most_a_minute(self):
        self.checks.running = {("low", PROOF), ("side", PROOF)}
        for _ in range(120):
            self.now += 1
            self.progress.sample()
        self.assertGreaterEqual(len(self.lines), 2)
        self.assertIn("at work: low (proof), side (proof)", self.lines[0])

    def test_failed_programs_are_shown(self):
        self.feed("rt: top: its tests FAILED", "rt: top: the program ended with status 1, and not 0")
        shown = [line for line in self.lines if line.startswith("rt: ")]
        self.assertEqual(shown, ["rt: top: its tests FAILED", "rt: top: the program ended with status 1, and not 0"])

    def test_tests_of_a_failed_crate_are_not_kept(self):
        self.feed("rt: top NOT PROVED: its library low failed", "rt: side ran, and wrote what its file stdout has")
        self.assertFalse(any("kept" in line for line in self.lines), self.lines)

    def test_summary_has_the_dearest_first(self):
        for at, name in enumerate("abcdefghijkl"):
            self.checks.seconds[name, PROOF] = 10.0 * at
        lines = self.progress.summary(1234.0)
        self.assertEqual(lines[0], "test: processor seconds of the 10 dearest crates: " + ", ".join(f"{name} {10 * at}" for at, name in [*enumerate("abcdefghijkl")][:1:-1]))
        self.assertEqual(lines[1:], ["test: of the others: b 10, a 0", "test: 1234 processor seconds in all, 0 s"])

    def test_measured_rows_leave_out_kept_crates(self):
        self.run_check("top", PROOF, 1.0, 5.0)
        self.run_check("top", TESTS, 1.0, 7.0)
        self.run_check("side", PROOF, 1.0, 9.0)
        self.feed("rt: low is kept: an earlier run ..", "rt: top proved", "rt: top: its tests are proved", "rt: side proved")
        self.assertEqual(self.progress.measured(), ["top 5 7", "side 9"])

    def test_stored_weights_are_numbers(self):
        listed = progress.weights()
        self.assertTrue(listed and all(seconds > 0 for seconds in listed.values()))


class Processes(unittest.TestCase):
    BUSY = "import time\nwhile time.process_time() < 0.4: pass\ntime.sleep(60)"

    def start(self, *words):
        """Starts a process with the words of a check that is busy for 0.4 seconds. Stops it after the test."""
        ran = subprocess.Popen([sys.executable, "-c", self.BUSY, *words], executable=sys.executable)
        self.addCleanup(ran.wait)
        self.addCleanup(ran.kill)

    def test_checks_below_a_process_are_found(self):
        with mock.patch("processes.VERB", 3):
            self.start("check", "--crate-name", "low")
            self.start("build", "--crate-name", "top", "--test")
            self.start("check", "--crate-name", "low")
            self.start("fmt")
            checks = Checks(os.getpid())
            deadline = time.monotonic() + 60
            while len(checks.seconds) < 3 or min(checks.seconds.values()) < 0.3:
                self.assertLess(time.monotonic(), deadline, checks.seconds)
                checks.sample()
                time.sleep(0.05)
        self.assertEqual(checks.running, {("low", PROOF), ("top", TESTS)})
        self.assertEqual({*checks.crates()}, {"low", "top"})
        self.assertAlmostEqual(checks.crates()["low"], checks.total("low", PROOF))


if __name__ == "__main__":
    unittest.main()
