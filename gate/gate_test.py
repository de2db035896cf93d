"""Tests of the gate over a small repository with a stand-in for 'rt'."""
import os
import re
import shutil
import subprocess
import sys
import unittest
from unittest import mock

import repository
from stand_in import ALL, CRATES, EDITS, Repository, of, read, write

PASSED = (0, "19 passed, 0 failed")
# Ledgers of the crate low that the gate does not read: a row with too few parts, an unknown mark, no such edit, two rows of one edit.
LEDGERS = [("crates/low/must-fail.ledger", rows) for rows in ("00 alone\n", "00 seen e0.edit\n", "00 alone gone.edit\n", "00 alone e0.edit\n" * 2)]


class Selection(Repository):
    """Which edits does a run try?"""

    def test_first_run_tries_all_edits(self):
        self.assertEqual(self.run_gate(), ALL)
        self.assert_end(*PASSED)
        self.assertEqual([self.ledger(crate) for crate in EDITS], [[], [], []])

    def test_second_run_tries_sample_of_one_crate(self):
        self.record()
        tried = self.run_gate()
        self.assertTrue(0 < len(tried) <= 8 and len({edit.split("/")[1] for edit in tried}) == 1, tried)
        self.assertEqual(tried, self.run_gate())

    def test_rows_of_each_mark_count(self):
        self.record()
        for mark in ("together", "unknown"):
            file = self.path("crates/apart/must-fail.ledger")
            write(file, read(file).replace(" alone ", f" {mark} ", 3))
        self.assertEqual({how for _, how, _ in self.ledger("apart")}, {"alone", "together", "unknown"})
        self.assertEqual(self.unrecorded(), set())

    def test_large_run_tries_part_of_crate_that_commit_picks(self):
        for at in range(10, 150):
            write(self.path(f"crates/apart/must-fail/e{at}.edit"), f"file: src/lib.rt\nold: apart\nnew: {at}\n")
        tried = self.run_gate()
        self.assertEqual((len(tried), of("low", "middle") <= tried), (55, True))
        git = ["git", "-C", self.top, "-c", "user.name=a", "-c", "user.email=a"]
        for words in (["init", "-q"], ["commit", "-q", "--allow-empty", "-m", "another"]):
            subprocess.run([*git, *words], check=True)
        other = self.run_gate()
        self.assertEqual((len(other), other == tried), (55, False))

    def test_crate_with_cycles_has_one_edit_tried(self):
        name = "crates/grammar_reader"
        write(self.path("crates.txt"), f"{CRATES}grammar_reader:\n")
        write(self.path(f"{name}/src/lib.rt"), "a\n")
        edits = {f"{name}/must-fail/e{at}.edit" for at in range(3)}
        for edit in edits:
            write(self.path(edit), f"file: src/lib.rt\nold: a\nnew: {edit}\n")
        tried = self.run_gate()
        self.assertEqual((ALL <= tried, len(tried & edits)), (True, 1))
        self.assertEqual(self.run_edits(), ALL)
        self.assertEqual(self.run_edits("--alone", "grammar_reader"), edits)

    def test_list_counts_and_runs_nothing(self):
        write(self.path("crates/low/must-fail/e0.edit"), "file: specs/Lib.antt\nold: low\nnew: 0\n")
        self.run_edits("apart")
        self.assertEqual(self.run_gate("--list"), {"not run"})
        self.assertEqual(self.lines[0], "test: 15 must-fail edits, 10 of them recorded; 1 change specs/ or proofs/ alone, and no body")
        self.assertRegex(self.lines[1], r"test: (13|7) tried, (8|2) of them as a sample; (2|8) left out$")
        self.assertEqual(of("low", "middle"), {*self.lines[2:]} - of("apart"))


class Sums(Repository):
    """Which changes make a recorded edit unrecorded?"""

    def after(self, path, text, mode="a"):
        """Records all edits, writes to a file, and returns the edits that no ledger has then."""
        self.record()
        write(f"{self.room}/{path}", text, mode)
        return self.unrecorded()

    def forget(self):
        for crate in EDITS:
            os.remove(self.path(f"crates/{crate}/must-fail.ledger"))

    def test_source_counts_for_crates_above(self):
        for part in ("src/lib.rt", "specs/Lib.antt"):
            self.assertEqual(self.after(f"repository/crates/low/{part}", "x"), of("low", "middle"))
            self.forget()
        self.assertEqual(self.after("repository/crates/app/src/main.rt", "x"), set())

    def test_bodies_and_proofs_count_for_their_crate_alone(self):
        function = "pub fn double(n: u32) -> u32\n    ensures { result ≡ 2 * n }\n{\n    n + n\n}\n"
        write(self.path("crates/low/src/lib.rt"), function)
        self.assertEqual(self.after("repository/crates/low/src/lib.rt", function.replace("n + n", "2 * n"), "w"), of("low"))
        self.forget()
        self.assertEqual(self.after("repository/crates/low/proofs/Lib.antt", "x"), of("low"))
        self.forget()
        self.assertEqual(self.after("repository/crates/low/src/lib.rt", function.replace("2 * n }", "3 * n }"), "w"), of("low", "middle"))

    def test_comments_do_not_count(self):
        self.assertEqual(self.after("repository/crates/low/src/lib.rt", "/// Doubles.\n// Why.\n"), set())

    def test_new_and_renamed_files_count(self):
        self.assertEqual(self.after("repository/crates/middle/src/new.rt", ""), of("middle"))
        os.rename(self.path("crates/apart/src/part.rt"), self.path("crates/apart/src/other.rt"))
        self.assertEqual(self.unrecorded(), of("middle", "apart"))

    def test_builds_do_not_count(self):
        self.assertEqual(self.after("repository/crates/low/out/low", "built"), set())

    def test_crate_line_counts_without_comments(self):
        comments = CRATES.replace("low: memchr", "low:  memchr").replace("# lowest", "# low\n# est")
        self.assertEqual(self.after("repository/crates.txt", comments, "w"), set())
        write(self.path("crates.txt"), CRATES.replace("middle: low", "middle: low memchr"))
        self.assertEqual(self.unrecorded(), of("middle"))

    def test_handles_and_logic_count(self):
        self.assertEqual(self.after("repository/HANDLES", "x"), ALL)
        self.forget()
        self.assertEqual(self.after("kit/KIT-ID", "kit-1 logic 00ab\n", "w"), ALL)

    def test_other_build_of_the_logic_keeps_rows(self):
        self.assertEqual(self.after("kit/KIT-ID", "kit-2 logic 00aa\n", "w"), set())
        write(f"{self.kit}/bin/rattle", "another build\n")
        write(f"{self.kit}/bin/rt", "# another build\n", "a")
        self.assertEqual(self.unrecorded(), set())

    def test_edit_counts_for_itself(self):
        self.assertEqual(self.after("repository/crates/apart/must-fail/e3.edit", "new: y\n"), {"crates/apart/must-fail/e3.edit"})

    def test_copied_edit_is_another(self):
        self.record()
        shutil.copy(self.path("crates/apart/must-fail/e3.edit"), self.path("crates/apart/must-fail/copy.edit"))
        self.assertEqual(self.unrecorded(), {"crates/apart/must-fail/copy.edit"})

    def test_rows_count_only_with_their_sums(self):
        self.record()
        file = self.path("crates/apart/must-fail.ledger")
        rows = self.ledger("apart")
        write(file, read(file).replace(rows[2][0], rows[1][0]))
        self.assertEqual(self.unrecorded(), {f"crates/apart/must-fail/{rows[2][2]}"})
        os.remove(file)
        self.assertEqual(self.unrecorded(), of("apart"))


class Verdict(Repository):
    """When does a run fail, and what does it leave?"""

    def test_failure_of_rt_fails(self):
        for failure, last in (("FAIL", "0 passed, 2 failed"), ("STOP", "3 passed, 1 failed")):
            self.assertEqual(self.run_gate(**{failure: "1"}), set())
            self.assert_end(1, last)

    def test_edit_that_is_not_refused_fails_whatever_rt_returns(self):
        self.run_gate(MISS="1")
        self.assert_end(1, "18 passed, 1 failed")
        self.assertIn("test: FAILED: no open goal refuses crates/apart/must-fail/e0.edit", self.lines)

    def test_edit_that_never_reaches_the_prover_has_failed(self):
        self.run_gate(BAD="2")
        self.assert_end(1, "17 passed, 2 failed")

    def test_edit_that_only_a_name_refuses_fails(self):
        self.run_gate(NAMED="1")
        self.assert_end(1, "18 passed, 1 failed")
        self.assertRegex("\n".join(self.lines), r"e0.edit: refused, as it must be \(only because a proof file names")

    def test_failures_are_named_at_the_end(self):
        self.run_gate(FAIL="1")
        self.assertTrue({"error of low", "rt: low NOT PROVED", "error of apart", "rt: apart NOT PROVED"} <= {*self.lines[-8:-2]}, self.lines)

    def test_run_without_counts_fails(self):
        self.run_gate(SILENT="1")
        self.assert_end(1, "0 passed, 1 failed")

    def test_failed_proof_is_shown(self):
        self.run_gate(FAIL="1")
        self.assertIn("error of low", self.lines)
        self.assertIn("rt: low NOT PROVED", self.lines)
        self.assertNotIn("fn low::f: proved", self.lines)
        self.assertIn("fn low::f: proved", read(self.path("gate/out/ci.log")).splitlines())

    def test_unreadable_input_fails(self):
        for words in (["--share"], ["--quick", "low"], ["--list", "--quick"]):
            self.assertEqual(self.run_gate(*words), {"not run"})
            self.assert_end(2, "0 passed, 1 failed")
        for file, text in [("crates.txt", "low: middle\nmiddle: low\n"), *LEDGERS]:
            was = read(self.path(file)) if os.path.exists(self.path(file)) else ""
            write(self.path(file), text)
            self.assertEqual(self.run_gate(), {"not run"})
            self.assert_end(2, "0 passed, 1 failed")
            write(self.path(file), was)

    def test_kit_without_logic_fails(self):
        write(f"{self.kit}/KIT-ID", "kit-1\n")
        self.assertEqual(self.run_gate(), {"not run"})
        self.assert_end(2, "0 passed, 1 failed")

    def test_builds_are_restored(self):
        out = self.path("crates/app/out")
        for name, text in (("stale", "old"), ("incremental/kept", "here"), ("fast/program", "here")):
            write(f"{out}/{name}", text)
        self.run_gate()
        files = {os.path.relpath(f"{at}/{name}", out) for at, _, names in os.walk(out) for name in names}
        self.assertEqual(files, {"app", "incremental/kept", "fast/program"})

    def test_help_runs_nothing(self):
        self.assertEqual(self.run_gate("--help"), {"not run"})
        self.assertEqual((self.status, any("--quick" in line for line in self.lines)), (0, True))

    def test_given_jobs_are_used(self):
        self.run_gate(RT_JOBS="7")
        self.assertEqual(read(f"{self.room}/jobs"), "7\n")

    def test_little_memory_sets_one_job_a_core(self):
        for bytes_a_core, jobs in ((repository.BYTES_A_CORE - 1, "2"), (repository.BYTES_A_CORE, None)):
            with mock.patch("os.sched_getaffinity", return_value={0, 1}), mock.patch("os.sysconf", side_effect=[2, bytes_a_core]):
                with mock.patch.dict("os.environ", clear=True):
                    self.assertEqual(repository.environment().get("RT_JOBS"), jobs)


class Output(Repository):
    """What does a run print?"""

    def test_each_task_has_a_line(self):
        self.run_gate()
        ended = [line.partition(" left: ")[2] for line in self.lines if " done, " in line]
        self.assertEqual([text for text in ended if text.startswith("app")], ["app: proved", "app: wrote what its file stdout has"])
        self.assertIn("apart: its tests are proved", ended)
        self.assertIn("apart: tests passed", ended)
        self.assertTrue(any(line.startswith("test: edits: low: 2 of 2 refused in ") for line in self.lines), self.lines)
        self.assertTrue(any(line.startswith("test: 7 of 7 done, ") for line in self.lines), self.lines)

    def test_kept_proofs_are_named(self):
        self.run_gate(KEPT="low apart")
        ended = [line.partition(" left: ")[2] for line in self.lines if " done, " in line]
        self.assertIn("low: proof kept from an earlier run", ended)
        self.assertIn("proofs of tests kept from earlier runs: apart", ended)
        self.assertIn("middle: proved", ended)
        self.assertIn("test: proofs kept from earlier runs, 2 of 4: low apart", self.lines)

    def test_each_line_is_read_at_once(self):
        with subprocess.Popen([sys.executable, "-B", "gate/gate.py"], cwd=self.top, env=self.environment(PAUSE="3"), stdout=subprocess.PIPE, text=True) as ran:
            lines = iter(ran.stdout.readline, "")
            shown = [line for line in iter(lambda: next(lines), "rt: paused\n")]
            is_running = ran.poll() is None
            ran.communicate()
        self.assertTrue(is_running)
        self.assertEqual(shown[-1], "9 passed, 0 failed\n")
        self.assertTrue(any(line.endswith(" left: apart: tests passed\n") for line in shown), shown)

    def test_programs_lines_pass(self):
        self.run_gate()
        self.assertIn("a program says: 9 passed, 0 failed", self.lines)
        self.assertTrue(any(re.match(r"test: \d+ processor seconds in all, \d+ s$", line) for line in self.lines), self.lines)


if __name__ == "__main__":
    unittest.main()
