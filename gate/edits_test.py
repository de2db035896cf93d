"""Tests of gate/edits.py over a small repository with a stand-in for 'rt'."""
import os
import unittest

from stand_in import ALL, Repository, of, read, write


class Edits(Repository):
    def marks(self, crate):
        """Returns how each edit in a crate's ledger was seen, by file."""
        return {file: how for _, how, file in self.ledger(crate)}

    def test_all_unrecorded_edits_are_tried_and_recorded(self):
        self.record()
        self.assertEqual(self.marks("low"), {"e0.edit": "alone", "e1.edit": "alone"})
        self.assertEqual(self.run_edits(), {"not run"})
        self.assert_end(0, "0 passed, 0 failed")

    def test_named_crates_alone_are_tried(self):
        self.assertEqual(self.run_edits("low", "middle"), of("low", "middle"))
        self.assert_end(0, "5 passed, 0 failed")
        self.assertEqual(self.ledger("apart"), [])
        self.assertEqual(self.unrecorded(), of("apart"))

    def test_anew_tries_recorded_edits(self):
        self.record()
        self.assertEqual(self.run_edits("--anew", "apart"), of("apart"))
        self.assertEqual(self.run_edits("--anew"), ALL)
        self.assert_end(0, "15 passed, 0 failed")

    def test_edits_of_different_functions_are_tried_together(self):
        write(self.path("crates/apart/src/part.rt"), "".join(f"fn {name}() {{\n    right_{name}()\n}}\n" for name in "fgh"))
        for at, new in enumerate(("wrong_f", "wrong_g", "other_h")):
            write(self.path(f"crates/apart/must-fail/e{at}.edit"), f"file: src/part.rt\nold: right_{new[-1]}\nnew: {new}\n")
        together = {f"crates/apart/must-fail/e{at}.edit" for at in (0, 1)}
        self.assertEqual(self.run_edits("apart"), of("apart") - together)
        self.assert_end(0, "10 passed, 0 failed")
        marks = self.marks("apart")
        self.assertEqual([marks[f"e{at}.edit"] for at in range(4)], ["together", "together", "alone", "alone"])
        self.assertEqual(self.unrecorded(), of("low", "middle"))

    def test_edit_that_is_not_refused_fails_and_is_not_recorded(self):
        self.run_edits("apart", FAIL="1")
        self.assert_end(1, "0 passed, 10 failed")
        self.assertEqual(self.ledger("apart"), [])
        self.run_edits("apart", MISS="1")
        self.assert_end(1, "9 passed, 1 failed")
        self.assertEqual(len(self.ledger("apart")), 9)
        self.assertEqual(self.run_edits("apart"), {"crates/apart/must-fail/e0.edit"})

    def test_row_goes_if_edit_is_not_refused_anew(self):
        self.record()
        self.run_edits("--anew", "apart", MISS="1")
        self.assertEqual(self.run_edits("apart"), {"crates/apart/must-fail/e0.edit"})

    def test_rows_of_missing_files_go(self):
        self.record()
        os.remove(self.path("crates/low/must-fail/e1.edit"))
        write(self.path("crates/low/must-fail/e2.edit"), "file: src/lib.rt\nold: low\nnew: 2\n")
        self.run_edits()
        self.assertEqual(sorted(self.marks("low")), ["e0.edit", "e2.edit"])

    def test_unknown_crates_and_crates_without_edits_fail(self):
        for name in ("appart", "app"):
            self.assertEqual(self.run_edits("low", name), {"not run"})
            self.assert_end(2, "0 passed, 1 failed")
        self.assertEqual(self.ledger("low"), [])

    def test_built_libraries_are_used_and_nothing_else(self):
        for path in ("rlib/stamp", "rlib/low.rlib/format", "incremental/kept", "low"):
            write(self.path(f"crates/low/out/{path}"), "built")
        self.run_edits("apart")
        built = read(f"{self.tried}.must-fail").split()
        self.assertEqual(sorted(built), [f"crates/low/out/rlib/{name}" for name in ("low.rlib/format", "stamp")])
        self.run_gate()
        self.assertEqual(read(f"{self.tried}.ci"), "")


if __name__ == "__main__":
    unittest.main()
