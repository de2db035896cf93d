"""Tests of the crates that are run and not proved, and of the crates that combine them."""
import os
import unittest
from unittest import mock

import combined
import ledger
import repository
import unproved
from stand_in import CRATES, Repository, read, write

LIST = f"{CRATES}\n# Run and not proved: tests.\nsuite: low anyhow\ndump: middle\nfront staticlib: low\n"


def script(path, text):
    """Writes a program."""
    write(path, f"#!/bin/sh\n{text}")
    os.chmod(path, 0o755)
    return path


class Lists(unittest.TestCase):
    def test_no_proved_crate_has_tests_or_stands_on_one_that_is_not_proved(self):
        lines, names = ledger.crate_lines(repository.TOP), {*repository.unproved(repository.TOP)}
        for name in lines.keys() - names:
            self.assertFalse(repository.has_tests(repository.TOP, name), name)
            self.assertFalse(names & {*ledger.libraries(lines[name])}, name)
        self.assertTrue({"memory_suite", "document_suite", "trees_speed"} <= names)


class Combined(Repository):
    def setUp(self):
        super().setUp()
        write(self.path("crates.txt"), LIST)
        write(self.path("crates/suite/src/lib.rt"), "//! Tests.\n#![tactic(auto)]\n\n#[cfg(test)]\nmod tests;\n")
        write(self.path("crates/suite/src/tests.rt"), "use crate::tests::row;\n\n#[test]\nfn t() {}\n")
        write(self.path("crates/dump/src/main.rt"), "fn main(rt: HostRuntime) -> io::Result<()> {\n}\n")
        write(self.path("crates/front/src/lib.rt"), "//! Exports.\n#![tactic(auto)]\n")

    def test_crates_below_the_mark_are_left_out(self):
        self.assertEqual(repository.unproved(self.top), ["suite", "dump", "front"])
        repository.remove_unproved(self.top)
        self.assertEqual(read(self.path("crates.txt")), LIST.replace("suite: low anyhow\ndump: middle\nfront staticlib: low\n", ""))
        self.assertFalse(os.path.exists(self.path("crates/suite")))

    def test_list_without_the_mark_is_proved_whole(self):
        write(self.path("crates.txt"), CRATES)
        self.assertEqual(repository.unproved(self.top), [])

    def test_tests_become_modules(self):
        combined.write_tests(self.top, ["suite"])
        at = "crates/every_test/src"
        self.assertEqual(read(self.path(f"{at}/lib.rt")).splitlines()[-2:], ["#[cfg(test)]", "mod of_suite;"])
        self.assertEqual(read(self.path(f"{at}/of_suite.rt")), "//! Tests.\n\n#[cfg(test)]\nmod tests;\n")
        self.assertEqual(read(self.path(f"{at}/of_suite/tests.rt")).splitlines()[0], "use crate::of_suite::tests::row;")
        self.assertEqual(ledger.crate_lines(self.top)["every_test"], "every_test: anyhow low")

    def test_programs_are_chosen_by_the_path(self):
        combined.write_programs(self.top, ["dump"])
        at = "crates/every_run/src"
        self.assertIn('if path.ends_with("/dump")', read(self.path(f"{at}/main.rt")))
        self.assertTrue(read(self.path(f"{at}/of_dump.rt")).startswith("pub(crate) fn main(rt"))


class Runs(Repository):
    def run_tests(self, text, count):
        """Runs a program that prints what the kit's runner of tests prints."""
        with mock.patch.object(unproved, "RUNNER", ()):
            return unproved.run_tests(script(f"{self.room}/program", text), count)

    def test_tests_are_counted(self):
        self.assertEqual(self.run_tests("echo 'test of_a::one ... ok'\necho 'test of_a::two ... ok'\n", 2), (2, []))

    def test_failed_test_is_named(self):
        passed, failed = self.run_tests("echo 'test of_a::one ... ok'\necho 'test of_a::two ... FAILED'\nexit 1\n", 2)
        self.assertEqual((passed, failed), (1, ["test a::two: FAILED"]))

    def test_test_without_an_end_fails(self):
        passed, failed = self.run_tests("printf 'test of_a::one ... '\necho >&2\nexit 101\n", 1)
        self.assertEqual((passed, failed), (0, ["test a::one: it did not end"]))

    def test_missing_tests_fail(self):
        for text, count in (("echo 'test of_a::one ... ok'\n", 2), ("exit 0\n", 1), ("echo 'test of_a::one ... ok'\nexit 3\n", 1)):
            self.assertEqual(len(self.run_tests(text, count)[1]), 1, text)

    def test_stored_run_is_compared(self):
        program = script(f"{self.room}/program", 'cat "$1" numbers\n')
        write(self.path("crates/app/args"), "numbers\n")
        write(self.path("crates/app/stdout"), "1\n1\n")
        self.assertIsNone(unproved.run_stored(self.top, program, "app"))
        write(self.path("crates/app/stdout"), "1\n2\n")
        self.assertIn("first at byte 3, line 2", unproved.run_stored(self.top, program, "app"))
        write(self.path("crates/app/status"), "4\n")
        self.assertIn("status 0, and not 4", unproved.run_stored(self.top, program, "app"))


if __name__ == "__main__":
    unittest.main()
