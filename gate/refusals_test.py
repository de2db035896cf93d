"""Tests of the runs with refused requests for memory."""
import sys
import tempfile
import unittest
from unittest import mock

import refusals
from repository import TOP
from stand_in import write

sys.path.insert(0, f"{TOP}/bench")
import refused

WHOLE = (0, b"2 rows\n", b"")
NAMED = (0, b"1 out of memory: a::b\n2 rows\n", b"")
FAULT = (2, b"2 r", b"fault: memory\n")


class Fake:
    """A program whose runs are given: the one without a refusal, and those that meet one."""

    def __init__(self, *ended):
        self.ended = ended

    def run(self, number):
        return WHOLE, False

    def refused_runs(self):
        return enumerate(self.ended, 1)


class Runs(unittest.TestCase):
    def wrong(self, mode, *ended):
        return [number for number, _ in refused.Outcome(Fake(*ended), mode).wrong]

    def test_tests_end_as_without_refusal(self):
        self.assertEqual(self.wrong("", WHOLE, WHOLE), [])

    def test_refusal_without_answer_is_wrong(self):
        self.assertEqual(self.wrong("calls", WHOLE, NAMED), [1])
        self.assertEqual(self.wrong("fault", FAULT, WHOLE), [2])

    def test_other_answer_is_wrong(self):
        for mode in ("", "calls", "fault"):
            self.assertEqual(self.wrong(mode, (0, b"3 rows\n", b""), (1, b"2 rows\n", b"")), [1, 2])
        self.assertEqual(self.wrong("calls", (0, b"1 out of memory: a::b\n3 rows\n", b"")), [1])

    def test_call_may_be_named_once_and_first(self):
        twice = (0, b"1 out of memory: a::b\n" + NAMED[1], b"")
        last = (0, b"2 rows\n1 out of memory: a::b\n", b"")
        two = (0, b"2 out of memory: a::b\n2 rows\n", b"")
        self.assertEqual(self.wrong("calls", NAMED, twice, last, two), [2, 3, 4])
        self.assertEqual(self.wrong("", NAMED), [1])
        self.assertEqual(refused.Outcome(Fake(NAMED, NAMED, WHOLE), "calls").calls, {"a::b": 2, None: 1})

    def test_fault_has_a_front_of_the_output(self):
        other = (2, b"3", b"fault: memory\n")
        silent = (2, b"", b"")
        self.assertEqual(self.wrong("fault", FAULT, other, silent), [2, 3])
        self.assertEqual(self.wrong("calls", FAULT), [1])

    def test_command_tells_of_memory_or_ends_as_without_refusal(self):
        words = [b"tevondimby: memory allocation failed\n", b"error: out of memory\n", b"tevondimby: -: out of memory; no file is written\n"]
        told = [(2, b"2 r", line) for line in words]
        self.assertEqual(self.wrong("command", WHOLE, *told), [])
        silent, other, unnamed, more = (2, b"", b""), (2, b"3", words[0]), (2, b"", b"tevondimby: -: not found\n"), (1, b"", words[0])
        self.assertEqual(self.wrong("command", silent, other, unnamed, more), [1, 2, 3, 4])

    def test_built_program_meets_each_refusal(self):
        outcome = refused.tried(["/usr/bin/env"], "")
        self.assertEqual(outcome.whole[0], 0)
        self.assertGreater(outcome.count, 0)

    def test_inputs_of_the_programs(self):
        with tempfile.TemporaryDirectory(prefix="gate-test-") as top:
            self.assertEqual([*refusals.runs(top)], [])
            write(f"{top}/crates/document_tool/stdin", "1")
            write(f"{top}/examples/b.json", "3")
            write(f"{top}/examples/a.json", "2")
            given = [("document_tool", "stored input", (), b"1"), ("document_tool", "a.json", (), b"2"), ("document_tool", "b.json", (), b"3")]
            self.assertEqual([*refusals.runs(top)], given)

    def test_commands_have_words(self):
        with tempfile.TemporaryDirectory(prefix="gate-test-") as top:
            write(f"{top}/crates/tevondimby/README.md", "")
            words = [run.words for run in refusals.runs(top)]
            self.assertIn(("check", "-"), words)
            self.assertEqual(len({*words}), len(words))

    def test_wrong_runs_fail(self):
        with tempfile.TemporaryDirectory(prefix="gate-test-") as top:
            write(f"{top}/crates/memory_suite/stdin", "")
            for ended, failed in ((NAMED, []), (FAULT, ["memory_suite, stored input"])):
                outcome = refused.Outcome(Fake(ended), "calls")
                with mock.patch.object(refusals, "outcome_of", return_value=outcome):
                    self.assertEqual(refusals.failures(top, lambda name: f"{top}/crates/{name}/out/{name}", lambda line: None), failed)


if __name__ == "__main__":
    unittest.main()
