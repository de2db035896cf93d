"""Tests of the calls of the command."""
import os
import tempfile
import unittest

import command_calls

# A program that prints its words and its standard input, and ends with their number.
ECHO = """#!/bin/sh
echo "$@"
cat
echo said >&2
exit $#
"""
CASES = r"""
== words are printed
@ a
| text
@ b -> a
/ sub
$ 'one two' ROOM/a
< \x41
> one two ROOM/a
> A
! said
= 2
% grep -q one
? b
| text
== another answer
$ one
> two
! said
= 1
"""


class Calls(unittest.TestCase):
    def setUp(self):
        with tempfile.NamedTemporaryFile("w", delete=False) as file:
            file.write(ECHO)
        os.chmod(file.name, 0o755)
        self.addCleanup(os.remove, file.name)
        self.program = file.name

    def test_answers_are_compared(self):
        count, wrong = command_calls.wrong_calls(self.program, CASES)
        self.assertEqual((count, wrong), (2, ["another answer: one: output: b'one\\n' for b'two\\n'"]))

    def test_file_is_compared(self):
        _, wrong = command_calls.wrong_calls(self.program, "== a file\n@ a\n| old\n? a\n| new\n")
        self.assertEqual(wrong, ["a file: a: b'old\\n' for ['new']"])

    def test_stored_cases_have_calls(self):
        cases = command_calls.cases_in(command_calls.read_cases())
        self.assertGreater(len(cases), 20)
        for name, steps in cases.items():
            self.assertIn("$", [step.mark for step in steps], name)

    def test_no_program_has_no_calls(self):
        self.assertEqual(command_calls.failures(lambda name: f"/nowhere/{name}", print), [])


if __name__ == "__main__":
    unittest.main()
