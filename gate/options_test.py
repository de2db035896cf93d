"""Tests of the command's completions and manual page: each has the options of the command line, and no others."""
import os
import re
import unittest

TOP = os.path.dirname(os.path.dirname(os.path.realpath(__file__)))
SOURCE = f"{TOP}/crates/command_options/src/lib.rt"
DOCS = ("completions/tevondimby.bash", "completions/_tevondimby", "completions/tevondimby.fish", "tevondimby.1")
LONG = re.compile(r'\.long\("([a-z-]+)"\)|flag\(\s*alloc,\s*"([a-z-]+)"')
# The parser of command lines has these itself.
OWN = {"help", "version"}


def read(path):
    with open(path, encoding="utf-8") as file:
        return file.read()


def options():
    """Returns the names of the options of all commands."""
    return {long or flag for long, flag in LONG.findall(read(SOURCE))}


def options_in(name):
    """Returns the names of the options that a file of docs/ has."""
    text = read(f"{TOP}/docs/{name}").replace("\\-", "-")
    found = re.findall(r"^complete .*? -l ([a-z-]+)" if name.endswith(".fish") else r"--([a-z-]+)", text, re.M)
    return set(found) - OWN


class Options(unittest.TestCase):
    """Do the files know the options?"""

    def test_options_are_found(self):
        self.assertGreaterEqual(len(options()), 10)

    def test_files_have_them(self):
        for name in DOCS:
            self.assertEqual(options_in(name), options(), name)


if __name__ == "__main__":
    unittest.main()
