"""Tests of docs/GUIDE.md: its code is in the sources, and its tables of what is read are those of a test. Of docs/ARCHITECTURE.md: the files of
definitions that it names exist."""
import os
import re
import unittest

TOP = os.path.dirname(os.path.dirname(os.path.realpath(__file__)))
GUIDE = f"{TOP}/docs/GUIDE.md"
ROWS = f"{TOP}/crates/document_suite/src/tests/guide.rt"
QUOTED = re.compile(r"<!-- from (\S+) -->\n```rust\n(.*?)```", re.S)
STEP = re.compile(r"^\| (\d+) \| `(.*?)` \|", re.M)
FILES = re.compile(r"((?:\d+, )*\d+)(?: are)? from\s`([\w/]+\.rt)`")
TABLE = re.compile(r"^\| construct \| example \|(?: whole language \|)?\n(?:\|---)+\|\n((?:\|.*\n)+)", re.M)
CELL = re.compile(r"^\| .*? \| (`+) ?(.*?) ?\1 \|(?: (?:yes|no) \|)?$", re.M)
CONSTANT = re.compile(r"^const \w+: &\[&str\] = &\[\n(.*?)^\];", re.M | re.S)
TEXT = re.compile(r'^    "(.*)",$', re.M)
SPECS = re.compile(r"`(\w+)/specs/(?:\{([^}]*)\}|(\w+))`")


def read(path):
    with open(path, encoding="utf-8") as file:
        return file.read()


class Guide(unittest.TestCase):
    """Is what the guide quotes what the sources have?"""

    def test_quoted_code_stands_in_the_sources(self):
        quoted = QUOTED.findall(read(GUIDE))
        self.assertGreaterEqual(len(quoted), 2)
        for path, code in quoted:
            self.assertIn(code, read(f"{TOP}/{path}"))

    def test_steps_of_the_walk_stand_in_the_sources(self):
        steps = dict(STEP.findall(read(GUIDE)))
        files = {step: f"{TOP}/crates/{file}" for group, file in FILES.findall(read(GUIDE)) for step in group.split(", ")}
        self.assertGreaterEqual(len(steps), 15)
        self.assertEqual(steps.keys(), files.keys())
        for step, code in steps.items():
            self.assertIn(code, read(files[step]))

    def test_tables_of_what_is_read_are_those_of_the_test(self):
        tables = [[text.replace("\\|", "|") for _, text in CELL.findall(table)] for table in TABLE.findall(read(GUIDE))]
        rows = [[text.replace('\\"', '"').replace("\\\\", "\\") for text in TEXT.findall(body)] for body in CONSTANT.findall(read(ROWS))]
        self.assertEqual(len(tables), 2)
        self.assertEqual(tables, rows)


class Architecture(unittest.TestCase):
    """Are the files that the map names there?"""

    def test_files_of_definitions_exist(self):
        named = SPECS.findall(read(f"{TOP}/docs/ARCHITECTURE.md"))
        self.assertGreaterEqual(len(named), 50)
        for crate, group, single in named:
            for name in (group or single).split(","):
                self.assertTrue(os.path.isfile(f"{TOP}/crates/{crate}/specs/{name}.antt"), f"{crate}/specs/{name}")


if __name__ == "__main__":
    unittest.main()
