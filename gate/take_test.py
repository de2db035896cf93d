"""A test of tools/take."""
import os
import subprocess
import tempfile
import unittest

from repository import TOP


class Take(unittest.TestCase):
    def test_crates_come_with_what_they_stand_on(self):
        with tempfile.TemporaryDirectory() as dest:
            with open(f"{dest}/crates.txt", "w", encoding="utf-8") as file:
                file.write("mine: text_diff\n")
            for _ in range(2):
                subprocess.run([f"{TOP}/tools/take", "text_diff", "syntax_tree", dest], check=True, capture_output=True)
            with open(f"{dest}/crates.txt", encoding="utf-8") as file:
                names = [line.split(":")[0] for line in file]
            self.assertEqual(names[-1], "mine")
            self.assertEqual(set(names), {"rustc_lexer", "parser_input", "rowan_green", "rowan", "syntax_tree", "text_diff", "mine"})
            self.assertEqual(set(os.listdir(f"{dest}/crates")), set(names) - {"mine"})
            self.assertTrue(os.path.exists(f"{dest}/HANDLES"))
            for folder in os.listdir(f"{dest}/crates"):
                self.assertFalse({"out", "must-fail", "must-fail.ledger"} & set(os.listdir(f"{dest}/crates/{folder}")))

    def test_unknown_crate_is_refused(self):
        with tempfile.TemporaryDirectory() as dest:
            done = subprocess.run([f"{TOP}/tools/take", "no_such_crate", dest], capture_output=True, text=True)
            self.assertNotEqual(done.returncode, 0)
            self.assertIn("no_such_crate", done.stderr)


if __name__ == "__main__":
    unittest.main()
