"""Tests of the libraries that a tree is given."""
import os
import unittest

import prove
from stand_in import read, write
from whole_test import Tree


class Given(Tree):
    def keep(self, name):
        """Keeps a library of a crate as it is."""
        write(f"{self.kept}/{self.store().key(name)}/rlib/part", name)

    def give(self):
        return prove.give(self.root, self.store())

    def test_kept_libraries_are_given(self):
        self.keep("low")
        self.assertEqual(self.give(), (["low"], ["other", "top"]))
        self.assertEqual(read(f"{self.root}/crates/low/out/rlib/part"), "low")

    def test_library_of_another_state_goes(self):
        self.keep("low")
        self.give()
        write(f"{self.root}/crates/low/src/lib.rt", "else")
        self.assertEqual(self.give(), ([], ["low", "other", "top"]))
        self.assertFalse(os.path.exists(f"{self.root}/crates/low/out/rlib"))

    def test_library_that_a_check_built_stays(self):
        write(f"{self.root}/crates/low/out/rlib/part", "own")
        self.give()
        self.assertEqual(read(f"{self.root}/crates/low/out/rlib/part"), "own")


if __name__ == "__main__":
    unittest.main()
