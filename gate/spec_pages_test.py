"""Tests of gate/spec_pages.py: what a definition cites, and that no citation is lost."""
import unittest

import spec_pages

SPEC = """-- Trees.
use Rattle.std.specs.Prelude.{ℕ, List}
use Rattle.low.specs.Forest.{Forest, ◌▸◌}
use Rattle.low.specs.Kinds as kinds
use Rattle.low.specs.declared.error.LowError.{LowError}

-- a tree, with its Forest
pub record Tree (bound : ℕ) : Type 0 where
  pub kind : ℕ

-- the root
abbrev pub root : List ℕ → Tree
root xs = kinds.ROOT ▸ xs

mutual
  abbrev pub error_of : LowError → ℕ
  error_of e = 0

  abbrev pub twice : Tree → Forest
  twice t = root t
"""


class SpecPages(unittest.TestCase):
    """Is each citation followed?"""

    def test_definitions_cite_what_they_name(self):
        spec = spec_pages.Spec("high", "Tree", SPEC)
        self.assertEqual(spec.cited("Tree"), {("std", "Prelude", "ℕ"), ("high", "Tree", "Tree"), ("high", "Tree", "kind")})
        root = spec.cited("root") - spec.cited("Tree") - {("high", "Tree", "root"), ("std", "Prelude", "List")}
        self.assertEqual(root, {("low", "Forest", "◌▸◌"), ("low", "Kinds", "ROOT")})
        self.assertIn(("declared", "low", "LowError"), spec.cited("error_of"))
        self.assertIn(("low", "Forest", "Forest"), spec.cited("twice"))
        self.assertNotIn(("low", "Forest", "Forest"), spec.cited("error_of"))

    def test_each_cited_definition_is_found(self):
        citations = spec_pages.Citations()
        roots = citations.roots("calls", citations.crates) | citations.roots("laws", citations.crates)
        for cited in citations.reached(roots):
            spec = citations.specs.get(cited[:2])
            if spec:
                self.assertTrue(cited[2] in spec.home or cited[2] in spec.names.exported, cited)


if __name__ == "__main__":
    unittest.main()
