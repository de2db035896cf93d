"""Tests of the page docs/TREES.md."""
import unittest

import tree_pages
from repository import TOP


def shown(rule):
    """Returns a rule as the page shows it."""
    return tree_pages.shown(tree_pages.Reader(rule).alternatives())


class Pages(unittest.TestCase):
    def test_rules(self):
        tree_pages.page(TOP)
        for rule, text in [
            ("FN <⟨ ⁅ One 'const' ⁆ ▸ One 'fn' ! ▸ Name ! ⟩", "FN( … 'const'? 'fn' Name )"),
            ("One 'l_curly' ▸ (Unless (until 'r_curly') Item) * ▸ One 'r_curly' !", "'{' Item* '}'"),
            ("A ⟨ (One ',' ▸ B) ⁺ ⟩ or When ('#' before '!') C", "A( (',' B)+ ) | C"),
            ("LITERAL ⟨ One 'int' or One 'true' ⟩", "LITERAL( INT_NUMBER | 'true' )"),
            ("(One 'a' or One 'b') ▸ more postfix", "('a' | 'b') Postfix"),
            ("lead Prefixed or ERROR <⟨ Say ExpectedExpression ⟩", "lead( Prefixed ) | ERROR( … )"),
            ("listed PARAM_LIST 'l_paren' Param 'r_paren'", "'(' list( Param ) ')'"),
        ]:
            self.assertEqual(shown(rule), text)

    def test_every_production_has_a_line(self):
        page = tree_pages.page(TOP)
        for name in tree_pages.CALLS.values():
            self.assertIn(f"\n{name} = ", page)


if __name__ == "__main__":
    unittest.main()
