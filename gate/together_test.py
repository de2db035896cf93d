"""Tests of the rounds of edits that are tried together."""
import os
import shutil
import tempfile
import unittest

import together

PART = """//! A part.
use a::b;

/// What is twice as much.
#[cycle(numbers)]
pub fn twice(n: u8) -> u8
    requires { n < 128 }
    ensures { result ≡
        {
          n + n
        } }
{
    let add = |m: u8| {
        m + n
    };
    add(n)
}

/// A law.
pub fn law()
    ensures { Law }
{}

impl<'a> Counter<'a> {
    const fn most() -> u8 {
        99
    }

    fn count(
        &self,
    ) -> u8 {
        self.0 + 1
    }
}

impl<'a> fmt::Display for Counter<'a> {
    fn fmt<W: Write>(&self, f: &mut Formatter<W>) -> Result {
        f.pad("count")
    }
}
"""
CHECK = """./proofs/part/twice/Answers.antt:3:1: error: `returns-clause`: expected
./proofs/other/+words/Answers.antt:9:1: error: `part::word-returns-clause`: expected
src/part.rt:24:1: error: somewhere
./proofs/part/named/Answers.antt:3:1: error: `returns-clause`: `c.twice` has no field `n`
./proofs/part/Counter/count/Answers.antt:3:1: error: `add-fits`: expected
fn numbers::part::twice: not proved
fn numbers::other::part::word: not proved
fn numbers::other::part::other: not proved
fn numbers::part::Counter::count: not proved
fn numbers::part::CounterDisplay::fmt: proved
fn numbers::part::named: not proved
fn numbers::part::caller: no proof: it calls `numbers::part::twice`, which is not proved
fn numbers::part::One::new: no proof: expected answers in ./proofs/part/One/new/Answers.antt; `search` did not prove `returns`
fn numbers::part::Two::new: proved
fn numbers::part::One::get: no proof: expected answers in ./proofs/part/One/get/Answers.antt; `search` did not prove `returns`; it calls `f`, which is not proved
fn numbers::part::Two::get: proved
fn numbers::part::late: no proof: expected answers in ./proofs/part/late/Answers.antt; `search` did not prove `returns`; it calls `f`, which is not proved
note: `search` has not tried the goals of `numbers::part::late`, which wait for a callee's proof: some may be open after it
"""


def tried(edit, name, is_method=False):
    return edit, together.Body(0, 1, name, is_method), []


# The edits of the functions that are wrong there.
WRONG = [
    tried("a", "part::twice"),
    tried("b", "other::part::word"),
    tried("c", "Counter::count", True),
    tried("d", "One::new", True),
    tried("e", "One::get", True),
]


class Together(unittest.TestCase):
    def setUp(self):
        self.folder = tempfile.mkdtemp(prefix="together-test-")
        self.addCleanup(shutil.rmtree, self.folder)
        for name in ("src", "specs"):
            os.mkdir(f"{self.folder}/{name}")
        together.write(f"{self.folder}/src/part.rt", PART)
        together.write(f"{self.folder}/specs/Law.antt", "Law = ⊤\n")

    def edit(self, name, *pairs, file="src/part.rt"):
        lines = [f"file: {file}", *[line for old, new in pairs for line in (f"old: {old}", f"new: {new}")], ""]
        together.write(f"{self.folder}/{name}", "\n".join(lines))
        return f"{self.folder}/{name}"

    def of_different_functions(self, *edits):
        return {os.path.basename(edit) for edit, _, _ in together.of_different_functions(self.folder, edits)}

    def test_bodies_of_functions_and_methods(self):
        found = [(it.name, it.is_method, PART[it.first : it.end]) for it in together.bodies("src/part.rt", PART)]
        self.assertEqual([it[:2] for it in found], [("part::twice", False), ("Counter::count", True), ("CounterDisplay::fmt", True)])
        self.assertEqual(found[0][2], "    let add = |m: u8| {\n        m + n\n    };\n    add(n)\n")
        self.assertEqual(found[1][2], "        self.0 + 1\n")

    def test_names_are_of_modules(self):
        text = "fn f() {\n    1\n}\n"
        for file, name in (("src/lib.rt", "f"), ("src/a/b.rt", "a::b::f"), ("src/a/mod.rt", "a::f")):
            self.assertEqual([it.name for it in together.bodies(file, text)], [name])

    def test_export(self):
        text = '#[unsafe(no_mangle)]\npub extern "C" fn f(\n    n: u32,\n) -> u32\n    ensures { result ≡ n }\n{\n    n\n}\n'
        self.assertEqual([(it.name, text[it.first : it.end]) for it in together.bodies("src/lib.rt", text)], [("f", "    n\n")])

    def test_methods_are_named_by_type_and_trait(self):
        for head, name in (
            ("impl<L: Language> ElementExt for NodeOrToken<SyntaxNode<L>, SyntaxToken<L>> {", "NodeOrTokenSyntaxNodeSyntaxTokenElementExt"),
            ("impl<T: Drop> From<AllocFailed<T>> for GreenError {", "GreenErrorFromAllocFailed"),
            ("impl<'c> From<Unfinished<'c>> for a::GreenError {", "GreenErrorFromUnfinished"),
            ("impl<N: fmt::Display, T: fmt::Display> fmt::Display for Either<N, T> {", "EitherDisplay"),
            ("impl Add<u8> for Level {", "LevelAddU8"),
            ("pub trait Node: Sized {", "Node"),
            ("impl NodeOrToken<GreenNode, GreenToken> {", "NodeOrToken+GreenNode+GreenToken"),
        ):
            found = together.bodies("src/lib.rt", f"{head}\n    fn f() {{\n        1\n    }}\n}}\n")
            self.assertEqual([it.name for it in found], [f"{name}::f"])

    def test_round_has_first_edit_of_each_function(self):
        edits = [self.edit("b", ("add(n)", "n")), self.edit("a", ("m + n", "m")), self.edit("c", ("self.0 + 1", "1"))]
        self.assertEqual(self.of_different_functions(*edits), {"a", "c"})

    def test_round_has_no_edit_of_several_bodies(self):
        clause = self.edit("clause", ("n < 128", "n < 2"))
        constant = self.edit("constant", ("99", "98"))
        spec = self.edit("spec", ("Law", "Lie"), file="specs/Law.antt")
        two = self.edit("two", ("add(n)", "n"), ("self.0 + 1", "1"))
        often = self.edit("often", ("n + n", "n"), ("count", "n"))
        self.assertEqual(self.of_different_functions(clause, constant, spec, two, often), {*()})

    def test_round_makes_all_its_edits(self):
        edits = [self.edit("a", ("m + n", "self.0 + 1"), ("add(n)", "n")), self.edit("b", ("self.0 + 1", "add(n)"))]
        first = together.of_different_functions(self.folder, edits)
        text = PART.replace("self.0 + 1", "?").replace("m + n", "self.0 + 1").replace("    add(n)", "    n").replace("?", "add(n)")
        self.assertEqual(together.edited(self.folder, first), {"src/part.rt": text})

    def test_errors_in_proofs_cycles_and_searches_refuse_edits(self):
        lines = CHECK.splitlines()
        found = together.refused_in(lines, WRONG)
        self.assertEqual({*found}, {*"abcde"})
        self.assertEqual([found["a"], found["b"], found["c"]], [lines[0], lines[1], lines[4]])

    def test_edits_without_error_of_their_own_stay_open(self):
        names = ("part::caller", "other::part::other", "part::named", "part::late", "part::lost")
        said = [*WRONG, tried("f", "CounterDisplay::fmt", True), *[tried(name, name) for name in names]]
        self.assertEqual({*together.refused_in(CHECK.splitlines(), said)}, {*"abcde"})

    def test_error_in_unchanged_function_leaves_all_edits_open(self):
        for left_out in range(len(WRONG)):
            self.assertEqual(together.refused_in(CHECK.splitlines(), WRONG[:left_out] + WRONG[left_out + 1 :]), {})

    def test_error_in_unchanged_function_of_a_cycle_leaves_the_edits_of_the_cycle_open(self):
        lines = ["./proofs/other/+words/Answers.antt:19:1: error: `part::other-returns-clause`: expected", *CHECK.splitlines()]
        self.assertEqual({*together.refused_in(lines, WRONG)}, {*"acde"})
        lines[0] = lines[0].replace("+words", "+lines")
        self.assertEqual(together.refused_in(lines, WRONG), {})

    def test_methods_with_one_name_are_all_wrong_or_stay_open(self):
        lines = CHECK.replace("One::", "a::One::").replace("Two::", "b::One::").splitlines()
        self.assertEqual({*together.refused_in(lines, WRONG)}, {*"abcde"})
        self.assertEqual({*together.refused_in(lines, [*WRONG, tried("f", "One::new", True)])}, {*"abce"})

    def test_callers_of_unproved_functions_wait(self):
        said = [tried("a", "part::twice"), tried("b", "part::caller"), tried("c", "part::word"), tried("d", "part::late")]
        self.assertEqual(together.waiting_in(CHECK.splitlines(), said), {"b", "d"})

    def test_waiting_edits_are_tried_again_and_open_ones_are_not(self):
        edits = [self.edit("a", ("m + n", "m")), self.edit("b", ("add(n)", "n")), self.edit("c", ("self.0 + 1", "1")), self.edit("d", ("f.pad", "f.put"))]
        wrong, waits, checks = "./proofs/part/twice/Answers.antt:3:1: error: `goal`\nfn n::part::twice: not proved", "no proof: it calls `f`", []

        def check(folder, texts, names):
            (text,) = texts.values()
            checks.append("".join(edit for edit, old in (("a", "m + n"), ("b", "add(n)"), ("c", "self.0 + 1"), ("d", "f.pad")) if old not in text))
            return [*wrong.splitlines(), "fn n::part::Counter::count: proved", f"fn n::part::CounterDisplay::fmt: {waits}"]

        together.check, own = check, together.check
        try:
            found = [edit for edit, _ in together.refused(self.folder, edits)]
        finally:
            together.check = own
        self.assertEqual(([os.path.basename(edit) for edit in found], checks), (["a", "b"], ["acd", "bd", "d", "c", "d"]))

    def test_edits_that_do_not_compile_are_left_out(self):
        edits = [self.edit("a", ("m + n", "m +")), self.edit("b", ("self.0 + 1", "1")), self.edit("c", ("f.pad", "f.put"))]
        checks = []

        def check(folder, texts, names):
            (text,) = texts.values()
            checks.append("".join(edit for edit, old in (("a", "m + n"), ("b", "self.0 + 1"), ("c", "f.pad")) if old not in text))
            if "m +\n" in text:
                return ["src/part.rt:15:9: error: expected an operand"]
            if "f.put" in text and "self.0" not in text:
                return ["rattle: error: `n` has no function `CounterDisplay::fmt`: help: write the name that a check prints"]
            return ["./proofs/part/Counter/count/Answers.antt:3:1: error: `goal`", "fn n::part::Counter::count: not proved", "fn n::part::CounterDisplay::fmt: proved"]

        together.check, own = check, together.check
        try:
            found = [os.path.basename(edit) for edit, _ in together.refused(self.folder, edits)]
            also = [*together.refused(self.folder, edits[::2], tries_alone=False)]
        finally:
            together.check = own
        self.assertEqual((found, also), (["b"], []))
        self.assertEqual(checks, ["abc", "bc", "b", "a", "c", "ac", "c"])

    def test_check_restores_files(self):
        with self.assertRaises(OSError):
            os.environ["PATH"], path = "", os.environ["PATH"]
            try:
                together.check(self.folder, {"src/part.rt": "other"}, set())
            finally:
                os.environ["PATH"] = path
        self.assertEqual(together.read(f"{self.folder}/src/part.rt"), PART)


if __name__ == "__main__":
    unittest.main()
