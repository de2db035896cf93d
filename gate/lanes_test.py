"""Tests of the order in which crates are proved."""
import os
import tempfile
import unittest
from unittest import mock

import lanes
import progress
from stand_in import Repository, read, write

LINES = "low:\nother:\ntop: low other\ngrammar_reader: low\nlarge:\nsmall:\n"


class Order(Repository):
    def lanes(self):
        """Returns the crates that the last run proved each by itself, in order."""
        return read(f"{self.tried}.lanes").split()

    def test_crate_waits_for_its_libraries(self):
        self.run_gate()
        order = self.lanes()
        self.assertEqual({*order}, {"app", "apart", "low", "middle"})
        self.assertTrue(order.index("low") < order.index("middle") < order.index("app"), order)
        self.assertEqual(order[-1], "app")

    def test_nothing_is_proved_apart_if_nothing_is_kept(self):
        self.run_gate(UNKEPT="1")
        self.assertEqual(sorted(self.lanes()), ["apart", "low"])
        self.assertEqual(self.status, 0)
        self.assertIn("app: proved", [line.partition(" left: ")[2] for line in self.lines])

    def test_nothing_more_is_proved_after_a_failure(self):
        self.run_gate(FAIL="1")
        self.assertEqual(sorted(self.lanes()), ["apart", "low"])


class Room(unittest.TestCase):
    """Two libraries, a program over both, a crate whose functions call one another, and a large one; no proof ends by itself."""

    def setUp(self):
        room = tempfile.TemporaryDirectory(prefix="gate-test-")
        self.addCleanup(room.cleanup)
        write(f"{room.name}/crates.txt", LINES)
        for name in ("low", "other", "grammar_reader", "large", "small"):
            write(f"{room.name}/crates/{name}/src/lib.rt", "\n" * (lanes.LINES_BESIDE_A_CYCLE if name == "large" else 1))
        write(f"{room.name}/crates/top/src/main.rt", "")
        self.root, self.begun, self.yielding, self.memory = room.name, [], set(), 9 * lanes.BYTES

    def make(self, *kept):
        """Returns the lanes over the tree, where these crates are kept, and begins what can begin. Stores the crates."""
        with mock.patch("progress.weights", return_value={}), mock.patch("repository.cores", return_value=3), mock.patch("repository.memory", return_value=self.memory):
            made = lanes.Lanes(self.root, progress.Plan(self.root), {*kept}, None)
        made.prove = lambda name, yields: self.begun.append(name) or self.yielding.update({name} if yields else ())
        made.start()
        return made

    def test_a_crate_a_core_is_proved_at_a_time(self):
        self.make("grammar_reader")
        self.assertEqual(self.begun, ["low", "other", "large"])

    def test_no_more_crates_are_proved_than_memory_holds(self):
        self.memory = 2 * lanes.BYTES
        self.make("grammar_reader")
        self.assertEqual(self.begun, ["low", "other"])

    def test_all_yield_to_the_crate_with_the_longest_chain(self):
        self.make("grammar_reader", "small")
        self.assertEqual(self.yielding, {"other", "large"})

    def test_crate_waits_for_its_libraries(self):
        self.make("low", "large", "grammar_reader", "small")
        self.assertEqual(self.begun, ["other"])

    def test_cycle_waits_for_large_crates_and_they_for_it(self):
        made = self.make("low", "other", "top", "small", "grammar_reader")
        self.assertEqual(self.begun, ["large"])
        made.left += ["grammar_reader", "small"]
        made.start()
        self.assertEqual(self.begun, ["large", "small"])
        del made.running["large"]
        made.start()
        self.assertEqual(self.begun, ["large", "small", "grammar_reader"])

    def test_no_large_crate_is_proved_beside_a_cycle(self):
        made = self.make("low", "other", "top", "small")
        self.assertEqual((self.begun, made.left), (["grammar_reader"], ["large"]))
        made.left.append("top")
        made.start()
        self.assertEqual((self.begun, made.left), (["grammar_reader", "top"], ["large"]))


class Kept(Repository):
    def test_without_the_kit_nothing_is_known_to_be_kept(self):
        with mock.patch.dict(os.environ, {"PATH": f"{self.kit}/bin:{os.environ['PATH']}"}):
            self.assertEqual(lanes.kept_crates(self.top), set())


if __name__ == "__main__":
    unittest.main()
