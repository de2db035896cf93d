"""Tests of the order of the tasks of 'rt ci', and of the proofs that this machine keeps."""
import os
import tempfile
import unittest
from unittest import mock

import lanes
import progress
import whole
from stand_in import read, write

LINES = "low:\nother:\ntop: low memchr\napp: top\n"
PLAIN, KEEPING = "\ndef in_lanes(tasks):\n    pass\n", "\ndef in_lanes(tasks):\n    pass\nclass Kept:\n    pass\n"


class Tree(unittest.TestCase):
    """Two libraries, one over the first and a program over that."""

    def setUp(self):
        room = tempfile.TemporaryDirectory(prefix="gate-test-")
        self.addCleanup(room.cleanup)
        self.root, self.kit, self.kept = (f"{room.name}/{name}" for name in ("tree", "kit", "kept"))
        write(f"{self.root}/crates.txt", LINES)
        write(f"{self.root}/HANDLES", "Handles allowed: none.\n")
        for name in ("KIT-ID", "WHAT"):
            write(f"{self.kit}/{name}", name)
        for name in ("low", "other", "top"):
            write(f"{self.root}/crates/{name}/src/lib.rt", name)
        write(f"{self.root}/crates/app/src/main.rt", "app")

    def store(self):
        return whole.Store(self.root, self.kit, self.kept)


class Keys(Tree):
    def changed_by(self, path, text):
        """Returns the crates whose sums change with a file."""
        before, old = self.keys(), read(path)
        write(path, text)
        after = self.keys()
        write(path, old)
        return {name for name in before if before[name] != after[name]}

    def keys(self):
        store = self.store()
        return {name: store.key(name) for name in ("low", "other", "top", "app")}

    def test_crate_changes_it_and_those_above(self):
        self.assertEqual(self.changed_by(f"{self.root}/crates/low/src/lib.rt", "else"), {"low", "top", "app"})
        self.assertEqual(self.changed_by(f"{self.root}/crates/app/src/main.rt", "else"), {"app"})

    def test_line_of_a_crate_changes_it_and_those_above(self):
        self.assertEqual(self.changed_by(f"{self.root}/crates.txt", LINES.replace("top: low", "top: low other")), {"top", "app"})

    def test_kit_and_handles_change_all(self):
        for path in (f"{self.kit}/KIT-ID", f"{self.kit}/WHAT", f"{self.root}/HANDLES"):
            self.assertEqual(self.changed_by(path, "else"), {"low", "other", "top", "app"})

    def test_file_that_moves_changes_its_crate(self):
        before = self.store().key("other")
        os.rename(f"{self.root}/crates/other/src/lib.rt", f"{self.root}/crates/other/src/main.rt")
        self.assertNotEqual(self.store().key("other"), before)


class Proofs(Tree):
    """A stand-in for a proof, which writes what it builds."""

    def setUp(self):
        super().setUp()
        self.status, self.proved, self.said = 0, [], []

    def prove(self, name, tests=False):
        """Proves a crate, over what is kept. Returns the status."""

        def proved(crate, _flags, _tests):
            self.proved.append(crate.name)
            out = f"{self.root}/crates/{crate.name}/out"
            write(f"{out}/rlib/lib{crate.name}.rlib/part", crate.name)
            for file in (crate.name, f"{crate.name}.by-rattle", "stdout"):
                write(f"{out}/{file}", crate.name)
            return self.status

        crate = mock.Mock(out=None)
        crate.name = name
        return whole.keeping(self.store(), proved, lambda text, out: self.said.append(text))(crate, [], tests)

    def test_proof_is_taken_the_second_time(self):
        self.assertEqual([self.prove("low"), self.prove("low")], [0, 0])
        self.assertEqual((self.proved, len(self.said)), (["low"], 1))
        self.assertEqual(read(f"{self.root}/crates/low/out/rlib/liblow.rlib/part"), "low")
        self.assertFalse(os.path.exists(f"{self.root}/crates/low/out/stdout"))

    def test_both_builds_of_a_program_are_kept(self):
        self.prove("app")
        self.prove("app")
        self.assertEqual(sorted(os.listdir(f"{self.root}/crates/app/out")), ["app", "app.by-rattle"])

    def test_proof_that_was_not_taken_for_long_is_dropped(self):
        self.prove("low")
        self.prove("other")
        store = self.store()
        for name in ("low", "other"):
            os.utime(f"{self.kept}/{store.key(name)}", (0, 0))
        self.assertTrue(store.give("low"))
        self.prove("top")
        self.assertEqual({*os.listdir(self.kept)}, {store.key("low"), store.key("top")})

    def test_proof_that_builds_nothing_is_kept(self):
        crate = mock.Mock(out=None)
        crate.name = "low"
        proof = whole.keeping(self.store(), lambda crate, flags, tests: self.proved.append(crate.name) or 0, lambda text, out: None)
        self.assertEqual([proof(crate, [], False), proof(crate, [], False)], [0, 0])
        self.assertEqual(self.proved, ["low"])

    def test_failed_proof_is_not_kept(self):
        self.status = 1
        self.assertEqual([self.prove("low"), self.prove("low")], [1, 1])
        self.assertEqual(self.proved, ["low", "low"])

    def test_proof_of_tests_is_not_kept(self):
        self.prove("low", tests=True)
        self.prove("low", tests=True)
        self.assertEqual(self.proved, ["low", "low"])

    def test_changed_crate_is_proved_again(self):
        self.prove("top")
        write(f"{self.root}/crates/low/src/lib.rt", "else")
        self.prove("top")
        self.assertEqual(self.proved, ["top", "top"])


class Order(Tree):
    """Tasks that end at once; each takes the memory that `needs` has for it."""

    def run_tasks(self, memory, cores, **needs):
        """Runs a proof of each crate; returns the crates in the order in which they began, with their jobs."""
        begun = []

        def task(name, below):
            return [(it, "proof") for it in below], 1, needs.get(name, 1), lambda given, jobs: begun.append((name, jobs))

        below = {"low": [], "other": [], "top": ["low"], "app": ["low", "top"]}
        with mock.patch("progress.weights", return_value={}):
            order = whole.Order(progress.Plan(self.root), memory, cores)
        given = order.run({(name, "proof"): task(name, below[name]) for name in below})
        self.assertEqual({key[0] for key in given}, {*below})
        return begun

    def test_those_with_the_longest_chain_are_first(self):
        self.assertEqual([name for name, _ in self.run_tasks(9, 1)], ["low", "top", "other", "app"])

    def test_each_has_one_job_but_for_some(self):
        with mock.patch.object(lanes, "TWO_JOBS", {"top"}):
            self.assertEqual(dict(self.run_tasks(9, 4)), {"low": 1, "other": 1, "top": 2, "app": 1})

    def test_one_begins_however_much_it_takes(self):
        self.assertEqual(len(self.run_tasks(1, 4, low=5, top=5)), 4)

    def next(self, running, left, **needs):
        """Returns the crate that begins next beside those of `running`, in a memory of ten."""
        with mock.patch("progress.weights", return_value={}):
            order = whole.Order(progress.Plan(self.root), 10 * whole.PART_OF_NEED, 4)
        tasks = {(name, "proof"): ([], needs[name], max(needs[name], 1), None) for name in needs}
        found = order.next(tasks, [(name, "proof") for name in left], [(name, "proof") for name in running], {})
        return found[0] if found else None

    def test_room_is_left_for_one_that_waits(self):
        self.assertIsNone(self.next(["low"], ["top", "other"], low=6, top=8, other=3))
        self.assertEqual(self.next(["low"], ["top", "other"], low=6, top=8, other=2), "other")
        self.assertIsNone(self.next(["low", "app"], ["top", "other"], low=6, app=1, top=8, other=2))

    def test_crate_in_a_cycle_takes_more_than_is_reckoned(self):
        with mock.patch.object(whole, "CYCLES", {"top"}):
            self.assertIsNone(self.next(["low"], ["top"], low=1, top=4))
            self.assertEqual(self.next(["low"], ["top"], low=1, top=3), "top")

    def test_what_proves_nothing_needs_no_memory(self):
        self.assertEqual(self.next(["low"], ["top"], low=10, top=0), "top")


class Wanted(unittest.TestCase):
    def test_kit_that_keeps_proofs_is_left_alone(self):
        with tempfile.TemporaryDirectory(prefix="gate-test-") as room:
            write(f"{room}/rt", PLAIN)
            with mock.patch("shutil.which", return_value=f"{room}/rt"):
                self.assertTrue(whole.is_wanted())
                write(f"{room}/rt", KEEPING)
                self.assertFalse(whole.is_wanted())
                write(f"{room}/rt", "#!/usr/bin/env bash\n")
                self.assertFalse(whole.is_wanted())


if __name__ == "__main__":
    unittest.main()
