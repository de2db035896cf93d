"""Tests of the list of calls that can run out of memory."""
import os
import tempfile
import unittest
from unittest import mock

import allocating_calls
from stand_in import write

HEAD = """pub mod open;
mod inner;
mod kept;

pub use inner::{Node, made};
"""
INNER = """use std::alloc::AllocError;

pub enum NodeError {
    Wrong = 1,
    NoMemory = 2,
}

pub enum OtherError {
    Wrong = 1,
}

pub struct Node;

pub fn made(alloc: Global) -> Result<Node, NodeError>
    ensures { IfOk result (λ n. n ≡ n) }
{
    // pub fn commented(alloc: Global) -> Result<Node, NodeError> {
    Ok(Node)
}

fn own(alloc: Global) -> Result<Node, AllocError> {
    Ok(Node)
}

impl<L: Language> Node<L> {
    pub fn grow(
        &mut self,
        texts: &[(usize, Vec<u8>)],
    ) -> Result<Option<(Node, u8)>, AllocError>
        requires { true }
    {
        Ok(None)
    }

    pub fn wrong(&self) -> Result<(), OtherError> {
        Ok(())
    }

    pub fn length(&self) -> usize {
        0
    }

    fn hidden(&self) -> Result<(), AllocError> {
        Ok(())
    }
}

impl Clone for &Node {
    fn clone(&self) -> Result<Node, AllocError> {
        Ok(Node)
    }
}

impl<L: Language> Iterator for Node<L> {
    fn next(&mut self) -> Option<Result<Node, AllocError>> {
        None
    }
}
"""
OPEN = """use crate::kept::Node;

pub trait Sink {
    fn step(&mut self) -> Result<(), Self::Error>;
}

pub fn read(alloc: Global) -> Result<String, AllocFailed<String>> {
}

impl Node {
    pub fn shadow(&self) -> Result<(), AllocError> {
        Ok(())
    }
}
"""
KEPT = """pub struct Node;

pub fn kept(alloc: Global) -> Result<(), AllocError> {
}
"""
TESTS = """pub struct Bench;

impl Bench {
    pub fn run(&self) -> Result<(), AllocError> {
    }
}
"""
FOUND = {"low::made", "low::Node::grow", "low::&Node::clone", "low::Sink::step", "low::open::read"}
ROWS = """pub(crate) const ROWS: &[Row<Call>] = &[
    ("low::made", Call::Made, "low::not::a::row"),
    (
        "low::Node::{grow, shrink}",
        Call::Grow,
        "",
    ),
];
"""


HIGH_ROWS = """pub(crate) const ROWS: &[Row<Call>] = &[
    ("low::open::read over files, low::made", Call::Read, ""),
];
"""


class Listed(unittest.TestCase):
    def setUp(self):
        room = tempfile.TemporaryDirectory(prefix="gate-test-")
        self.addCleanup(room.cleanup)
        self.top = room.name
        write(f"{self.top}/crates.txt", "# The product.\nlow: memchr\n\n# Run and not proved\ntool: low\n")
        for name, text in (("lib", HEAD), ("inner", INNER), ("open", OPEN), ("kept", KEPT), ("tests", TESTS), ("tests/more", TESTS)):
            write(f"{self.top}/crates/low/src/{name}.rt", text)
        write(f"{self.top}/crates/tool/src/lib.rt", INNER)
        write(f"{self.top}/crates/memory_suite/src/low.rt", ROWS)
        write(f"{self.top}/crates/command_suite/src/high.rt", HIGH_ROWS)

    def differences(self, made_by):
        with mock.patch.object(allocating_calls, "MADE_BY", made_by):
            return [line.partition(": ")[0] for line in allocating_calls.differences(self.top)]

    def test_public_calls_of_the_product_are_found(self):
        self.assertEqual(allocating_calls.calls(self.top), FOUND)

    def test_rows_are_read(self):
        self.assertEqual(allocating_calls.table(self.top), {"low::made", "low::Node::grow", "low::Node::shrink", "low::open::read"})

    def test_lacking_and_unknown_calls_are_told(self):
        self.assertEqual(self.differences({}), ["low::&Node::clone", "low::Sink::step", "low::Node::shrink"])

    def test_steps_of_other_calls_are_not_lacking(self):
        made_by = {"low::&Node::clone": "low::made", "low::Sink::step": "low::made", "low::open::read": "low::gone"}
        self.assertEqual(self.differences(made_by), ["low::Node::shrink", "low::gone"])

    def test_a_step_that_is_gone_is_told(self):
        self.assertIn("low::gone", self.differences({"low::gone": "low::made"}))

    def test_the_repositorys_calls_are_in_the_table(self):
        self.assertEqual(allocating_calls.differences(allocating_calls.TOP), [])
        self.assertGreater(len(allocating_calls.calls(allocating_calls.TOP)), 200)


if __name__ == "__main__":
    unittest.main()
