"""Tests of the pages of docs/api over a small crate."""
import os
import tempfile
import unittest

import api_pages

LIB = """//! Texts in runs.
#![tactic(auto)]

mod inside;
pub mod shown;

pub use inside::Run;
"""
SHOWN = """//! What is shown.
ghost use Rattle.std.specs.Prelude.{◌≡◌};

use crate::inside::{Other, Run};

/// The most runs.
pub const MOST: usize = 8;

/// What can be counted.
pub trait Counted {
    type Item;

    /// Returns the count.
    fn count(&self) -> usize
        ensures { result ≡ self.now.count };
}

impl Run {
    /// Returns the run's length.
    ///
    /// # Errors
    ///
    /// None.
    pub fn len(&self) -> usize
        ensures { result ≡ record {
            a = 1;
          } }
    {
        self.len
    }

    fn hidden(&self) {}
}

impl Other {
    /// Is not shown.
    pub fn len(&self) -> usize {
        0
    }
}

/// Makes a run.
pub fn make(len: usize) -> Run {
    Run { len }
}

pub(crate) fn unseen() {}

#[cfg(test)]
mod tests {
    pub fn tried() {}
}
"""
INSIDE = """//! Runs.

/// A run.
#[derive(Clone, Copy, Drop)]
pub struct Run {
    len: usize,
}

/// Another one.
pub struct Other {
    pub len: usize,
}

impl std::fmt::Display for Run {
    fn fmt(&self) {}
}
"""


class Pages(unittest.TestCase):
    """What does a page show?"""

    def setUp(self):
        self.room = tempfile.TemporaryDirectory()
        folder = f"{self.room.name}/crates/runs/src"
        os.makedirs(folder)
        for name, text in (("lib", LIB), ("shown", SHOWN), ("inside", INSIDE)):
            with open(f"{folder}/{name}.rt", "w", encoding="utf-8") as file:
                file.write(text)
        self.page = "\n".join(api_pages.Crate(self.room.name, "runs").page())

    def tearDown(self):
        self.room.cleanup()

    def test_shows_what_crates_above_can_name(self):
        headings = [line for line in self.page.splitlines() if line.startswith("##")]
        self.assertEqual(headings, ["## `Run`", "### `Run::len`", "## `Counted`", "### `Counted::count`", "## Functions and constants", "### `MOST`", "### `make`"])

    def test_shows_clauses_and_no_body(self):
        self.assertIn("pub fn len(&self) -> usize\n    ensures { result ≡ record {\n        a = 1;\n      } }\n```", self.page)
        self.assertIn("```rust\npub fn make(len: usize) -> Run\n```", self.page)
        self.assertIn("fn count(&self) -> usize\n    ensures { result ≡ self.now.count };", self.page)

    def test_shows_comments_and_traits(self):
        self.assertIn("Texts in runs.", self.page)
        self.assertIn("Returns the run's length.\n\n**Errors**\n\nNone.", self.page)
        self.assertIn("pub struct Run { .. }\n```\n\nImplements `Clone`, `Copy`, `Display`.", self.page)


if __name__ == "__main__":
    unittest.main()
