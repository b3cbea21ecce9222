"""Tests that docs/contracts.txt has the contracts of the sources, and of what finds these:

    python3 tools/run_tests.py gate.test_contracts
"""

import difflib
import tempfile
import textwrap
import unittest
from pathlib import Path

from gate import contracts

# A crate of one file of code.
CODE = """
//! The least of two numbers.
#![tactic(auto)]

ghost use Rattle.std.specs.Prelude.{◌≡◌, ◌≤◌};
ghost use Rattle.low.specs.Least.{IsLeast};

use std::fmt;

/// A pair of numbers.
#[derive(Clone, Copy)]
pub struct Pair {
    /// The first.
    pub first: u32,
    second: u32,
    ghost ordered: { first ≤ second },
}

impl Pair {
    /// Returns the least { of both }.
    pub fn least(&self) -> u32
        requires { 0 ≤ self.now.first }
        ensures least { IsLeast self.now result }
        ensures few { result ≤ self.now.first } // "}"
    {
        if self.first < self.second { self.first } else { self.second }
    }

    fn hidden(&self) -> char
        ensures { result ≡ 0 }
    {
        '{'
    }
}

pub(crate) fn inner() {}
"""
TEXT = """
low::lib
  #[derive(Clone, Copy)]
  pub struct Pair
    pub first: u32
    ghost ordered: { first ≤ second }
  impl Pair
    pub fn least(&self) -> u32
      requires { 0 ≤ self.now.first }
      ensures least { IsLeast self.now result }
      ensures few { result ≤ self.now.first }
"""


def text_of(code):
    """Returns the text for a crate with this code."""
    with tempfile.TemporaryDirectory() as room:
        top = Path(room)
        (top / "crates.txt").write_text("# a comment\nlow: bstr\n", encoding="utf-8")
        (top / "crates" / "low" / "src").mkdir(parents=True)
        (top / "crates" / "low" / "src" / "lib.rt").write_text(code, encoding="utf-8")
        return contracts.text_of(contracts.contracts(top))


class Contracts(unittest.TestCase):
    maxDiff = None

    def test_the_file_has_those_of_the_sources(self):
        there = (contracts.TOP / "docs" / "contracts.txt").read_text(encoding="utf-8")
        found = contracts.text_of(contracts.contracts(contracts.TOP))
        changes = "\n".join(difflib.unified_diff(there.splitlines(), found.splitlines(), "docs/contracts.txt", "sources", "", "", 0, ""))
        words = "a contract was changed: python3 tools/gate/contracts.py > docs/contracts.txt, and read the difference"
        self.assertTrue(found == there, f"{words}\n{changes[:4000]}")

    def test_exported_items_are_shown_with_their_clauses(self):
        self.assertEqual(text_of(CODE), textwrap.dedent(TEXT).lstrip())

    def test_a_change_of_a_contract_shows(self):
        for old, new in (
            ("        ensures few { result ≤ self.now.first }", ""), ("requires { 0 ≤", "requires { 1 ≤"),
            ("result ≤ self.now.first", "result ≤ self.now.first + 1"), ("derive(Clone, Copy)", "derive(Clone)"),
            ("ghost ordered: { first ≤ second }", "ghost ordered: { ⊤ }"), ("pub first: u32", "pub first: u64"),
        ):
            with self.subTest(old=old):
                self.assertEqual(CODE.count(old), 1)
                self.assertNotEqual(text_of(CODE.replace(old, new)), text_of(CODE))

    def test_items_of_a_module_in_the_text_show(self):
        shown = "low::inner\n  pub fn least() -> u32\n"
        self.assertIn(shown, text_of(CODE + "pub mod inner {\n    pub fn least() -> u32 {\n        0\n    }\n}\n"))
        self.assertNotIn("inner", text_of(CODE + "mod inner {\n    pub fn least() -> u32 {\n        0\n    }\n}\n"))

    FLAGS = "bitflag_items! {\n    impl Bits: u8 {\n        /// The first { bit.\n        const A = 0x1;\n        const B = 0x2;\n    }\n}\n"

    def test_items_that_a_macro_writes_show(self):
        shown = text_of(CODE + self.FLAGS)
        lines = ["  impl Bits", "    pub const A: Bits = Bits(0x1)", "    pub const B: Bits = Bits(0x2)"]
        self.assertIn("\n".join([*lines, "    pub const FLAGS: &'static [bitflags::Flag<Bits>]\n"]), shown)
        self.assertIn("\n  impl std::ops::BitOr for Bits\n", shown)
        for old, new in (("0x2", "0x4"), ("const B", "const C"), ("        const A = 0x1;\n", "")):
            self.assertNotEqual(text_of(CODE + self.FLAGS.replace(old, new)), shown)
        with self.assertRaises(ValueError):
            text_of(CODE + "other_items! {\n    impl Bits: u8 {}\n}\n")

    def test_what_is_no_contract_does_not_show(self):
        self.assertEqual(text_of(CODE.replace("self.first < self.second", "true")), text_of(CODE))
        self.assertEqual(text_of(CODE.replace("/// The first.", "// {")), text_of(CODE))
        self.assertEqual(text_of(CODE.replace("ensures { result ≡ 0 }", "")), text_of(CODE))
        self.assertEqual(text_of(CODE.replace("    ensures few", "ensures\n   few")), text_of(CODE))
