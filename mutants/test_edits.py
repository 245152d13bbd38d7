#!/usr/bin/env python3
"""Tests of edits.py, on a crate made here."""

from __future__ import annotations

import os
import sys
import tempfile
import unittest

sys.path.insert(0, os.path.dirname(os.path.abspath(__file__)))

import edits  # noqa: E402

CODE = """// Two functions.
pub fn one(a: u64) -> u64
    ensures { result ≡ a }
{
    let b = a;
    b
}

pub fn two(a: u64) -> u64
    requires small { a ≤ 9 }
    requires even { a % 2 ≡ 0 }
    ensures same { result ≡ a }
{
    let c = a;
    c
}
"""
PROOF = "returns c = search rules\n"


def edit(name: str, *pairs: tuple) -> edits.Edit:
    return edits.Edit("crate", name, tuple(pairs))


ONE = edit("one", ("src/lib.rt", "let b = a;", "let b = 1;"))
ONE_PROVED = edit("one_proved", ("src/lib.rt", "    b\n", "    0\n"), ("proofs/one/Answers.antt", "search", "find"))
TWO = edit("two", ("src/lib.rt", "let c = a;", "let c = 2;"))
OTHER_PROOF = edit("other", ("src/lib.rt", "let c = a;", "let c = 2;"), ("proofs/one/Answers.antt", "search", "find"))
PROMISE = edit("promise", ("src/lib.rt", "pub fn one(a: u64)", "pub fn one(a: u8)"))
BOTH = edit("both", ("src/lib.rt", "let b = a;", "let b = 1;"), ("src/lib.rt", "let c = a;", "let c = 2;"))


class Crate(unittest.TestCase):
    def setUp(self) -> None:
        folder = tempfile.TemporaryDirectory()
        self.addCleanup(folder.cleanup)
        self.folder = folder.name
        for path, text in (("src/lib.rt", CODE), ("proofs/one/Answers.antt", PROOF)):
            os.makedirs(os.path.join(self.folder, os.path.dirname(path)))
            with open(os.path.join(self.folder, path), "w", encoding="utf-8") as file:
                file.write(text)


class Reading(unittest.TestCase):
    def test_a_file_holds_for_the_pairs_after_it(self) -> None:
        found = edits.read_edit("c", "e", "# why\nfile: src/a.rt\nold: x\nnew: y\nold:  z\nnew:\nfile: specs/S.antt\nold: p\nnew:  q\n")
        self.assertEqual(
            found.pairs, (("src/a.rt", "x", "y"), ("src/a.rt", " z", ""), ("specs/S.antt", "p", " q"))
        )

    def test_what_is_no_edit_is_refused(self) -> None:
        for text in ("", "# why\n", "old: x\nnew: y\n", "file: src/a.rt\nnew: y\n", "file: src/../b\nold: x\nnew: y\n", "file: c\nold: x\nnew: y\n"):
            with self.subTest(text), self.assertRaises(edits.EditError):
                edits.read_edit("c", "e", text)


class Promises(Crate):
    def test_the_functions_that_an_edit_changes(self) -> None:
        wanted = {ONE: ["one"], ONE_PROVED: ["one"], TWO: ["two"], OTHER_PROOF: ["two"], PROMISE: [None], BOTH: ["one", "two"]}
        for found, names in wanted.items():
            with self.subTest(found.name):
                proofs = [name and f"proofs/{name}" for name in names]
                self.assertEqual(edits.Files(self.folder).apply(found), proofs)

    def test_a_function_that_promises_something_has_an_edit_of_its_body(self) -> None:
        for tried, wanted in (([], ["one", "two"]), ([PROMISE, TWO], ["one"]), ([ONE_PROVED], ["two"]), ([BOTH], [])):
            with self.subTest(tried=tried):
                self.assertEqual(edits.never_changed(self.folder, tried), [f"src/lib.rt {name}" for name in wanted])

    def test_what_promises_nothing_needs_none(self) -> None:
        with open(os.path.join(self.folder, "src", "lib.rt"), "a", encoding="utf-8") as file:
            file.write("\nfn three(a: u64) -> u64 {\n    a\n}\n\npub const FOUR: u64 = 4;\n")
        self.assertEqual(edits.never_changed(self.folder, [BOTH]), [])

    def test_an_old_text_stands_once(self) -> None:
        for old in ("let d", "let "):
            with self.subTest(old), self.assertRaises(edits.EditError):
                edits.Files(self.folder).apply(edit("e", ("src/lib.rt", old, "x")))
        with self.assertRaises(edits.EditError):
            edits.Files(self.folder).apply(edit("e", ("src/no.rt", "x", "y")))


if __name__ == "__main__":
    unittest.main()
