#!/usr/bin/env python3
"""Tests of the mutants and their list, without the checker: `python3 test_mutants.py`. Quiet when all is well; exit
status 1 when a test fails."""

from __future__ import annotations

import contextlib
import glob
import io
import os
import sys
import tempfile
import unittest
from typing import Dict, List, Optional
from unittest import mock

HERE = os.path.dirname(os.path.abspath(__file__))
ROOT = os.path.dirname(HERE)
sys.path.insert(0, HERE)

import archive  # noqa: E402
import bench  # noqa: E402
import catalogue  # noqa: E402
import checker  # noqa: E402
import mutants  # noqa: E402
import program  # noqa: E402
import rounds  # noqa: E402
from catalogue import Mutant, proof_of, texts_with  # noqa: E402
from changes import Change, applied, changes_of, with_changes  # noqa: E402
from declared import Declared  # noqa: E402
from literals import byte_literal, byte_of, with_number  # noqa: E402
from source import Source, SourceError, read_source  # noqa: E402

DECLARED = """\
pub enum Face { Closed, Sealed, Drained(Pressure) }
pub struct Pair { pub a: u64, pub b: u64, pub c: Face }
pub fn put<'a>(out: &mut [u64], of: &'a [u64; 64], at: usize, n: u64, m: u64) {}
"""

CONTRACTS = """\
// 1 + 2
ghost use Rattle.std.specs.Prelude.{length};
use rules::Face;

const ROOM: usize = 56;

impl Head {
    pub const MOST: u64 = 200;

    pub fn holds<'a>(n: u64, xs: &'a [u64; 64]) -> [u64; 2]
        ghost layer: { Record }
        requires low { n + 1 ≤ 2 × record { a = 1; b = { 2 } } }
        ensures same { result ≡ n }
        ensures* { lies_at n }
    {
        n + 3 // 4
    }
}

fn main() {}
"""


def function(body: str) -> str:
    return f"fn f(a: u64) -> u64\n    ensures low {{ result < a }}\n{{\n{body}\n}}\n"


def source_of(body: str) -> Source:
    return read_source("crates/one/src/lib.rt", DECLARED + function(body))


def changes(body: str, kind: str = "") -> List[Change]:
    source = source_of(body)
    return [change for change in changes_of(source, source.bodies[-1], Declared([source])) if kind in change.kind]


def results(body: str, kind: str = "") -> List[str]:
    """The bodies that the changes of a kind give."""
    source = source_of(body)
    texts = [applied(source, change) for change in changes(body, kind)]
    return [text[text.index("< a }\n{\n") + 8 : -3] for text in texts]


class Bodies(unittest.TestCase):
    def test_only_bodies_and_constants_are_read(self) -> None:
        source = read_source("a.rt", CONTRACTS)
        self.assertEqual(["ROOM", "Head::MOST", "Head::holds", "main"], [body.name for body in source.bodies])
        found = [source.between(body.first, body.last) for body in source.bodies if body.first < body.last]
        self.assertEqual(["56", "200", "n + 3"], found)

    def test_a_contract_changes_in_no_mutant(self) -> None:
        source = read_source("a.rt", CONTRACTS)
        for body in source.bodies:
            for change in changes_of(source, body, Declared([source])):
                text = applied(source, change)
                self.assertIn("low { n + 1 ≤ 2 × record { a = 1; b = { 2 } } }", text)
                self.assertTrue(text.startswith("// 1 + 2\n"))

    def test_only_a_function_with_an_ensures_promises(self) -> None:
        source = read_source("a.rt", CONTRACTS)
        self.assertEqual([False, False, True, False], [body.promised for body in source.bodies])
        text = "fn f(a: u64) // ensures { a }\n    requires { a < 2 }\n{ a; }\n" + function("a")
        self.assertEqual([False, True], [body.promised for body in read_source("a.rt", text).bodies])

    def test_what_a_function_does_with_files_is_not_promised(self) -> None:
        for text, promised in (("io::stdin(); a", False), ("fs::File::open(a)", False), ("ratio::io(a)", True)):
            self.assertEqual(promised, source_of(text).bodies[-1].promised)
        told = function("a").replace("-> u64", "-> io::Result<u64>")
        self.assertEqual([False, True], [body.promised for body in read_source("a.rt", told + function("a")).bodies])

    def test_what_tests_is_not_read(self) -> None:
        tests = "#[cfg(test)]\nmod tests {\n    use super::*;\n\n    #[test]\n    fn g(rt: HostRuntime) { 1 + 1 }\n}\n"
        for text in (tests + function("a"), function("a") + tests):
            self.assertEqual(["f"], [body.name for body in read_source("a.rt", text).bodies])

    def test_what_is_no_source_is_refused(self) -> None:
        for text in ("fn f() { λ }", "fn f() { (] }", "fn f() {", "fn f() ensures { a {}"):
            with self.assertRaises(SourceError):
                read_source("a.rt", text)

    def test_a_function_of_a_trait_is_read(self) -> None:
        text = "pub trait Kind {\n    ghost LIMIT: { ℕ };\n\n    const LIMIT: u64;\n\n" + function("    a") + "}\n"
        self.assertEqual(["Kind::f"], [body.name for body in read_source("a.rt", text).bodies])

    def test_every_function_of_the_crates_has_a_body_that_is_read(self) -> None:
        for crate in catalogue.crate_names(ROOT):
            for source in catalogue.sources_of(ROOT, crate):
                named = sum(token.text == "fn" for token in source.tokens)
                self.assertEqual(named, sum(not body.constant for body in source.bodies), source.path)


class Changes(unittest.TestCase):
    def test_operators(self) -> None:
        self.assertEqual(["a - b"], results("a + b", "operator"))
        self.assertEqual(["a <= b", "a > b"], results("a < b", "operator"))
        self.assertEqual(["a || b != c", "a && b == c"], results("a && b != c", "operator"))
        self.assertEqual(["a -= b;"], results("a += b;", "operator"))
        self.assertEqual(["x", "y"], [result[-1] for result in results("!x", "operator") + results("-y", "operator")])
        self.assertEqual(["(a) | b"], results("(a) & b", "operator"))

    def test_references_are_no_operators(self) -> None:
        self.assertEqual([], results("f(&a, &mut b, *c)", "operator"))
        self.assertEqual([], results("return &a;", "operator"))

    def test_numbers(self) -> None:
        self.assertEqual(["6", "8"], results("7", "number"))
        self.assertEqual(["1u64"], results("0u64", "number"))
        self.assertEqual(["true"], results("false", "number"))
        self.assertEqual([], results("a.0", "number"))
        self.assertEqual("999_999", with_number("1_000_000", 999_999))
        self.assertEqual("0x1_0001", with_number("0x1_0000", 0x1_0001))
        self.assertEqual(["b'@'", "b'B'"], results("b'A'", "number"))
        self.assertEqual((10, 39), (byte_of(r"b'\n'"), byte_of(r"b'\''")))
        self.assertEqual(("11", "b'('"), (byte_literal(11), byte_literal(40)))

    def test_a_constant_changes_only_in_its_numbers(self) -> None:
        source = read_source("a.rt", "const A: u64 = 2 + 3;")
        found = [applied(source, change)[15:-1] for change in changes_of(source, source.bodies[0], Declared([source]))]
        self.assertEqual(["1 + 3", "3 + 3", "2 + 2", "2 + 4"], found)

    def test_arguments(self) -> None:
        self.assertEqual(["g(b, b)", "g(b, a)", "g(a, a)"], results("g(a, b)", "argument"))
        self.assertEqual(["g(2, x + 1)"], results("g(x + 1, 2)", "argument"))
        self.assertIn("g(\n    b,\n    a,\n)", results("g(\n    a,\n    b,\n)", "argument"))
        self.assertEqual(["x[i + 1]"], results("x[i]", "argument"))
        self.assertEqual([], results("x[i + 1]", "argument"))

    def test_arguments_of_types_that_do_not_fit_stay(self) -> None:
        self.assertEqual(
            ["put(&b, &a, i + 1, 1, 2)", "put(&a, &b, i + 1, 2, 1)"], results("put(&a, &b, i + 1, 1, 2)", "argument")
        )
        self.assertEqual(
            ["put(&a, &a, 2, 1, m + n)", "put(&a, &a, 1, m + n, 2)"], results("put(&a, &a, 1, 2, m + n)", "argument")
        )

    def test_a_number_before_the_dot_is_an_argument(self) -> None:
        for method in ("min", "max", "abs_diff"):
            self.assertEqual([f"b.{method}(b)", f"a.{method}(a)"], results(f"a.{method}(b)", "argument"))
        self.assertEqual(["b.div_ceil(b)", "b.div_ceil(a)", "a.div_ceil(a)"], results("a.div_ceil(b)", "argument"))
        self.assertEqual(["2 * e.max(e)", "2 * a.b.c.max(a.b.c)"], results("2 * a.b.c.max(e)", "argument"))
        self.assertEqual(
            ["K::A.m.min(b.min(b) - c)", "K::A.m.min(a.min(a) - c)"], results("K::A.m.min(a.min(b) - c)", "argument")
        )

    def test_what_is_no_name_before_the_dot_stays(self) -> None:
        for before in ("K::A", "K::A.m", "g(a)", "g(a).m", "x[1].m", "a?", "a.0", "7"):
            self.assertEqual([], results(f"{before}.min(b)", "argument"), before)
        for after in ("min(1)", "min(b + c)", "min(K::A)", "min()", "min", "min[1]", "holds(b)", "div_ceil(b + c)"):
            self.assertEqual([], results(f"a.{after}", "argument"), after)
        self.assertEqual([], results("min(a)", "argument") + results("a.min(a)", "argument"))

    def test_type_arguments_are_no_operators(self) -> None:
        self.assertEqual([], results("g::<A, B>(a)", "operator"))
        for types in ("A", "A, B", "A<B>", "A<B<C>>", "[u8; N], B"):
            self.assertEqual([f"g::<{types}>(a) - b"], results(f"g::<{types}>(a) + b", "operator"))
        self.assertEqual(["if false { return c; } d"], results("if !g::<A>(a) { return c; } d", "branch"))

    def test_a_call_with_type_arguments_is_a_call(self) -> None:
        self.assertEqual(["g::<A>(b, b)", "g::<A>(b, a)", "g::<A>(a, a)"], results("g::<A>(a, b)", "argument"))
        self.assertEqual(
            ["put::<A>(&b, &a, i + 1, 1, 2)", "put::<A>(&a, &b, i + 1, 2, 1)"],
            results("put::<A>(&a, &b, i + 1, 1, 2)", "argument"),
        )
        self.assertEqual(["h(2, g::<[A; N], B>(a))"], results("h(g::<[A; N], B>(a), 2)", "argument"))

    def test_type_arguments(self) -> None:
        self.assertEqual(["g::<B, B>(a)", "g::<B, A>(a)", "g::<A, A>(a)"], results("g::<A, B>(a)", "argument"))
        self.assertEqual(["g::<k::B, A>(a)"], results("g::<A, k::B>(a)", "argument"))
        self.assertEqual([], results("g::<'a, A>(a)", "argument") + results("g::<A, 2>(a)", "argument"))

    def test_a_kind_becomes_each_other_one(self) -> None:
        kinds = "".join(f"pub struct {name}(pub u64);\n" for name in ("Void", "Time", "Zero", "Pair"))
        texts = {
            "crates/two/src/kinds.rt": kinds,
            "crates/two/src/lib.rt": function("g::<kinds::Time>(a)"),
            "crates/one/src/lib.rt": "use two::kinds::{Void, Zero};\n" + function("g::<Void>(a); g::<Zero>(a); g::<X>(a)"),
        }
        sources = [read_source(path, text) for path, text in texts.items()]
        within, without = [
            [
                f"{source.text[change.start : change.end]} -> {change.new}"
                for change in changes_of(source, source.bodies[0], Declared(sources))
                if change.kind == "argument"
            ]
            for source in sources[1:]
        ]
        self.assertEqual(["kinds::Time -> crate::kinds::Void", "kinds::Time -> crate::kinds::Zero"], within)
        self.assertEqual(["Void -> Zero", "Void -> two::kinds::Time"], without[:2])
        self.assertEqual(["Zero -> Void", "Zero -> two::kinds::Time"], without[2:])

    def test_bars_of_closures_are_no_operators(self) -> None:
        self.assertEqual(["g(|x| x - 1)"], results("g(|x| x + 1)", "operator"))
        self.assertEqual(["a.g(b, |x, y| x & y)"], results("a.g(b, |x, y| x | y)", "operator"))
        self.assertEqual(["g(move |x| x)"], results("g(move |x| -x)", "operator"))
        self.assertEqual(["g(a)? & b"], results("g(a)? | b", "operator"))
        self.assertEqual(["g(|x, y| c, b)"], results("g(b, |x, y| c)", "argument"))
        self.assertEqual([], results("g(|Pair(x, y)| x)", "argument"))

    def test_fields(self) -> None:
        self.assertEqual(["Pair { a: 2, b: 1 }"], results("Pair { a: 1, b: 2 }", "argument"))
        self.assertEqual(["Pair { a: b, b: a, c }"], results("Pair { a, b, c }", "argument"))
        self.assertEqual([], results("if a < MOST { g(a); }", "argument"))

    def test_conditions(self) -> None:
        self.assertEqual(["if !(a < b) { c } else { d }"], results("if a < b { c } else { d }", "branch"))
        self.assertEqual(["while !(a < b) { }"], results("while a < b { }", "branch"))
        self.assertEqual(["if false { return c; } d"], results("if !a { return c; } d", "branch"))
        self.assertEqual([" d"], results("if let A(b) = c { return b; } d", "branch"))
        self.assertEqual(["if a != b { c } else { d }"], results("if a == b { c } else { d }", "operator"))
        self.assertEqual([], results("if a == b { c } else { d }", "branch"))

    def test_arms(self) -> None:
        two = "match a { Face::Closed => 1, _ => 2 }"
        self.assertEqual(["match a { Face::Closed => 2, _ => 1 }"], results(two, "branch"))
        self.assertEqual([], results("match a { Face::Closed => b, Face::Drained(c) => c }", "branch"))
        self.assertEqual(["match a { A(c) => {}, B => 0 }"], results("match a { A(c) => x[i] = c, B => 0 }", "branch"))

    def test_variants(self) -> None:
        self.assertEqual(["Face::Sealed"], results("Face::Closed", "branch"))
        self.assertEqual(["Face::Closed"], results("Face::Drained(p)", "branch"))
        self.assertEqual([], results("if let Face::Closed = a { 1 } else { 2 }", "branch"))

    def test_some_becomes_none(self) -> None:
        self.assertEqual(["None"], results("Some(a + b)", "branch"))
        self.assertEqual(["g(None, c)"], results("g(Some((a, b)), c)", "branch"))
        self.assertEqual(["None", "Some(Face::Sealed)"], results("Some(Face::Closed)", "branch"))
        self.assertEqual(["let Some(b) = None else { c };"], results("let Some(b) = Some(a) else { c };", "branch"))
        self.assertEqual(["match a { Some(b) => None, _ => c }"], results("match a { Some(b) => Some(b), _ => c }", "branch"))
        self.assertEqual(["g(|Some(b)| None)"], results("g(|Some(b)| Some(b))", "branch"))
        self.assertEqual([], results("if let Some(b) = a { 1 } else { 2 }", "branch"))
        self.assertEqual([" None"], results("a.map(Some); None", "branch"))

    def test_a_none_that_is_given_back_becomes_a_variant_that_holds_nothing(self) -> None:
        held = "pub enum Held { Full(u64), Empty }\n"
        none = ("Option<Pair>", "Option<u64>", "Result<Face, u64>", "Face")
        empty = {"Option<Face>": "Face::Closed", "Option<Held>": "Held::Empty", **{given: "" for given in none}}
        for given, variant in empty.items():
            text = DECLARED + held + function("g(None); return None; None").replace("-> u64", f"-> {given}")
            source = read_source("crates/one/src/lib.rt", text)
            found = [applied(source, change) for change in changes_of(source, source.bodies[-1], Declared([source]))]
            wanted = [f"g(None); return Some({variant}); None"] if variant else []
            self.assertEqual(wanted, [line for one in found for line in one.splitlines() if "Some(" in line], given)

    def test_statements_go(self) -> None:
        self.assertEqual([" b"], results("a += 1; b", "branch"))
        self.assertEqual([" b"], results("g(a); b", "branch"))
        self.assertEqual([], results("let a = g(b); a", "branch"))
        self.assertIn("while a {  }", results("while a { x[i] = 1; }", "branch"))

    def test_no_text_twice(self) -> None:
        for crate in catalogue.crate_names(ROOT):
            found = catalogue.all_mutants(ROOT, [crate])
            texts = {(mutant.path, texts_with([mutant])[mutant.file]) for mutant in found}
            self.assertEqual(len(found), len(texts))


def mutants_in(texts: Dict[str, str]) -> List[Mutant]:
    """The mutants of a crate whose files have these texts."""
    with tempfile.TemporaryDirectory() as root:
        os.makedirs(os.path.join(root, "crates", "one", "src"))
        files = {f"crates/one/src/{name}": text for name, text in texts.items()}
        for path, content in {"crates.txt": "# ones\none: numbers\n", **files}.items():
            with open(os.path.join(root, path), "w", encoding="utf-8") as file:
                file.write(content)
        return catalogue.all_mutants(root, catalogue.crate_names(root))


class Names(unittest.TestCase):
    def mutants(self, text: str) -> List[Mutant]:
        return mutants_in({"lib.rt": text})

    def test_names_stay_when_other_lines_change(self) -> None:
        before = self.mutants(function("    a + 1"))
        after = self.mutants("fn g() {}\n" + function("    let b = 2;\n    a + 1"))
        self.assertLess({mutant.name for mutant in before}, {mutant.name for mutant in after})
        self.assertNotEqual([mutant.line for mutant in before], [mutant.line for mutant in after][-len(before) :])

    def test_names_differ(self) -> None:
        found = self.mutants(function("    a + 1 + 1;\n    a + 1 + 1;"))
        self.assertEqual(len(found), len({mutant.id for mutant in found}))
        everything = catalogue.all_mutants(ROOT, catalogue.crate_names(ROOT))
        self.assertEqual(len(everything), len({mutant.id for mutant in everything}))

    def test_a_draw_is_even_and_the_same_for_a_seed(self) -> None:
        found = self.mutants(function("    a + 1") + function("    a + 2 + 3 + 4 + 5").replace("fn f", "fn g"))
        some = catalogue.drawn(found, 4, 1)
        self.assertEqual(some, catalogue.drawn(found, 4, 1))
        self.assertEqual(["f", "f", "g", "g"], [mutant.function for mutant in some])
        self.assertEqual(found, catalogue.drawn(found, 1000, 7))
        self.assertTrue(any(catalogue.drawn(found, 4, seed) != some for seed in range(2, 9)))


class Lists(unittest.TestCase):
    def test_the_list_names_mutants_that_are_there(self) -> None:
        with open(os.path.join(HERE, "same_program.txt"), encoding="utf-8") as file:
            listed = catalogue.read_list(file.read())
        catalogue.check_list(listed, catalogue.all_mutants(ROOT, catalogue.crate_names(ROOT)))

    def test_some_names_share_a_reason(self) -> None:
        listed = catalogue.read_list("# of two\n1 a\n2 b\n    Nothing\n    reads it.\n\n3 c\n    Equal.\n")
        self.assertEqual({"1 a": "Nothing reads it.", "2 b": "Nothing reads it.", "3 c": "Equal."}, listed)
        self.assertEqual({}, catalogue.read_list("# none\n"))

    def test_a_list_out_of_form_is_refused(self) -> None:
        for text in ("1 a\n", "    alone\n", "1 a\n1 a\n    b\n", "1 a\n    b\n1 a\n    b\n", "1 a\n    b\n2 c\n"):
            with self.assertRaises(catalogue.ListError):
                catalogue.read_list(text)

    def test_a_name_of_nothing_is_refused(self) -> None:
        with self.assertRaises(catalogue.ListError):
            catalogue.check_list({"0 crates/one/src/lib.rt f: + -> - in a + b": "Never."}, [])


class Verdicts(unittest.TestCase):
    def answer(self, status: int, said: str) -> str:
        return checker.verdict(status, said).answer

    def test_answers(self) -> None:
        at = "./proofs/f/Answers.antt:1:2: error: "
        fact = f"{at}`returns`: expected type `a`, but this has type `b`\n"
        name = f"{at}`add`: `goal.add`: module `M` has no `add` that can be named from here\n"
        follows = f"{at}`g`: `f` was not admitted (it has holes or undetermined implicits, or was rejected), so\n"
        self.assertEqual(checker.PROVED, self.answer(0, "fn f: proved\nlogic=proved functions=1\n"))
        self.assertEqual(checker.AT_A_FACT, self.answer(1, fact + follows + "logic=not-proved\n"))
        self.assertEqual(checker.AT_A_FACT, self.answer(1, name + fact + "logic=not-proved\n"))
        self.assertEqual(checker.BY_SHAPE, self.answer(1, name + follows + "logic=not-proved\n"))
        laws = "./proofs/Laws.antt:9:1: error: 1 declaration that depends on `f`, which was rejected, was not checked: g\n"
        self.assertEqual(checker.BY_SHAPE, self.answer(1, name + laws + "logic=not-proved\n"))
        field = f"{at}`returns`: record `At`\n  has no field `before`\n"
        spec = f"{at}`f-spec`: expected type `goal.a`, but this has type `goal.b`\n"
        self.assertEqual(checker.BY_SHAPE, self.answer(1, field + spec + "logic=not-proved\n"))
        made = "note: src/lib.rt:1:2: it is not proved that the product fits its type (`mul`)\n"
        self.assertEqual(checker.AT_A_FACT, self.answer(1, made + "logic=not-proved\n"))
        for code in ("mismatched-types", "borrow-e0499"):
            self.assertEqual(checker.NO_PROGRAM, self.answer(1, f"a/src/lib.rt:5:1: error[{code}]: expected `i64`\n"))

    def test_no_verdict_is_not_told(self) -> None:
        proved = "logic=proved functions=1\n"
        for status, said in ((3, "rattle: no verdict\n"), (2, "a\n"), (1, "killed\n"), (0, ""), (1, proved), (-9, "")):
            self.assertEqual(checker.NOT_TOLD, self.answer(status, said))


# Four functions, three of which have one name.
FILES = {
    "lib.rt": function("    g(\n        a,\n    );\n    a + 1") + function("    a - 2").replace("fn f", "fn g"),
    "checks.rt": "impl Head {\n" + function("    a + 3") + "}\n\n" + function("    a + 4"),
}
F, G, HEAD_F, CHECKS_F = (f"proofs/{path}" for path in ("f", "g", "checks/Head/f", "checks/f"))
FOLDER = "/bench/one"
FACT = "`returns`: expected type `a`, but this has type `b`"
SHAPED = "`add`: module `M` has no `add` that can be named from here"
FOLLOWING = "`returns`: `h` was not admitted (it has holes or undetermined implicits, or was rejected), so"


def error_in(path: str, words: str = FACT) -> str:
    """An error in a file, or in the answers of a function's proof."""
    file = path if path.endswith(".antt") else f"{path}/Answers.antt"
    return f"./{file}:1:2: error: {words}\n"


def note_at(place: str) -> str:
    return f"note: {place}: it is not proved that the sum fits its type (`add`)\n"


class Rounds(unittest.TestCase):
    """What one check tells of a mutant of each function. The one of `f` takes two lines from its file."""

    def setUp(self) -> None:
        found = mutants_in(FILES)
        firsts = {mutant.proof: mutant for mutant in reversed(found)}
        self.round = [firsts[proof] for proof in (F, G, HEAD_F, CHECKS_F)]
        self.assertEqual("g( a, ); -> nothing", self.round[0].change)

    def told(self, status: int, said: str) -> List[List[str]]:
        """The proofs of those that are decided, of those to judge alone, and of those to judge again."""
        found = rounds.told(self.round, checker.verdict(status, said), FOLDER)
        return [[mutant.proof for mutant in some] for some in (found.decided, found.alone, found.again)]

    def assert_decided(self, proofs: List[str], said: str) -> None:
        others = [mutant.proof for mutant in self.round if mutant.proof not in proofs]
        self.assertEqual([proofs, others, []], self.told(1, said + "logic=not-proved\n"), said)

    def test_changes_are_made_where_the_text_had_them(self) -> None:
        one, other = Change("number", 1, 2, "xyz"), Change("number", 4, 6, "")
        for some in ([one, other], [other, one]):
            self.assertEqual("axyzcd", with_changes("abcdef", some))
        with self.assertRaises(AssertionError):
            with_changes("abcdef", [one, Change("number", 0, 2, "")])

    def test_every_file_has_all_its_changes(self) -> None:
        lib = FILES["lib.rt"].replace("g(\n        a,\n    );", "").replace("a - 2", "a + 2")
        checks = FILES["checks.rt"].replace("a +", "a -")
        self.assertEqual({"src/lib.rt": lib, "src/checks.rt": checks}, texts_with(self.round))

    def test_every_written_proof_is_a_functions(self) -> None:
        self.assertEqual(F, proof_of("src/main.rt", "f"))
        for crate in catalogue.crate_names(ROOT):
            folder = os.path.join(ROOT, "crates", crate)
            proofs = {
                proof_of(os.path.relpath(source.path, os.path.join("crates", crate)), body.name)
                for source in catalogue.sources_of(ROOT, crate)
                for body in source.bodies
            }
            for name in rounds.WRITTEN:
                for path in glob.glob(os.path.join(folder, "proofs", "*", "**", name), recursive=True):
                    self.assertIn(rounds.owner(f"{path}:1:1", folder, {}), proofs)

    def test_an_error_in_a_proof_decides_on_its_function(self) -> None:
        for proof in (F, G, HEAD_F, CHECKS_F):
            self.assert_decided([proof], error_in(proof))
        self.assert_decided([G, CHECKS_F], error_in(CHECKS_F) + error_in(F, FOLLOWING) + error_in(G))
        for name in rounds.WRITTEN:
            self.assert_decided([G], error_in(f"proofs/g/{name}"))
            self.assert_decided([G], error_in(f"proofs/+g/{name}"))

    def test_an_error_that_follows_or_is_of_the_shape_decides_nothing(self) -> None:
        for words in (FOLLOWING, SHAPED, FACT.replace("returns", "f-spec")):
            self.assert_decided([G], error_in(F, words) + error_in(G))
            self.assert_decided([], error_in(F, words))

    def test_a_note_decides_on_the_function_that_it_stands_at(self) -> None:
        for line, proof in ((1, F), (6, F), (7, G), (11, G)):
            self.assert_decided([proof], note_at(f"src/lib.rt:{line}:1"))
        for line, proof in ((2, HEAD_F), (6, HEAD_F), (9, CHECKS_F)):
            self.assert_decided([proof], note_at(f"src/checks.rt:{line}:1"))

    def test_nothing_is_decided_where_something_else_is_refused(self) -> None:
        others = ("proofs/Laws.antt", "proofs/Invariants.antt", "proofs/h", "proofs/Head/f", "proofs/+f+g", "proofs/g/Other.antt")
        for other in others:
            self.assert_decided([], error_in(G) + error_in(other))
        for place in ("src/lib.rt:99:1", "src/checks.rt:8:1", "src/other.rt:1:1", "src/lib.rt"):
            self.assert_decided([], error_in(G) + note_at(place))

    def test_what_is_no_program_leaves_the_round(self) -> None:
        named = "src/lib.rt:7:1: error[mismatched-types]: expected `i64`\n"
        self.assertEqual([[], [G], [F, HEAD_F, CHECKS_F]], self.told(1, named))
        unnamed = named.replace(":7:", ":99:")
        self.assertEqual([[], [F, G, HEAD_F, CHECKS_F], []], self.told(1, unnamed))

    def test_no_verdict_and_a_proof_decide_nothing(self) -> None:
        for status, said in ((3, error_in(G)), (0, "logic=proved functions=4\n"), (1, error_in(G))):
            self.assertEqual([[], [F, G, HEAD_F, CHECKS_F], []], self.told(status, said))

    def test_a_check_of_one_decides(self) -> None:
        for status, said in ((3, ""), (0, "logic=proved functions=4\n"), (1, error_in(F) + "logic=not-proved\n")):
            found = rounds.told(self.round[1:2], checker.verdict(status, said), FOLDER)
            self.assertEqual((self.round[1:2], [], []), (found.decided, found.alone, found.again))

    def test_a_round_takes_one_of_each_function(self) -> None:
        everything = mutants_in(FILES)
        single = everything[-1]
        left, taken = list(everything), []
        while some := rounds.next_round(left, {single}):
            taken.append(some)
        self.assertEqual([single], taken[0])
        self.assertEqual([HEAD_F, CHECKS_F, F, G], [mutant.proof for mutant in taken[1]])
        for some in taken:
            self.assertEqual(len(some), len({mutant.proof for mutant in some}))
        self.assertEqual(sorted(one.id for one in everything), sorted(one.id for some in taken for one in some))


class Runs(unittest.TestCase):
    """A run of all mutants with a checker that has an answer for each."""

    answers = ("fact", "fact", "shape", "survives", "fact", "no program", "fact", "not told")

    def setUp(self) -> None:
        self.all = mutants_in(FILES)
        self.answer = {mutant: self.answers[at % len(self.answers)] for at, mutant in enumerate(self.all)}
        self.checks: List[List[Mutant]] = []

    def judge(self, some: List[Mutant]) -> checker.Verdict:
        self.checks.append(some)
        answers = {self.answer[mutant] for mutant in some}
        if "no program" in answers:
            places = [self.place(mutant, some) for mutant in some if self.answer[mutant] == "no program"]
            return checker.verdict(1, "".join(f"{place}: error[mismatched-types]: `i64`\n" for place in places))
        if "not told" in answers:
            return checker.verdict(3, "rattle: no verdict\n")
        words = {"fact": FACT, "shape": SHAPED}
        errors = [error_in(mutant.proof, words[self.answer[mutant]]) for mutant in some if self.answer[mutant] in words]
        if not errors:
            return checker.verdict(0, "logic=proved functions=4\n")
        return checker.verdict(1, "".join(errors) + "logic=not-proved\n")

    def place(self, mutant: Mutant, some: List[Mutant]) -> str:
        """Where the function of a mutant stands when some are applied."""
        source = read_source(mutant.file, texts_with(some)[mutant.file])
        body = next(body for body in source.bodies if body.name == mutant.function)
        return f"{mutant.file}:{source.line(source.tokens[body.first].start)}:1"

    def results(self, jobs: int) -> Dict[Mutant, str]:
        def primed(_kit: object, _crate: str, folder: str) -> mock.Mock:
            os.makedirs(folder)
            return mock.Mock(incremental=folder)

        proved = checker.Verdict(checker.PROVED, "")
        bench_made = mock.Mock(folder=FOLDER, judge=self.judge, judge_as_it_is=lambda: proved)
        run = mutants.Run(mock.Mock(), self.all, {self.all[3].name: "Equal."}, jobs, None)
        with mock.patch.object(mutants, "Primed", primed), mock.patch.object(mutants, "Bench", return_value=bench_made):
            with contextlib.redirect_stdout(io.StringIO()) as said:
                run.check_all()
        self.assertEqual(len(self.all), said.getvalue().count("\nmutant ") + 1)
        return run.results

    def test_rounds_give_the_results_of_single_checks(self) -> None:
        alone = {mutant: self.judge([mutant]).answer for mutant in self.all}
        expected = {one: mutants.SURVIVES if answer == checker.PROVED else answer for one, answer in alone.items()}
        expected[self.all[3]] = mutants.SAME
        for jobs in (1, 2, 3):
            self.checks = []
            self.assertEqual(expected, self.results(jobs))
            for mutant in self.all:
                if self.answer[mutant] != "fact":
                    self.assertIn([mutant], self.checks)
            self.assertTrue(any(len(some) == 4 for some in self.checks))
            self.assertNotIn(self.all[3], [mutant for some in self.checks if len(some) > 1 for mutant in some])


class Memory(unittest.TestCase):
    def place(self, blocks: int, variables: Dict[str, str]) -> Optional[str]:
        found = mock.Mock(f_bavail=blocks, f_frsize=4096)
        with mock.patch.dict(os.environ, variables, clear=True), mock.patch.object(os, "access", return_value=True):
            with mock.patch.object(os, "statvfs", return_value=found):
                return checker.memory(2)

    def test_files_stand_in_memory_where_there_is_room(self) -> None:
        self.assertEqual(checker.MEMORY, self.place(2 * checker.ROOM // 4096, {}))
        self.assertIsNone(self.place(2 * checker.ROOM // 4096 - 1, {}))

    def test_a_folder_that_is_asked_for_is_taken(self) -> None:
        self.assertIsNone(self.place(2 * checker.ROOM // 4096, {"TMPDIR": "/elsewhere"}))

    def test_the_checker_writes_where_it_is_told(self) -> None:
        self.assertEqual("/usr /room\n", checker.asked(["sh", "-c", 'echo "$PWD $TMPDIR"'], "/usr", "/room").said)


class Programs(unittest.TestCase):
    """A program in Python in place of a built one."""

    def fault(self, text: str, stored: Dict[str, str], seconds: int = 20) -> str:
        with tempfile.TemporaryDirectory() as folder:
            for name, content in {"program.py": text, **stored}.items():
                os.makedirs(os.path.dirname(os.path.join(folder, name)), exist_ok=True)
                with open(os.path.join(folder, name), "w", encoding="utf-8") as file:
                    file.write(content)
            return program.fault_of_run([sys.executable], os.path.join(folder, "program.py"), folder, seconds)

    def test_a_program_that_does_as_stored_passes(self) -> None:
        text = "import sys\nprint(sys.argv[1:], sys.stdin.read(), open('data of it').read())\n"
        stored = {"args": "a b\nc\n", "stdin": "in", "data/data of it": "x", "stdout": "['a b', 'c'] in x\n"}
        self.assertEqual("", self.fault(text, stored))
        for part in stored:
            self.assertNotEqual("", self.fault(text, {**stored, part: stored[part].replace("in", "y") + "z\n"}), part)

    def test_what_is_not_stored_is_empty(self) -> None:
        empty = "import os, sys\nassert os.listdir('.') == sys.argv[1:] == sys.stdin.readlines() == []\n"
        self.assertEqual("", self.fault(empty, {}))
        for part in ("stdin", "args", "data/a"):
            self.assertIn("ended with status 1", self.fault(empty, {part: "a"}))
        self.assertIn("wrote 2 bytes, stored are 0", self.fault("print(1)", {}))

    def test_a_program_that_does_otherwise_is_told(self) -> None:
        stored = {"stdout": "abc\n"}
        self.assertEqual("", self.fault("print('abc')", stored))
        self.assertIn("from byte 2: b'd\\n'", self.fault("print('abd')", stored))
        self.assertIn("from byte 0: b''", self.fault("", stored))
        failing = "import sys\nprint('abc')\nprint('no', file=sys.stderr)\nsys.exit(3)\n"
        self.assertIn("ended with status 3: no", self.fault(failing, stored))

    def test_a_program_without_end_is_told(self) -> None:
        self.assertIn("ended with status", self.fault("while True:\n    pass\n", {}, 1))
        self.assertIn("ended with status", self.fault("while True:\n    print('a' * 1_000_000)\n", {}))

    def test_a_test_that_fails_is_told(self) -> None:
        with tempfile.TemporaryDirectory() as folder:
            path = os.path.join(folder, "test")
            with open(path, "w", encoding="utf-8") as file:
                file.write('#!/bin/sh\necho "$1 $2"\n[ "$2" = right ]\n')
            os.chmod(path, 0o755)
            self.assertEqual("", program.fault_of_test(folder, ["test", "of"], "right"))
            self.assertEqual("test: of wrong", program.fault_of_test(folder, ["test", "of"], "wrong"))

    def test_every_program_has_the_test_of_the_gate(self) -> None:
        names = catalogue.crate_names(ROOT)
        found = [name for name in names if os.path.isfile(os.path.join(ROOT, "crates", name, "src", "main.rt"))]
        self.assertEqual(sorted(found), sorted(program.TESTS))
        with open(os.path.join(ROOT, "kufandra"), encoding="utf-8") as file:
            gate = file.read()
        for name, words in program.TESTS.items():
            self.assertIn(f" {' '.join(words)} target/bin/{name}\n", gate)


class Kits(unittest.TestCase):
    """What the checker is asked of this repository's crates."""

    def setUp(self) -> None:
        with mock.patch.object(checker.shutil, "which", return_value="/kit/bin/rt"):
            self.kit = checker.Kit(ROOT)

    def test_the_libraries_below_a_crate_stand_each_after_its_own(self) -> None:
        self.assertEqual(["numbers", "quantities", "rules"], self.kit.below("rules")[:2] + ["rules"])
        for crate in catalogue.crate_names(ROOT):
            found = self.kit.below(crate)
            self.assertEqual(len(found), len(set(found)))
            for at, name in enumerate(found):
                self.assertLessEqual(set(self.kit.below(name)), set(found[:at]))

    def test_what_the_checker_is_asked(self) -> None:
        for crate in catalogue.crate_names(ROOT):
            words = self.kit.words("check", crate, "/kept")
            self.assertEqual(["/kit/bin/rattle", "check", "--crate-name", crate], words[:4])
            self.assertTrue(os.path.isfile(os.path.join(ROOT, "crates", crate, words[4])))
            for name in self.kit.dependencies(crate):
                self.assertEqual(1, sum(word.startswith(f"{name}=") and word.endswith(f"/{name}.rlib") for word in words))
            self.assertEqual(["--incremental", "/kept"], words[-2:])
            self.assertEqual(crate in ("key_c", "division_c"), "staticlib" in words)

    def test_an_archive_is_made_of_a_static_library_as_it_is(self) -> None:
        proved = checker.Verdict(checker.PROVED, "")
        with mock.patch.object(checker, "asked", return_value=proved) as asked:
            self.assertEqual(proved, self.kit.archive("key_c", "/room/kept", "/made.a"))
            words, folder, room = asked.call_args.args
            self.assertEqual((os.path.join(ROOT, "crates", "key_c"), "/room"), (folder, room))
            self.assertEqual(("build", "/made.a"), (words[1], words[-1]))
            with mock.patch.object(archive, "Kit", return_value=self.kit), contextlib.redirect_stdout(io.StringIO()):
                self.assertEqual(0, archive.main(["division_c", "/made.a"]))
                with self.assertRaises(checker.CheckerError):
                    archive.main(["key", "/made.a"])


class Judges(unittest.TestCase):
    """Which judge a crate has: a kit that only says what it was asked."""

    def judge(self, promised: bool, is_program: bool) -> str:
        kit = mock.Mock(spec=checker.Kit)
        kit.is_program.return_value = is_program
        kit.check.return_value = checker.Verdict(checker.PROVED, "checked")
        kit.build.return_value = checker.Verdict(checker.AT_A_FACT, "built")
        return bench.judged(kit, "one", "folder", "incremental", promised).said

    def test_the_checker_judges_what_is_promised_and_what_is_no_program(self) -> None:
        for promised, is_program in ((True, True), (True, False), (False, False)):
            self.assertEqual("checked", self.judge(promised, is_program))

    def test_a_program_that_promises_nothing_is_built(self) -> None:
        self.assertEqual("built", self.judge(False, True))

    def test_a_proved_program_is_judged_by_its_runs(self) -> None:
        kit = mock.Mock(spec=checker.Kit, root="/nowhere", tools="/nowhere")
        kit.is_program.return_value = True
        kit.build.return_value = checker.Verdict(checker.PROVED, "built ")
        for run, test, answer in (
            ("", "", checker.PROVED),
            ("other bytes", "", program.BY_OUTPUT),
            ("", "other answer", program.BY_OUTPUT),
        ):
            with mock.patch.object(program, "fault_of_run", return_value=run):
                with mock.patch.object(program, "fault_of_test", return_value=test):
                    found = bench.judged(kit, "scenarios", "folder", "incremental", False)
            self.assertEqual(answer, found.answer)
            self.assertEqual(f"built {run or test}".strip(), found.said.strip())


if __name__ == "__main__":
    unittest.main(verbosity=0)
