"""What tools/house reads in the crates, and what it lets through."""

from __future__ import annotations

import unittest

from bounds import Finding, compared, python_functions
from house_known import Known
from sources import DEFINED, TYPE, clauses_in, functions_in, words_used

SOURCE = '''//! A crate.
/// A pair of things.
pub struct Pair<A> {
    first: A,
}

impl<A: Kept> Pair<A> {
    /// Puts one.
    pub fn put<K: Sink, F: Fn(u32, u8) -> u8>(&mut self, one: &[(A, u8)], other: Option<Map<u8, A>>) -> u8
        requires same { first_in (level one) ≡ Some one.now }
        ensures put {
            Puts self one
                result
        }
    {
        let _ = one.len();
        if true {
            1
        } else {
            2
        }
    }

    fn first(&self) -> u8;

    pub(crate) fn none() {}
}

pub fn many(a: u8, b: u8, c: [u8; 3], d: (u8, u8), e: u8, f: u8, g: u8) -> u8
    ensures { result ≡ a.now }
{
    let _many = b;
    a
}
'''
DEFINITIONS = """use Rattle.std.specs.Prelude.{Some, None, ignored}

-- the first of them, as first_of names it
abbrev pub first_of : List ℕ → Option ℕ
first_of [] = None
first_of (x ∷ xs) = Some x

pub record Pair : Type 0 where
  pub first : ℕ

unfoldable pub ◌⊕◌ : ℕ → ℕ → ℕ
a ⊕ b = a + b

law : first_of [] ≡ None
"""
LONG = Finding("columns", "crates/a/src/b.rt", 7, "put", 120, "a clause of 120 columns")


class Sources(unittest.TestCase):
    def test_clauses_are_read_to_their_end(self) -> None:
        found = [(clause.line, clause.name, clause.text) for clause in clauses_in("x.rt", SOURCE)]
        self.assertEqual(found, [(10, "same", "requires same { first_in (level one) ≡ Some one.now }"),
                                 (11, "put", "ensures put { Puts self one result }"),
                                 (30, "ensures", "ensures { result ≡ a.now }")])

    def test_functions_have_parameters_and_a_body(self) -> None:
        found = [(function.line, function.name, function.parameters, function.lines) for function in functions_in("x.rt", SOURCE)]
        self.assertEqual(found, [(9, "put", 3, 8), (24, "first", 1, 0), (26, "none", 0, 0), (29, "many", 7, 4)])

    def test_names(self) -> None:
        self.assertEqual(DEFINED.findall(DEFINITIONS), ["first_of", "Pair", "◌⊕◌"])
        self.assertEqual(TYPE.findall(SOURCE), ["Pair"])
        # What is let go is no name.
        self.assertEqual(TYPE.findall("    let _ = seats.mark(*node);\n    let _ = &self.nodes;\n"), [])

    def test_words_outside_of_their_own_definition(self) -> None:
        words = list(words_used(DEFINITIONS))
        self.assertEqual((words.count("first_of"), words.count("Pair"), words.count("⊕"), words.count("ignored")), (1, 0, 0, 0))

    def test_functions_of_python(self) -> None:
        text = "class A:\n    def put(self, a, *more, b=1, **rest):\n        return [\n            a]\n"
        self.assertEqual([(one.line, one.name, one.parameters, one.lines) for one in python_functions("x.py", text)], [(2, "put", 5, 3)])


class Bounds(unittest.TestCase):
    def known(self, figure: int, may_go: bool = False) -> Known:
        return Known("columns", "crates/a/src/b.rt", "put", figure, "why", may_go)

    def test_a_new_finding_is_told(self) -> None:
        self.assertEqual(list(compared([LONG], ())), ["crates/a/src/b.rt:7: a clause of 120 columns"])

    def test_a_known_one_is_let_through_and_no_further(self) -> None:
        self.assertEqual(list(compared([LONG], (self.known(120),))), [])
        self.assertEqual(list(compared([LONG], (self.known(119),))), ["crates/a/src/b.rt:7: a clause of 120 columns; 119 are known"])

    def test_an_entry_that_nothing_needs_is_told_but_where_it_may_be_gone(self) -> None:
        self.assertEqual(len(list(compared([], (self.known(120),)))), 1)
        self.assertEqual(list(compared([], (self.known(120, True),))), [])

    def test_a_name_is_meant_wherever_it_stands(self) -> None:
        finding = Finding("twice in specs", "crates/a/specs/B.antt", 3, "Pair", 2, "twice")
        self.assertEqual(list(compared([finding], (Known("twice in specs", "crates", "Pair", 2, "why"),))), [])
