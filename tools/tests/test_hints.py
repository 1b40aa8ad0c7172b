"""How lines are read, values worked out, and what is told of a line that was refused."""

from __future__ import annotations

import unittest

from faults import Expression, Fault, Unknown, parameters_of
from hints import hint
from known import Known, rule_of
from machine import is_line, tokens_of
from mending import distance, nearest, syntax_hint

TOKENS: list[tuple[bytes, list[tuple[object, ...]], int | None]] = [
    (b"depth 5", [("Word", "depth"), ("Number", 5)], None),
    (b"axiom F_a+GH", [("Word", "axiom"), ("Name", "F_a"), ("Plus",), ("Name", "G"), ("Name", "H")], None),
    (b"production p: AB => A", [("Word", "production"), ("Word", "p"), ("Colon",), ("Name", "A"), ("Name", "B"), ("Arrow",), ("Name", "A")], None),
    (b"seed 18446744073709551615", [("Word", "seed"), ("Number", 18446744073709551615)], None),
    (b"seed 18446744073709551616", [("Word", "seed"), ("BigNumber",)], None),
    (b"drop abcdefghijklmnopq", [("Word", "drop"), ("LongWord",)], None),
    (b"axiom F $", [("Word", "axiom"), ("Name", "F")], 8),
]
LINES = [
    ("depth 5", True), ("svg", True), ("production p: A(x) : x > 0 @ 2 => A(x-1)[+F]%", True), ("axiom", True), ("hom h: A => F", True),
    ("depth", False), ("depth 5 6", False), ("production p A => B", False), ("production p: A -> B", False), ("axiom F]", False), ("dept 5", False),
]
VALUES = [
    ("2+3*4", 14), ("-7/2", -3), ("-7%2", -1), ("2^3^2", 512), ("!0+!5", 1), ("(1+2)*3", 9), ("x*x", 49), ("1 < 2 && 2 <= 2", 1), ("0 || 0", 0),
    ("0 && 1/0", 0), ("1 || 1/0", 1), ("10-4-3", 3), ("0^0", 1), ("9223372036854775807", 2 ** 63 - 1),
]
FAULTS = [
    ("1/0", "divide-by-zero"), ("5%(x-7)", "divide-by-zero"), ("9223372036854775807+1", "overflow"), ("2^64", "overflow"), ("2^-1", "negative-power"),
]
DISTANCES = [("kitten", "sitting", 3), ("depth", "deph", 1), ("svg", "sgv", 1), ("", "abc", 3), ("axiom", "axiom", 0)]
COMMANDS = ["axiom", "depth", "production", "schedule", "seed", "segments", "show", "string", "svg"]
NEAREST = [("deph", "depth"), ("prodution", "production"), ("Axiom", "axiom"), ("xyz", None), ("", None)]
# A line that is none, and the one that was meant.
MEANT = [
    (b"deph 3", "depth 3"), (b"depth = 3", "depth 3"), (b"iterations 5", "depth 5"), (b"axiom: F-F", "axiom F-F"),
    (b"production p: F -> FF", "production p: F => FF"),
    (b"F -> F+F", "production f: F => F+F"), (b"depth 3;", "depth 3"), (b"depth five", "depth 5"), (b"lattice cube", "lattice cubic"),
    (b"hexagon", None),
]
TOLD = [
    (b"depth 65", "refused many 7", "depth is at most 64, and in version 2 at most 256: `version 2` at the head of the script allows more"),
    (b"string 9", "refused level 8", "there are the levels 0 to 3: `depth 9` makes more"),
    (b"drop xyz", "refused label 6", "no rule has the label `xyz`: there are `p`"),
    (b"drop q", "refused label 6", "no rule has the label `q`: there are `p`; did you mean `p`?"),
    (b"undo", "refused undo", "nothing can be undone here: no edit was taken before this line, or 32 were undone already"),
    (b"svg", "refused far 12", "module 12 of the picture would move past 1,000,000,000 steps from the origin: take smaller parameters of F and f"),
]
TAKEN = [b"axiom A", b"production p: A => AB", b"depth 3"]


class Reading(unittest.TestCase):
    def test_tokens(self) -> None:
        for line, kinds, bad in TOKENS:
            with self.subTest(line=line):
                tokens, place = tokens_of(line)
                self.assertEqual(([token.kind for token in tokens], place), (kinds, bad))

    def test_which_lines_are_commands(self) -> None:
        for line, is_one in LINES:
            with self.subTest(line=line):
                self.assertIs(is_line(line.encode()), is_one)

    def test_the_parts_of_a_rule(self) -> None:
        rule = rule_of("production winter p: A(x) < B(y,z) > [C] : x > 0 @ 2 => C(x)")
        assert rule is not None
        self.assertEqual((rule.kind, rule.table, rule.label, rule.left, rule.predecessor, rule.right, rule.condition, rule.weight, rule.formals),
                         ("production", "winter", "p", "A(x)", "B(y,z)", "[C]", "x > 0", "2", ["y", "z"]))
        self.assertIsNone(rule_of("axiom A"))

    def test_undo_takes_back_what_is_known(self) -> None:
        known = Known([*TAKEN, b"depth 5", b"drop p", b"undo", b"undo"])
        self.assertEqual((known.depth(), list(known.rules)), (3, ["p"]))
        known.take(b"redo")
        self.assertEqual(known.depth(), 5)


class Values(unittest.TestCase):
    def test_values(self) -> None:
        for text, value in VALUES:
            with self.subTest(text=text):
                self.assertEqual(Expression(text, {"x": 7}).value(), value)

    def test_faults(self) -> None:
        for text, kind in FAULTS:
            with self.subTest(text=text), self.assertRaises(Fault) as raised:
                Expression(text, {"x": 7}).value()
            self.assertEqual(raised.exception.kind, kind)

    def test_a_name_without_a_value(self) -> None:
        with self.assertRaises(Unknown):
            Expression("1+y", {}).value()

    def test_parameters_of_what_a_rule_puts(self) -> None:
        self.assertEqual(list(parameters_of("A(x+1,(y))[B]C(2)")), ["x+1", "(y)", "2"])


class Meant(unittest.TestCase):
    def test_distances(self) -> None:
        for one, other, many in DISTANCES:
            with self.subTest(one=one, other=other):
                self.assertEqual(distance(one, other), many)

    def test_the_word_that_was_meant(self) -> None:
        for word, meant in NEAREST:
            with self.subTest(word=word):
                self.assertEqual(nearest(word, COMMANDS), meant)

    def test_the_line_that_was_meant(self) -> None:
        for line, meant in MEANT:
            with self.subTest(line=line):
                self.assertEqual(syntax_hint(line, Known())[1], meant)

    def test_what_is_told_of_a_refusal(self) -> None:
        for line, reply, told in TOLD:
            with self.subTest(line=line):
                self.assertEqual(hint(line, reply, TAKEN).told, told)
