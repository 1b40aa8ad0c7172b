"""What varies on a sheet, and how a script gets a value."""

from __future__ import annotations

import unittest

from formats import Unfit
from sheets import axis_of, axis_of_word, cells_of, numbers_of, steps, told_of, with_edit

# A line and the texts of its numbers that can vary: digits of a name are none.
NUMBERS = [
    ("depth 5", ["5"]), ("axiom F(3)+F_10(12)", ["3", "12"]), ("production p1: A(x) : x > 10 => B_2(x+2)F", ["10", "2"]),
    ("production w3 p1: A(n) @ 33 => A(n-1)", ["33", "1"]), ("hom h: A => F(2)", ["2"]), ("; 5", []), ("schedule main t_1", []), ("svg", []),
]
EDITED = [
    (["axiom F", "depth 2", "svg", ""], "depth 3", ["axiom F", "depth 3", "svg", ""]),
    (["axiom F", "depth 2", "svg", ""], "seed 4", ["axiom F", "depth 2", "seed 4", "svg", ""]),
    (["depth 1", "depth 2"], "depth 5", ["depth 1", "depth 5"]),
]
WORDS = [("seed=1..3", "seed", [1, 2, 3], 0, 0), ("depth=0..0", "depth", [0], 0, 0), ("3.2=1..9/2", "number", [1, 3, 5, 7, 9], 2, 1)]
WRONG = ["seed=3..1", "seed=1..9/0", "depth=0..100", "angle=1..2", "3=1..2", "seed=1"]


class Axes(unittest.TestCase):
    def test_numbers_of_a_line(self) -> None:
        for line, numbers in NUMBERS:
            with self.subTest(line=line):
                self.assertEqual([line[begin:end] for begin, end in numbers_of(line)], numbers)

    def test_an_edit_takes_the_place_of_its_word(self) -> None:
        for lines, edit, wanted in EDITED:
            with self.subTest(lines=lines, edit=edit):
                self.assertEqual(with_edit(lines, edit), wanted)

    def test_words_of_a_tool(self) -> None:
        for word, kind, values, line, place in WORDS:
            with self.subTest(word=word):
                axis = axis_of_word(word)
                self.assertEqual((axis.kind, axis.values, axis.line, axis.place), (kind, values, line, place))

    def test_words_without_sense(self) -> None:
        for word in WRONG:
            with self.subTest(word=word), self.assertRaises(Unfit):
                axis_of_word(word)

    def test_at_most_a_hundred_values(self) -> None:
        self.assertEqual(len(steps(1, 100, 1)), 100)
        with self.assertRaises(Unfit):
            steps(1, 101, 1)

    def test_what_a_page_asks_for(self) -> None:
        axis = axis_of({"kind": "number", "from": 1, "to": 5, "step": 4, "line": 1, "place": 0})
        self.assertEqual(axis.put(["axiom F", "depth 2"], 5), ["axiom F", "depth 5"])
        with self.assertRaises(Unfit):
            axis_of({"kind": "seed", "from": True, "to": 5, "step": 1})
        with self.assertRaises(Unfit):
            axis.put(["axiom F", "svg"], 5)


class Grids(unittest.TestCase):
    def test_the_second_axis_goes_down(self) -> None:
        lines = ["axiom F(1)", "depth 0"]
        cells = cells_of(lines, [axis_of_word("1.1=1..2"), axis_of_word("depth=0..1")])
        self.assertEqual([cell.lines for cell in cells], [["axiom F(1)", "depth 0"], ["axiom F(2)", "depth 0"], ["axiom F(1)", "depth 1"],
                                                          ["axiom F(2)", "depth 1"]])
        self.assertEqual(cells[3].told, ["line 1: 2", "depth 1"])

    def test_a_page_is_told_the_lines_that_differ(self) -> None:
        lines = ["axiom F", "depth 0", "svg"]
        cell = cells_of(lines, [axis_of_word("depth=4..4")])[0]
        self.assertEqual(told_of(cell, lines), {"told": ["depth 4"], "first": 1, "removed": 1, "lines": ["depth 4"]})
