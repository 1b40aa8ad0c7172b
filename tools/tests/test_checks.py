"""What the checks of conformance/ compute themselves: curves, pictures that are read back, random scripts and models."""

from __future__ import annotations

import os
import sys
import unittest

from programs import TOP

sys.path += [os.path.join(TOP, "conformance"), os.path.join(TOP, "conformance", "forest")]
from curves import digits, dragon, hilbert, peano
from definitions import literal
from lists import Forest
from pictures import bounds_of
from readback import goes_around, goes_through, is_between
from readers import runs_of_dxf, runs_of_obj, svg_paths
from scripts import script, sum_of
from soak import kind_of, replies_in, smaller
from squares import branches, nested, rules

SVG = ("<svg xmlns=\"http://www.w3.org/2000/svg\"><path d=\"M0,0 10,-5Z\" stroke-width=\"2\"/>"
       "<path d=\"M1,2 3,4\" style=\"stroke-width:1\" transform=\"matrix(2,0,0,2,10,20)\"/></svg>")
DXF = ["0", "POLYLINE", "8", "WIDTH_3", "70", "1", "0", "VERTEX", "8", "WIDTH_3", "10", "0", "20", "0", "0", "VERTEX", "8", "WIDTH_3", "10", "1.5",
       "20", "2", "0", "SEQEND", "0", "LINE", "8", "WIDTH_1", "10", "1", "20", "2", "30", "3", "11", "4", "21", "5", "31", "6", "0", "EOF"]
OBJ = ["# a title", "v 0 0 0", "v 1 0 2", "g width_4", "l 1 2"]
KINDS = [("ok 3/4", "ok"), ("refused syntax token 12", "refused syntax token"), ("refused limit level 3", "refused limit level"),
         ("segments 9", "segments"), ("F+F", "other lines")]
LITERALS = [("", "([])"), ("ok 0/0\n", "((codes \"ok 0/0\\n\"))"), ("a\"\\", "((codes \"a\\\"\\\\\"))"),
            ("A\x01B", "((codes \"A\") ++ ((1 ∷ [])) ++ (codes \"B\"))")]


class Curves(unittest.TestCase):
    def test_digits(self) -> None:
        self.assertEqual([digits(11, 2, 4), digits(5, 3, 3), digits(0, 2, 0)], [[1, 0, 1, 1], [0, 1, 2], []])

    def test_a_dragon_of_four_lines(self) -> None:
        # Up, to the left, to the left, to the right.
        places = [(0, 0), (0, 1), (-1, 1), (-1, 0), (-2, 0)]
        self.assertEqual(dragon(2), list(zip(places, places[1:])))

    def test_curves_that_fill_a_square(self) -> None:
        for curve, depth, side in ((hilbert, 3, 8), (peano, 2, 9)):
            segments = curve(depth)
            places = {place for segment in segments for place in segment}
            self.assertEqual((len(segments), len(places)), (side * side - 1, side * side))
            self.assertTrue(all(abs(x - to_x) + abs(y - to_y) == 1 for (x, y), (to_x, to_y) in segments))
            self.assertEqual({max(values) - min(values) for values in zip(*places)}, {side - 1})

    def test_symbols_of_a_nested_axiom(self) -> None:
        self.assertEqual(nested(2)[1:], ([b"axiom [[A]]"], 45))

    def test_steps_past_branches_and_rules(self) -> None:
        self.assertEqual(branches(3), ([b"axiom [A][A][A]", b"production a: B < A => A"], [b"depth 3"], 9))
        self.assertEqual(rules(53).last[52], b"production r52: A(x,y) => A(x,y)")
        self.assertEqual(rules(53).many, 53)


class Files(unittest.TestCase):
    def test_paths_of_an_svg(self) -> None:
        self.assertEqual(list(svg_paths(SVG)), [(2, [(0, 0), (10, 5), (0, 0)]), (2, [(12, -24), (16, -28)])])

    def test_lines_of_a_dxf(self) -> None:
        self.assertEqual(list(runs_of_dxf(DXF)), [(3, [(0, 0, 0), (1.5, 2, 0), (0, 0, 0)]), (1, [(1, 2, 3), (4, 5, 6)])])

    def test_lines_of_an_obj(self) -> None:
        self.assertEqual(list(runs_of_obj(OBJ)), [(4, [(0, 0, 0), (1, 0, 2)])])

    def test_points_on_a_straight_part_may_be_left_out(self) -> None:
        line = [(0, 0), (1, 0), (2, 0), (2, 1)]
        self.assertTrue(goes_through([(0, 0), (2, 0), (2, 1)], line, 1e-6))
        self.assertFalse(goes_through([(0, 0), (2, 1)], line, 1e-6))
        self.assertFalse(goes_through([(0, 0), (2, 0)], line, 1e-6))
        self.assertTrue(is_between((1, 1e-7), (0, 0), (2, 0), 1e-6))
        self.assertFalse(is_between((3, 0), (0, 0), (2, 0), 1e-6))

    def test_a_closed_line_may_begin_anywhere(self) -> None:
        square: list[tuple[float, ...]] = [(0, 0), (1, 0), (1, 1), (0, 1), (0, 0)]
        self.assertTrue(goes_around([(1, 1), (1, 0), (0, 0), (0, 1), (1, 1)], square, 1e-6))
        self.assertFalse(goes_around([(1, 1), (0, 0), (1, 0), (0, 1), (1, 1)], square, 1e-6))

    def test_bounds_of_segments(self) -> None:
        self.assertEqual(bounds_of([[0, 0, 0, 2, 1, 0, 1], [2, 1, 0, -1, 1, 0, 1]]), ["-1 2 0 1 0 0", "-1 2 0 1 0 3"])


class Scripts(unittest.TestCase):
    def test_scripts_of_a_seed_are_the_same(self) -> None:
        self.assertEqual(script(1, 5), script(1, 5))
        self.assertNotEqual(script(1, 5), script(2, 5))

    def test_sums_of_so_many_tokens(self) -> None:
        self.assertEqual([sum_of(1), sum_of(4), sum_of(5)], ["1", "-1+1", "1+1+1"])

    def test_lines_are_dropped_as_long_as_two_programs_differ(self) -> None:
        self.assertEqual(smaller(lambda text: b"x" in text and b"y" in text, b"a\nx\nb\ny\nc\nd"), b"x\ny")

    def test_kinds_of_replies(self) -> None:
        for line, kind in KINDS:
            with self.subTest(line=line):
                self.assertEqual(kind_of(line), kind)
        self.assertEqual(replies_in(b"ok 0/0\nsegments 1\n0 0 0 0 1 0 1\nF\n"), [b"ok 0/0\n", b"segments 1\n0 0 0 0 1 0 1\n", b"F\n"])

    def test_bytes_as_a_term(self) -> None:
        for text, term in LITERALS:
            with self.subTest(text=text):
                self.assertEqual(literal(text), term)


class Model(unittest.TestCase):
    def test_a_forest_goes_back_to_its_rest(self) -> None:
        forest = Forest()
        first = forest.add(0, (0, 0), "A", 7)
        forest.nodes[0]["kids"] = [first]
        forest.answer(first)
        forest.commit()
        second = forest.add(0, (0, 1), "B", 8)
        forest.answer(second)
        self.assertEqual((sorted(forest.nodes), forest.live_runs), ([0, 1, 2], {0, 1}))
        forest.rollback()
        self.assertEqual((sorted(forest.nodes), forest.live_runs), ([0, 1], {0}))

    def test_what_is_not_reached_goes_at_a_commit(self) -> None:
        forest = Forest()
        names = [forest.add(0, (0, number), symbol, 0) for number, symbol in enumerate(("[", "A", "]", "B"))]
        forest.nodes[0]["kids"] = names[:3]
        forest.commit()
        self.assertEqual(sorted(forest.nodes), [0, 1, 2, 3])
        self.assertEqual(list(forest.levels()), [([1, 2, 3], {0: 2, 2: 0}), ([], {})])
