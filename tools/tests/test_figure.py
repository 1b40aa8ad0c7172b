"""A picture's segments as runs, and where places of a lattice are drawn."""

from __future__ import annotations

import math
import unittest

from figure import PLANE, SPACE, Figure, Refused, asked, bounds_of, figure_in, figure_of, is_query, joined, number, path_of, plane_of
from tests.standing_in import WithFolder

# A corner of width 1, a line elsewhere, one of width 2, and one that goes on from the first corner's end.
SEGMENTS = [(0, 0, 0, 1, 0, 0, 1), (1, 0, 0, 1, 1, 0, 1), (5, 5, 0, 5, 6, 0, 1), (1, 1, 0, 0, 1, 0, 2), (1, 1, 0, 1, 2, 0, 1)]
RUNS = [(1, [(0, 0, 0), (1, 0, 0), (1, 1, 0), (1, 2, 0)]), (1, [(5, 5, 0), (5, 6, 0)]), (2, [(1, 1, 0), (0, 1, 0)])]
NUMBERS = [(1.0, "1"), (0.5, "0.5"), (-0.00001, "0"), (2.50001, "2.5"), (1 / 3, "0.3333"), (-2 / 3, "-0.6667"), (1200, "1200")]
# What a square sheet that is turned to the right by degrees makes of the place (1, 0), and of (0, 1).
TURNED = [(0, (1, 0), (0, 1)), (90, (0, -1), (1, 0)), (180, (-1, 0), (0, -1)), (-90, (0, 1), (-1, 0)), (60, (0.5, -0.866025), (0.866025, 0.5))]
QUERIES = [
    (b"svg", True), (b"string", True), (b"string 4", True), (b"at 7", True), (b"growth 12", True), (b"bounds", True), (b"segments", True),
    (b"string x", False), (b"svg 1", False), (b"depth 3", False), (b"at", False), (b"axiom svg", False),
]


class Runs(unittest.TestCase):
    def test_segments_that_go_on_are_joined(self) -> None:
        self.assertEqual(joined(SEGMENTS), RUNS)
        self.assertEqual(joined([]), [])

    def test_a_branch_is_a_run_of_its_own(self) -> None:
        stem, left, right = (0, 0, 0, 0, 1, 0, 1), (0, 1, 0, 0, 2, 0, 1), (0, 1, 0, 1, 2, 0, 1)
        self.assertEqual(joined([stem, left, right]), [(1, [(0, 0, 0), (0, 1, 0), (0, 2, 0)]), (1, [(0, 1, 0), (1, 2, 0)])])

    def test_a_figure_gives_its_segments_back(self) -> None:
        self.assertEqual(sorted(Figure("square", joined(SEGMENTS)).segments()), sorted(SEGMENTS))

    def test_a_reply_is_read(self) -> None:
        figure = figure_in("segments 2\n0 0 0 0 2 0 3\n0 2 0 -1 2 0 3\n", "square")
        self.assertEqual((figure.lattice, figure.runs), ("square", [(3, [(0, 0, 0), (0, 2, 0), (-1, 2, 0)])]))


class Places(unittest.TestCase):
    def near(self, found: tuple[float, ...], wanted: tuple[float, ...]) -> None:
        self.assertEqual(len(found), len(wanted))
        for one, other in zip(found, wanted):
            self.assertAlmostEqual(one, other, 5)

    def test_lattices_in_the_plane(self) -> None:
        self.near(PLANE["square"](3, -2, 0), (3, -2))
        self.near(PLANE["hexagonal"](0, 1, 0), (0.5, 0.866025))
        self.near(SPACE["hexagonal"](1, 1, 0), (1.5, 0.866025, 0))

    def test_axes_of_space_are_equally_long_and_120_degrees_apart(self) -> None:
        self.near(PLANE["cubic"](1, 0, 0), (0.866025, -0.5))
        self.near(PLANE["cubic"](0, 1, 0), (-0.866025, -0.5))
        self.near(PLANE["cubic"](0, 0, 1), (0, 1))
        put = plane_of("cubic", 45, math.degrees(math.atan(1 / math.sqrt(2))))
        for place in ((1, 0, 0), (0, 1, 0), (0, 0, 1)):
            self.near(put(*place), PLANE["cubic"](*place))

    def test_a_sheet_is_turned_to_the_right(self) -> None:
        for degrees, right, up in TURNED:
            with self.subTest(degrees=degrees):
                put = plane_of("square", degrees)
                self.near(put(1, 0, 0), right)
                self.near(put(0, 1, 0), up)

    def test_seen_from_the_side_what_is_up_is_up(self) -> None:
        put = plane_of("cubic", 0, 0)
        self.near(put(0, 0, 1), (0, math.sqrt(1.5)))
        self.near(put(0, 1, 0), (0, 0))


class Texts(unittest.TestCase):
    def test_numbers_are_short(self) -> None:
        for value, text in NUMBERS:
            with self.subTest(value=value):
                self.assertEqual(number(value), text)

    def test_paths_go_down_and_are_closed_where_they_end_at_their_begin(self) -> None:
        self.assertEqual(path_of([(0, 0), (1, 0), (1, 1)], 10), "M0,0 10,0 10,-10")
        self.assertEqual(path_of([(0, 0), (1, 0), (1, 1), (0, 0)], 10), "M0,0 10,0 10,-10Z")
        self.assertEqual(path_of([(0, 0), (1, 0), (0, 0)], 10), "M0,0 10,0Z")

    def test_the_box_has_the_origin_and_a_margin(self) -> None:
        figure = Figure("square", [(1, [(1, 0, 0), (2, 0, 0), (2, 1, 0)])])
        self.assertEqual(bounds_of(figure, 10, 5), (-5, -15, 30, 20))


class Asking(WithFolder):
    def test_which_lines_only_print(self) -> None:
        for line, prints in QUERIES:
            with self.subTest(line=line):
                self.assertIs(bool(is_query(line)), prints)

    def test_what_is_sent(self) -> None:
        sent, commands = asked(b"axiom F\nsvg\n; a note\ndepth 2\nstring 1\n", 1)
        self.assertEqual(sent, b"axiom F\ndepth 2\ndepth 1\nshow\nsegments\n")
        self.assertEqual(commands, [(1, b"axiom F"), (4, b"depth 2"), (0, b"depth 1")])

    def test_a_figure_of_a_program(self) -> None:
        program = self.program({b"show": b"lattice hexagonal\naxiom F\ndepth 0\n", b"segments": b"segments 1\n0 0 0 1 0 0 1\n"})
        figure = figure_of(program, b"lattice hexagonal\naxiom F\nsvg\n")
        self.assertEqual((figure.lattice, figure.runs), ("hexagonal", [(1, [(0, 0, 0), (1, 0, 0)])]))

    def test_a_refused_line_is_told(self) -> None:
        program = self.program({b"axiom $": b"refused syntax byte 7\n"})
        with self.assertRaises(Refused) as raised:
            figure_of(program, b"depth 1\naxiom $\n")
        self.assertEqual(str(raised.exception), "line 2: refused syntax byte 7\n    axiom $\n          ^")

    def test_no_picture_is_told(self) -> None:
        program = self.program({b"show": b"lattice square\ndepth 0\n", b"segments": b"refused far 2\n"})
        with self.assertRaises(Refused) as raised:
            figure_of(program, b"axiom F\n")
        self.assertEqual(str(raised.exception), "no picture: refused far 2")
