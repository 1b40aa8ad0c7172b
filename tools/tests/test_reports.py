"""What tools read out of files and texts: gate records, parts of pages, packages, levels, and marks at the head of a file."""

from __future__ import annotations

import unittest

from dist import blocks_of, without_claims
from gate_record import edits_of, grown, minutes, sum_of, taken_in, told_by
from lineage import kept, symbols
from pages import table, with_part
from proved import plain, rows_of
from texts import of_mark, without_mark
from tubes import bend, direction, directions_of, ring_around
from unused import stood_on

RECORD = """times: 400 s on the clock; processor time of the prover proof 120 s
times:   120 s  lsys_io: proof
times:    31 s  lsys_io: must-fail edit last_line_lost
times:     9 s  lsys_io: must-fail edit last_line_lost
times:    15 s  lsys_io: ground of its edits
other words
"""
PAGE = "before\n<!-- minutes: written by tools/x -->\n\nold\n\n<!-- end -->\nafter\n"
KEPT: list[tuple[list[str], list[int]]] = [
    (["A", "%", "B"], [0]), (["A", "[", "F", "%", "G", "]", "B"], [0, 1, 2, 5, 6]), (["[", "%", "[", "A", "]", "]", "B"], [0, 5, 6]), ([], []),
    (["A", "[", "%", "]", "%", "B"], [0, 1, 3]),
]
ROWS = """### `lsys_io`: lines

| What is promised | Clause | File |
| --- | --- | --- |
| a line is read | `next` `line` | `src/lines.rt` |
| two cells | `next` |
## Another part
| no row | `x` | `y` |
"""


class Records(unittest.TestCase):
    def test_steps_of_a_record(self) -> None:
        taken = taken_in(RECORD)
        self.assertEqual(dict(taken), {("lsys_io", "proof", ""): 120, ("lsys_io", "must-fail edit", "last_line_lost"): 40,
                                       ("lsys_io", "ground of its edits", ""): 15})
        self.assertEqual(sum_of(taken, "lsys_io", "must-fail edit"), 40)

    def test_minutes(self) -> None:
        self.assertEqual([minutes(0), minutes(90), minutes(3600)], ["", "1.5", "60.0"])

    def test_a_crate_that_grew(self) -> None:
        told = told_by("| crate | together |\n| `lsys_io` | 2.0 |  | 1.9 (5) | 5.0 |\n| `lsys_cli` | 0.4 |  | 1.0 |\n")
        self.assertEqual(told, {"lsys_io": 300, "lsys_cli": 60})
        whole = {("lsys_io", "proof", ""): 300.0, **{("lsys_io", "must-fail edit", edit): 10.0 for edit in edits_of("lsys_io")}}
        self.assertEqual(grown(whole, told), ["times: lsys_io grew: 5.8 minutes, and docs/GATE.md tells 5.0"])
        self.assertEqual(grown({**whole, ("lsys_io", "proof", ""): 275.0}, told), [])
        self.assertEqual(grown({("lsys_io", "proof", ""): 900.0}, told), [])


class Pages(unittest.TestCase):
    def test_a_part_between_its_marks(self) -> None:
        page = with_part(PAGE, "minutes", "tools/x", "\nnew\n")
        self.assertEqual(page, PAGE.replace("old", "new"))
        self.assertIsNone(with_part(PAGE, "hours", "tools/x", "new"))

    def test_a_table(self) -> None:
        self.assertEqual(table(["a", "b"], [[1, "x"]]), "| a | b |\n| --- | --- |\n| 1 | x |")

    def test_rows_of_what_is_proved(self) -> None:
        rows, wrong = rows_of(ROWS)
        self.assertEqual([tuple(row) for row in rows], [(5, "lsys_io", "a line is read", "`next` `line`", "`src/lines.rt`")])
        self.assertEqual(wrong, ["line 6: a row has a promise, a clause and a file"])

    def test_words_of_an_impl(self) -> None:
        self.assertEqual(plain("<K: Sink, L<V>> Writer<K> for Buffered<L>"), ["Writer", "for", "Buffered"])


class Packages(unittest.TestCase):
    def test_parts_that_speak_of_proofs_are_left_out(self) -> None:
        text = "# lsys\n\nIt is proved.\n\nIt draws.\n\n- proved item\n- unproved item\n\n## What is proved\n\nAll.\n\n## Building\n\nBy make.\n"
        self.assertEqual(without_claims(text), "# lsys\n\nIt draws.\n\n- unproved item\n\n## Building\n\nBy make.\n")

    def test_blocks(self) -> None:
        self.assertEqual(blocks_of("a\n\nb\n- c\n- d\n"), ["a\n", "\nb\n", "- c\n", "- d\n"])


class Levels(unittest.TestCase):
    def test_symbols_with_their_parameters(self) -> None:
        self.assertEqual(symbols("A(1,(2+3))[F_a]%+"), [("A", "(1,(2+3))"), ("[", ""), ("F_a", ""), ("]", ""), ("%", ""), ("+", "")])

    def test_a_cut_takes_the_rest_of_its_branch(self) -> None:
        for names, places in KEPT:
            with self.subTest(names=names):
                self.assertEqual(kept(names), places)


class Tubes(unittest.TestCase):
    def test_directions(self) -> None:
        self.assertEqual(direction((0.0, 0.0, 2.0)), (0, 0, 1))
        self.assertIsNone(direction((0.0, 0.0, 0.0)))
        points = [(0.0, 0.0, 0.0), (1.0, 0.0, 0.0), (1.0, 0.0, 0.0), (1.0, 3.0, 0.0)]
        self.assertEqual(directions_of(points), [(1, 0, 0), (1, 0, 0), (0, 1, 0)])

    def test_a_ring_is_around_its_direction(self) -> None:
        ring = ring_around((0.0, 1.0, 0.0))
        self.assertEqual(len(ring), 8)
        for x, y, z in ring:
            self.assertAlmostEqual(y, 0)
            self.assertAlmostEqual(x * x + z * z, 1)

    def test_a_bend_is_cut_by_the_plane_between_its_directions(self) -> None:
        cut, _ = bend(ring_around((1.0, 0.0, 0.0)), (1.0, 0.0, 0.0), (0.0, 1.0, 0.0))
        # That plane has the places whose way along both directions is opposite.
        for x, y, _ in cut:
            self.assertAlmostEqual(x, -y)


class Files(unittest.TestCase):
    def test_a_mark_at_the_head(self) -> None:
        self.assertEqual(without_mark(b"\xef\xbb\xbfaxiom F\n"), (b"axiom F\n", True))
        self.assertEqual(without_mark(b"axiom F\n"), (b"axiom F\n", False))
        told: list[str] = []
        self.assertEqual(of_mark(b"\xff\xfea\0", "x.lsys", told.append), b"\xff\xfea\0")
        self.assertEqual(told, ["x.lsys is written in UTF-16, two bytes a sign: save it as UTF-8"])

    def test_what_a_crate_stands_on(self) -> None:
        self.assertEqual(stood_on({"a": ["b", "c"], "b": ["d"], "e": ["a"]}, ["a"]), {"a", "b", "c", "d"})
