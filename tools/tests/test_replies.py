"""Replies of the program, lines of a script, and what is told of a refusal."""

from __future__ import annotations

import unittest

from replies import Lines, caret_below, caret_inside, column_of, commands_of, is_command, lines_of, refusal, reply_from

SHOWN = b"version 2\nlattice square\naxiom F\nproduction p: F => FF\ndepth 3\n"
# What a program writes, and how many lines of it are the first reply.
WRITTEN = [
    (b"ok 3/4\nok 0/4\n", 1),
    (b"refused syntax token 3\nok 0/0\n", 1),
    (b"segments 2\n0 0 0 0 1 0 1\n0 1 0 1 1 0 1\nok 0/0\n", 3),
    (b"segments 0\nok 0/0\n", 1),
    (b"<svg xmlns>\n<line/>\n</svg>\nsegments 0\n", 3),
    (SHOWN + b"ok 0/0\n", 5),
    (SHOWN.partition(b"\n")[2] + b"ok 0/0\n", 4),
    (b"growth 3\nA 2\nF_ab 1\n+ 7\nrefused syntax token 1\n", 4),
    (b"growth 0\nok 0/0\n", 1),
    (b"0 1 0\nok 0/0\n", 1),
]
COLUMNS = [
    (b"refused syntax byte 7", 7), (b"refused syntax token 12\n", 12), (b"refused syntax deep 3\n", 3), (b"refused name 9\n", 9),
    (b"refused duplicate 4\n", 4), (b"refused mixed 1\n", 1), (b"refused label 6\n", 6), (b"refused table 10\n", 10), (b"refused level 8\n", 8),
    (b"refused many 100\n", 100), (b"refused place 4\n", 4), (b"refused syntax long\n", None), (b"refused limit level 3\n", None),
    (b"refused memory\n", None), (b"ok 0/0\n", None),
]
COMMANDS = [
    (b"axiom F", True), (b"quit", True), (b"", False), (b" \t ", False), (b"; a comment", False), (b" ; no comment", True),
    (b";" + b"x" * 65535, False), (b";" + b"x" * 65536, True),
]


class Replies(unittest.TestCase):
    def test_a_reply_ends_where_its_first_line_says(self) -> None:
        for written, many in WRITTEN:
            with self.subTest(written=written):
                lines = Lines(iter([*written.splitlines(True), b"", b""]).__next__)
                self.assertEqual(list(reply_from(lines)), written.splitlines(True)[:many])
                self.assertEqual(lines.next(), written.splitlines(True)[many])

    def test_a_line_is_looked_at_before_it_is_taken(self) -> None:
        lines = Lines(iter([b"one\n", b"two\n"]).__next__)
        self.assertEqual([lines.peek(), lines.peek(), lines.next(), lines.next()], [b"one\n", b"one\n", b"one\n", b"two\n"])

    def test_the_column_that_a_refusal_names(self) -> None:
        for reply, column in COLUMNS:
            with self.subTest(reply=reply):
                self.assertEqual(column_of(reply), column)


class Scripts(unittest.TestCase):
    def test_lines_end_by_a_line_feed_and_perhaps_a_return_before_it(self) -> None:
        self.assertEqual(lines_of(b"axiom F\r\ndepth 1\n\r"), [b"axiom F", b"depth 1", b""])

    def test_which_lines_have_a_reply(self) -> None:
        for line, has_reply in COMMANDS:
            with self.subTest(line=line[:20], length=len(line)):
                self.assertIs(is_command(line), has_reply)

    def test_commands_have_the_numbers_of_their_lines_and_end_at_quit(self) -> None:
        script = b"; a plant\naxiom F\r\n\n \t\ndepth 1\n quit\nsvg\n"
        self.assertEqual(list(commands_of(script)), [(2, b"axiom F"), (5, b"depth 1")])


class Refusals(unittest.TestCase):
    def test_a_caret_stands_below_its_column(self) -> None:
        self.assertEqual(caret_below(b"axiom $", 7), ["axiom $", "      ^"])
        self.assertEqual(caret_below(b"depth\t\xe9", None), ["depth ?"])

    def test_a_long_line_is_cut_around_the_column(self) -> None:
        shown, caret = caret_below(b"F" * 199 + b"$" + b"G" * 100, 200)
        self.assertEqual(shown, ".. " + "F" * 50 + "$" + "G" * 49 + " ..")
        self.assertEqual(shown[len(caret) - 1], "$")

    def test_a_caret_within_the_line(self) -> None:
        self.assertEqual(caret_inside(b"axiom $", 7), ["axiom \u2038$"])

    def test_what_is_told(self) -> None:
        told = refusal(2, b"axiom $", b"refused syntax byte 7\n", meaning="no sign of the language")
        self.assertEqual(told, "line 2: refused syntax byte 7: no sign of the language\n    axiom $\n          ^")
        self.assertEqual(refusal(9, b"undo", b"refused undo\n"), "line 9: refused undo\n    undo")
