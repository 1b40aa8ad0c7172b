"""What lines are about, which edits bring a session to a changed script, and a running program that is asked."""

from __future__ import annotations

import unittest
from typing import Any

from session import Ended, Program, Session, are_in_order, as_reply, commands_before_end, key_of, opening_of
from tests.standing_in import WithFolder

KEYS: list[tuple[bytes, Any]] = [
    (b"axiom F+F", ("axiom", None)), (b"depth 3", ("depth", None)), (b"seed 7", ("seed", None)),
    (b"production p: A => B", ("production", "p")), (b"production winter p_2: A => B", ("production", "p_2")), (b"hom h: A => F", ("hom", "h")),
    (b"ignoring winter: A", ("own", "winter")), (b"consider main: AB", ("own", "main")), (b"common winter", ("own", "winter")),
    (b"string 3", ("string", None)), (b"svg", ("svg", None)), (b"growth 9", ("growth", None)), (b"version 2", ("version", None)),
    (b"undo", None), (b" redo\t", None), (b"drop p", None), (b"dept 3", ("wrong", b"dept 3")), (b"x" * 65537, ("wrong", b"x" * 65537)),
]
OPENINGS = [
    (("axiom", None), b"axiom"), (("depth", None), b"depth 0"), (("seed", None), b"seed 0"), (("schedule", None), b"schedule main"),
    (("lattice", None), b"lattice square"), (("lineage", None), b"lineage places"), (("production", "p"), b"drop p"), (("hom", "h"), b"drop h"),
    (("own", "winter"), b"common winter"), (("version", None), None),
]
# Scripts whose lines mean the same as the last edit of each thing, and some that don't.
IN_ORDER = [
    ([b"axiom A", b"production a: A => B", b"depth 3", b"svg"], True),
    ([b"version 2", b"axiom A", b"production winter w: A => A", b"schedule winter", b"depth 2", b"lattice cubic", b"string"], True),
    ([b"axiom A", b"svg", b"depth 3"], False),
    ([b"depth 3", b"axiom A"], False),
    ([b"axiom A", b"axiom B"], False),
    ([b"production p: A => B", b"hom p: A => F"], False),
    ([b"schedule winter", b"production winter w: A => A"], False),
    ([b"axiom A", b"version 2"], False),
]
OLD = [b"version 2", b"axiom A", b"production winter w: A => A", b"consider winter: A", b"lineage names", b"depth 3"]
# What a script of those lines becomes, and the edits that make it so; none where it has to be run from its beginning.
CHANGES: list[tuple[list[bytes], list[bytes] | None]] = [
    (OLD, []),
    ([*OLD[:-1], b"depth 4"], [b"depth 4"]),
    (OLD[:-1], [b"depth 0"]),
    ([*OLD[:3], b"ignoring winter: B", *OLD[4:]], [b"ignoring winter: B"]),
    (OLD[:3] + OLD[4:], [b"common winter"]),
    (OLD[:2] + OLD[4:], [b"common winter", b"drop w"]),
    (OLD[:4] + OLD[5:], [b"lineage places"]),
    ([*OLD[:3], b"production v: A => B", *OLD[3:]], [b"production v: A => B"]),
    (OLD[1:], None),
    ([OLD[0], b"production v: A => B", *OLD[1:]], None),
    ([*OLD, b"undo"], None),
]
SHOWN = [
    ("ok 3/4\n", "ok 3/4"), ("segments 2\n0 0 0 0 1 0 1\n0 1 0 1 1 0 1\n", "segments 2"), ("<svg xmlns>\n</svg>\n", "<svg xmlns>"),
    ("A" * 2001 + "\n", "A" * 2000 + " .. (2001 bytes in all)"),
]


class Taking(Session):
    """A session that takes each line, without a program."""

    def ask(self, line: bytes) -> str:
        key = key_of(line)
        assert key is not None
        self.told[key], self.tried[key], self.held[key] = "ok 0/0", line, line
        return "ok 0/0"


class Lines(unittest.TestCase):
    def test_what_a_line_is_about(self) -> None:
        for line, key in KEYS:
            with self.subTest(line=line[:30]):
                self.assertEqual(key_of(line), key)

    def test_what_takes_it_back(self) -> None:
        for key, line in OPENINGS:
            with self.subTest(key=key):
                self.assertEqual(opening_of(key), line)

    def test_which_scripts_mean_the_same_by_their_last_edits(self) -> None:
        for lines, is_so in IN_ORDER:
            with self.subTest(lines=lines):
                keys = [key for key in map(key_of, lines) if key is not None]
                self.assertIs(are_in_order(keys), is_so)

    def test_commands_end_at_quit(self) -> None:
        lines = [b"; note", b"axiom F", b"", b"quit", b"svg"]
        self.assertEqual(commands_before_end(lines), [(1, b"axiom F")])

    def test_replies_beside_their_lines_are_short(self) -> None:
        for reply, shown in SHOWN:
            with self.subTest(reply=reply[:20]):
                self.assertEqual(as_reply(reply), shown)


class Changes(unittest.TestCase):
    def test_the_edits_between_two_scripts(self) -> None:
        for commands, edits in CHANGES:
            with self.subTest(commands=commands):
                session = Taking(["none"])
                for line in OLD:
                    session.ask_in_turn(line)
                session.commands = OLD
                self.assertEqual(session.changes(commands), edits)


class Asked(WithFolder):
    def test_a_growth_is_told_to_its_end(self) -> None:
        program = Program(self.answering({b"growth 2": b"growth 3\nA 2\nB 1\n", b"_": b"refused syntax token 1\n", b"string": b"ABA\n"}))
        self.addCleanup(program.close)
        self.assertEqual([program.ask(b"growth 2"), program.ask(b"string")], ["growth 3\nA 2\nB 1\n", "ABA\n"])

    def test_a_program_that_ended_is_noticed(self) -> None:
        program = Program(self.answering({}))
        program.running.kill()
        program.running.wait()
        self.addCleanup(program.close)
        with self.assertRaises(Ended):
            program.ask(b"depth 1")

    def test_a_changed_line_is_sent_alone(self) -> None:
        session = Session(self.answering({b"string": b"AB\n", b"depth 9": b"refused limit level 9\n"}))
        self.addCleanup(session.close)
        first = [b"axiom A", b"production a: A => AB", b"depth 1", b"string"]
        self.assertEqual(session.follow(first), "begun anew")
        self.assertEqual(session.replies, ["ok 0/0", "ok 0/0", "ok 0/0", "AB"])
        self.assertEqual(session.follow([*first[:1], b"production a: A => BA", *first[2:]]), "edited")
        self.assertEqual(session.sent, [("production a: A => BA", "ok 0/0")])
        self.assertEqual((session.depth(), session.lattice()), (1, "square"))

    def test_undo_goes_back_to_what_was_held(self) -> None:
        session = Session(self.answering({}))
        self.addCleanup(session.close)
        session.follow([b"depth 1", b"depth 2", b"undo"])
        self.assertEqual(session.depth(), 1)
        session.follow([b"depth 1", b"depth 2", b"undo", b"redo"])
        self.assertEqual(session.depth(), 2)
