"""Trials without a page: a session that follows a script by its changed lines means what one from its beginning means."""

from __future__ import annotations

import os
import random
from collections.abc import Sequence
from typing import Any

from programs import TOP
from session import BY_ITSELF, Session, commands_before_end, key_of
from trial import Trial


def changed_lines(choice: random.Random, lines: list[str], others: Sequence[str]) -> list[str]:
    """A script with one of its lines changed, gone, new or elsewhere."""
    lines = list(lines)
    at = choice.randrange(len(lines)) if lines else 0
    deed = choice.randrange(6)
    if deed == 0 and lines:
        del lines[at]
    elif deed == 1:
        lines.insert(choice.randrange(len(lines) + 1), choice.choice(others))
    elif deed == 2 and lines:
        lines.insert(choice.randrange(len(lines)), lines.pop(at))
    elif deed == 3 and lines:
        lines[at] = lines[at][:choice.randrange(len(lines[at]) + 1)]
    elif lines:
        sign = choice.choice("F+-AB[]()12345 ")
        place = choice.randrange(len(lines[at]) + 1)
        lines[at] = lines[at][:place] + sign + lines[at][place + choice.randrange(2):]
    return lines


def following(trial: Trial) -> None:
    """Scripts that are followed by their changed lines mean what they mean from their beginning (without a page)."""
    choice = random.Random(1)
    scripts = {}
    for name in os.listdir(os.path.join(TOP, "examples")):
        if name.endswith(".lsys"):
            with open(os.path.join(TOP, "examples", name)) as file:
                scripts[name] = [line for line in file.read().split("\n") if line]
    others = sorted({line for lines in scripts.values() for line in lines})
    followed, differing, edited = 0, [], 0
    for name in sorted(scripts):
        session, lines, before = Session([trial.program]), scripts[name], None
        for _ in range(12):
            commands = [line for _, line in commands_before_end([line.encode() for line in lines])]
            edited += session.follow(commands) == "edited"
            fresh = Session([trial.program])
            fresh.follow(commands)
            followed += 1
            if not is_same(session, fresh):
                differing.append((name, before, lines, session.replies, fresh.replies))
            fresh.close()
            before, lines = lines, changed_lines(choice, lines, others)
        session.close()
    trial.told("of %d scripts %d were followed by edits, and all mean the same" % (followed, edited), not differing and edited > followed / 3,
               differing[:1])


def coming_back(trial: Trial) -> None:
    """A wrong line that left the script and comes back, as by an undo, is told again (without a page)."""
    session = Session([trial.program])
    replies: list[Any] = []
    first, second = ([b"axiom F", b"depth %d" % depth, line] for depth, line in ((2, b"prodution a"), (3, b"prodution b")))
    try:
        for commands in (first, second, first, second):
            session.follow(commands)
            replies.append(session.replies)
    except KeyError as error:
        replies.append(repr(error))
    session.close()
    trial.told("its reply is the one that it had", replies == [["ok 0/0", "ok 0/0", "refused syntax token 1"]] * 4, replies)


def is_same(session: Session, fresh: Session) -> bool:
    """Whether two sessions refuse the same lines and, where a line isn't wrong by itself, have the same levels and pictures."""
    refused = [[reply for reply in each.replies if reply.startswith("refused ")] for each in (session, fresh)]
    wrong = [reply for reply in refused[1] if reply.startswith(BY_ITSELF)]
    if wrong:
        return [reply for reply in refused[0] if reply.startswith(BY_ITSELF)] == wrong
    shown = [[each.at_work().ask(line) for line in (b"show", b"string", b"segments", b"bounds")] for each in (session, fresh)]
    return refused[0] == refused[1] and shown[0] == shown[1]


def tables(trial: Trial) -> None:
    """The edits that lists of tables, lineages and versions need, asked of a stand-in for the program (without a page)."""
    session = Taking([trial.program])
    old = [b"version 2", b"axiom A", b"production winter w: A => A", b"consider winter: A", b"lineage names", b"depth 3"]
    for line in old:
        session.ask_in_turn(line)
    session.commands = old
    expected = [("a list becomes another one", old[:3] + [b"ignoring winter: B"] + old[4:], [b"ignoring winter: B"]),
                ("a list that is gone is taken away", old[:3] + old[4:], [b"common winter"]),
                ("it goes before the rule that it needs", old[:2] + old[4:], [b"common winter", b"drop w"]),
                ("a lineage goes back", old[:4] + old[5:], [b"lineage places"]), ("a version never does", old[1:], None),
                ("no version below another one", [b"axiom A", b"version 2"], None),
                ("a list before its table's rule", [old[0], old[3], old[1], old[2], *old[4:]], None)]
    for what, commands, edits in expected:
        found = session.changes(commands)
        trial.told(what, found == edits, found)


class Taking(Session):
    """A session that takes each line, without a program."""

    def ask(self, line: bytes) -> str:
        key = key_of(line)
        assert key is not None
        self.told[key], self.tried[key], self.held[key] = "ok 0/0", line, line
        return "ok 0/0"


TRIALS = [following, coming_back, tables]
