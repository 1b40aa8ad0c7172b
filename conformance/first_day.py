"""Checks what is told of refused lines: the table conformance/first_day.jsonl, on the terminal and on the page's server alike.

usage: conformance/hints [--program PATH]

A row of the table is a line as people write it on their first day, what has to be told of it, the line that was meant or null, and the
lines before it where there are some. Besides, the machine that the tools follow (tools/line_machine.json) is what the definitions give,
and stops where the program refuses, on the lines of all cases and on such lines with a sign changed; each refusal of the cases is told in
words; and each line that is offered is one that the program doesn't refuse for its syntax.
"""

from __future__ import annotations

import json
import os
import random
import re
import subprocess
import tempfile
from collections.abc import Iterator
from typing import Any

from asking import Looking
from hints import hint
from machine import Stop
from programs import TOP, program_of
from replies import Lines, commands_of, reply_from
from scripts_in import scripts_in
from telling import Words

TABLE = os.path.join(TOP, "conformance", "first_day.jsonl")
LEAST_ROWS = 80
KEPT, CHANGED = 1000, 800
SIGNS = b"F+-[]()<>=:@,%&|^!*1 x;$."
DESK = (b"undo", b"redo", b"bounds", b"at", b"growth", b"quit")
# The limit is set in one way on a terminal and in another one on the page.
RAISED = [("`--limit N` raises it, N from 1", "the field Limit raises it, from 1")]


class Hints:
    """How many of the tries weren't as they should be."""

    def __init__(self, program: str) -> None:
        self.program, self.tried, self.failed = program, 0, 0
        with open(TABLE, encoding="utf-8") as file:
            self.rows = [json.loads(line) for line in file]

    def expect(self, what: str, is_right: object, seen: object) -> None:
        self.tried += 1
        if not is_right:
            self.failed += 1
            print("%s: NO, it shows %s" % (what, str(seen)[:600]))

    def replies(self, lines: list[bytes]) -> list[str]:
        """The first line of the reply to each of these lines."""
        ran = subprocess.run([self.program], input=b"\n".join(lines) + b"\n", stdout=subprocess.PIPE)
        written = iter(ran.stdout.splitlines(True))
        replies = Lines(lambda: next(written, b""))
        return [list(reply_from(replies))[0].decode("latin-1").rstrip("\n") for _ in lines]


def scripts_of(rows: list[dict[str, Any]]) -> list[tuple[list[str], list[dict[str, Any]]]]:
    """The rows by what stands before their lines: all without anything go into one script, since what is refused changes nothing."""
    plain = [row for row in rows if "before" not in row]
    return [([], plain)] + [(row["before"], [row]) for row in rows if "before" in row]


def on_terminal(hints: Hints, folder: str) -> None:
    """Each row by tools/run."""
    for before, rows in scripts_of(hints.rows):
        script = "\n".join(before + [row["line"] for row in rows]) + "\n"
        ran = subprocess.run([os.path.join(TOP, "tools", "run"), "-", "--program", hints.program], input=script.encode(), stdout=subprocess.DEVNULL,
                             stderr=subprocess.PIPE, cwd=folder)
        said = dict(re.findall(r"(?m)^; line (\d+): (refused .*)$", ran.stderr.decode("utf-8", "replace")))
        for number, row in enumerate(rows, len(before) + 1):
            wanted = row["told"] + (": " + row["meant"] if row["meant"] else "")
            seen = said.get(str(number), "nothing")
            hints.expect("on the terminal `%s`" % row["line"][:60], seen.endswith(": " + wanted), seen)


def on_page(hints: Hints, folder: str) -> None:
    """Each row as the page gets it."""
    for before, rows in scripts_of(hints.rows):
        path = os.path.join(folder, "page.lsys")
        for at in range(0, len(rows), 50):
            part = rows[at:at + 50]
            with open(path, "w", encoding="utf-8") as file:
                file.write("\n".join(before + [row["line"] for row in part]) + "\n")
            looking = Looking([os.path.join(TOP, "tools", "look"), path, "--program", hints.program, "--no-browser"], folder)
            state = json.loads(looking.get("/state?turn=0"))
            looking.end()
            told = {place: (words, meant) for place, words, meant in state["hints"]}
            for place, row in enumerate(part, len(before)):
                wanted = row["told"]
                for terminal, page in RAISED:
                    wanted = wanted.replace(terminal, page)
                hints.expect("on the page `%s`" % row["line"][:60], told.get(place) == (wanted, row["meant"]), told.get(place))


def offered(hints: Hints, _: str) -> None:
    """What is offered is taken, or refused for something else than its syntax."""
    meant = sorted({row["meant"] for row in hints.rows if row["meant"] and not row["meant"].startswith(";")})
    wrong = [(line, reply) for line, reply in zip(meant, hints.replies([line.encode() for line in meant])) if reply.startswith("refused syntax")]
    hints.expect("lines that are offered are lines", not wrong and len(meant) > 25, wrong)
    hints.expect("there are %d rows and more" % LEAST_ROWS, len(hints.rows) >= LEAST_ROWS, len(hints.rows))


def lines_of_cases() -> Iterator[bytes]:
    for folder in ("conformance/cases", "examples"):
        for path in scripts_in(os.path.join(TOP, folder)):
            with open(path, "rb") as file:
                for _, line in commands_of(file.read()):
                    yield line


def changed(choice: random.Random, line: bytes) -> bytes:
    """A line with a sign put, changed or gone, or with its end gone."""
    deed, place, sign = choice.randrange(4), choice.randrange(len(line) + 1), bytes([choice.choice(SIGNS)])
    return [line[:place] + line[place + 1:], line[:place] + sign + line[place:], line[:place] + sign + line[place + 1:], line[:place]][deed]


def stops(hints: Hints, _: str) -> None:
    """The machine stops where the program refuses a line."""
    choice = random.Random(7)
    lines = sorted({line for line in lines_of_cases() if len(line) < 200})
    asked = choice.sample(lines, KEPT) + [changed(choice, line) for line in choice.sample(lines, CHANGED)]
    asked = [line for line in asked if line.strip(b" \t") and not line.startswith(b";") and line.split()[0] not in DESK and b"\r" not in line]
    wrong = []
    for line, reply in zip(asked, hints.replies(asked)):
        stop = Stop(line)
        mine = ("refused syntax byte %d" % (stop.bad + 1) if stop.bad is not None else "" if stop.is_sentence()
                else "refused syntax token %d" % (stop.place() + 1))
        if not reply.startswith("refused syntax deep") and mine != (reply if reply.startswith("refused syntax") else ""):
            wrong.append((line, mine, reply))
    hints.expect("of %d lines the machine stops where the program does" % len(asked), not wrong, wrong[:3])
    ran = subprocess.run([os.path.join(TOP, "tools", "line_machine"), "--check"], stdout=subprocess.PIPE, text=True)
    hints.expect("the machine is what the definitions give", ran.returncode == 0, ran.stdout)


def all_told(hints: Hints, _: str) -> None:
    """Each refusal of the cases is told in words."""
    silent, seen = [], set()
    for path in scripts_in(os.path.join(TOP, "conformance", "cases")):
        with open(path, "rb") as file:
            lines = [line for _, line in commands_of(file.read())]
        taken = []
        for line, reply in zip(lines, hints.replies(lines) if lines else []):
            if reply.startswith("ok "):
                taken.append(line)
            elif reply.startswith("refused "):
                kind = " ".join(word for word in reply.split() if not word.isdigit())
                found = hint(line, reply, taken)
                seen.add(kind)
                silent += [] if found.told else [(os.path.basename(path), line[:60], reply)]
    hints.expect("each refusal is told in words", not silent and len(seen) > 20, silent[:5])


def main() -> int:
    parser = Words(__doc__)
    parser.add_argument("--program")
    hints = Hints(os.path.abspath(program_of(parser.parse_args().program)))
    with tempfile.TemporaryDirectory() as folder:
        for part in (offered, on_terminal, on_page, stops, all_told):
            part(hints, folder)
    print("hints: %d rows of the first day, %d tries, %d not as they should be" % (len(hints.rows), hints.tried, hints.failed))
    return 1 if hints.failed else 0
