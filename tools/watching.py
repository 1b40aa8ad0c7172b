"""What the page of `tools/look` asks for watching growth and comparing: which module drew a segment, sheets of variants, films of the
levels, and what differs between two texts."""

from __future__ import annotations

import base64
import difflib
import os
import re
import threading
from collections.abc import Sequence
from typing import Any

from desk import Desk, Wrong
from film import MOST_LINES, Unmade, gif_of, single_of, svg_of
from formats import Unfit
from lineage import Lineage, Untold
from sheets import Sheet, axis_of, told_of

KINDS = {"svg": "image/svg+xml", "html": "text/html; charset=utf-8"}
LONGEST_WAIT = 20
# A longer text is compared by its first and its last lines alone.
MOST_COMPARED = 4000
MOST_FRAMES = 300


class Watching:
    """Answers what one desk's pages ask. `PLACES` are asked by GET, `DEEDS` by POST."""
    PLACES = ("module", "sheet", "film")
    DEEDS = ("/sheet", "/differ", "/gif")

    def __init__(self, desk: Desk) -> None:
        self.desk, self.lock = desk, threading.Lock()
        self.lineage: Lineage | None = None
        self.system: list[str] = []
        self.sheet: Sheet | None = None
        self.number = 0

    def get(self, answer: Any, place: str, name: str) -> None:
        if place == "module":
            answer.send_data(self.module(answer.number("text"), answer.number("level"), answer.number("segment")))
        elif place == "sheet":
            answer.send(200, "text/plain; charset=utf-8", self.cell(answer.number("sheet"), answer.number("cell")))
        else:
            body, title = self.film(name, answer.number("text"), min(60000, max(20, answer.number("pace") or 400)))
            as_file = "attachment; filename=\"%s\"" % re.sub(r"[^\w.-]", "_", title, flags=re.A)
            answer.send(200, KINDS[name], body, [("Content-Disposition", as_file)])

    def post(self, path: str, asked: dict[str, Any]) -> dict[str, Any]:
        return {"/sheet": self.begin_sheet, "/differ": self.differ, "/gif": self.gif}[path](asked)

    def module(self, text: int | None, level: int | None, segment: int | None) -> dict[str, Any]:
        """What is told of the module that drew a segment of a level."""
        desk = self.desk
        with desk.changed:
            desk.has_text(text)
            reply, depth, words = desk.segments(level), desk.session.depth(), desk.session.words
            shown = desk.from_program(lambda: desk.session.at_work().ask(b"show")).rstrip("\n").split("\n")
        count = int(reply.split("\n", 1)[0].split()[1]) if reply.startswith("segments ") else 0
        if segment is None or not 0 <= segment < count:
            raise Wrong("there is no such line in the picture", 404)
        with self.lock:
            try:
                return self.of_system(shown, words).module_of(depth if level is None else min(level, depth), segment, count, depth)
            except Untold as untold:
                return {"untold": str(untold)}

    def of_system(self, shown: list[str], words: Sequence[str]) -> Lineage:
        """The lineage of a system, which is kept until another one is asked for."""
        system = [line for line in shown if not line.startswith("depth ")]
        if self.lineage is None or system != self.system:
            self.close_lineage()
            self.lineage, self.system = Lineage(words, shown), system
        return self.lineage

    def close_lineage(self) -> None:
        if self.lineage:
            self.lineage.close()
        self.lineage, self.system = None, []

    def begin_sheet(self, asked: dict[str, Any]) -> dict[str, Any]:
        """Begins a sheet of the script as it is now, and ends the one before."""
        with self.desk.changed:
            self.desk.has_text(asked["text"])
            lines, words = list(self.desk.script.lines), list(self.desk.session.words)
        with self.lock:
            if self.sheet:
                self.sheet.stop()
                self.sheet = None
            if not asked["axes"]:
                return {"sheet": 0, "columns": 0, "cells": []}
            try:
                sheet = self.sheet = Sheet(words, lines, [axis_of(axis) for axis in asked["axes"]])
            except Unfit as unfit:
                raise Wrong(str(unfit), 400) from None
            self.number += 1
            return {"sheet": self.number, "columns": sheet.columns, "cells": [told_of(cell, lines) for cell in sheet.cells]}

    def cell(self, number: int | None, place: int | None) -> bytes:
        """A cell's picture once it is drawn: a line with lattice, level, counts and whether it is done, and after it the program's reply."""
        with self.lock:
            if number != self.number or not self.sheet or place is None or not 0 <= place < len(self.sheet.cells):
                raise Wrong("there is no such sheet any more", 404)
            cell = self.sheet.cells[place]
        done = cell.done.wait(LONGEST_WAIT)
        head = "%s %d %d %d %s\n" % (cell.lattice, cell.level, cell.counts[0], cell.counts[1], "done" if done else "waits")
        return (head + (cell.reply if cell.has_picture() else (cell.refused or "no picture") + "\n")).encode("latin-1", "replace")

    def levels(self) -> list[str]:
        """The pictures of all levels, as the program lists them."""
        desk, found, lines = self.desk, [], 0
        for level in range(desk.session.depth() + 1):
            reply = desk.segments(level)
            if not reply.startswith("segments "):
                raise Wrong("level %d has no picture: %s" % (level, reply.rstrip("\n")))
            lines += reply.count("\n") - 1
            if lines > MOST_LINES:
                raise Wrong("the levels have together more than {:,} lines".format(MOST_LINES))
            found.append(reply)
        return found

    def film(self, kind: str, text: int | None, pace: int) -> tuple[bytes, str]:
        """All levels as one file, with its name."""
        desk = self.desk
        if kind not in KINDS:
            raise Wrong("there is no such film", 404)
        with desk.changed:
            desk.has_text(text)
            levels, lattice, script = self.levels(), desk.session.lattice(), "\n".join(desk.script.lines)
            state = desk.state(text)
        stem = os.path.splitext(desk.script.name)[0] or "film"
        if kind == "svg":
            return "".join(line + "\n" for line in svg_of(levels, lattice, pace / 1000, stem)).encode(), stem + "_levels.svg"
        replies = [[place + 1, reply] for place, reply in state["replies"]]
        return single_of(stem, script, replies, levels, lattice, pace).encode("utf-8", "replace"), stem + ".html"

    def gif(self, asked: dict[str, Any]) -> dict[str, Any]:
        """A GIF of the frames that a page drew."""
        frames = [base64.b64decode(frame, validate=True) for frame in asked["frames"]]
        if not 1 <= len(frames) <= MOST_FRAMES or not all(frame.startswith(b"\x89PNG\r\n\x1a\n") for frame in frames):
            raise Wrong("a film has 1 to %d frames, each a PNG" % MOST_FRAMES, 400)
        try:
            return {"gif": base64.b64encode(gif_of(frames, min(60, max(0.02, asked["pace"] / 1000)))).decode()}
        except Unmade as unmade:
            raise Wrong(str(unmade), 501) from None

    def differ(self, asked: dict[str, Any]) -> dict[str, Any]:
        """What differs between two texts: their lines in order, each with what becomes of it: ' ' stays, '-' went, '+' came."""
        first, second = asked["first"], asked["second"]
        if not all(isinstance(line, str) for line in first + second):
            raise Wrong("texts are lines", 400)
        if len(first) + len(second) > MOST_COMPARED:
            raise Wrong("texts of more than {:,} lines together are not compared line by line".format(MOST_COMPARED), 413)
        told = []
        for deed, a, b, c, d in difflib.SequenceMatcher(None, first, second, autojunk=False).get_opcodes():
            if deed == "equal":
                told += [[" ", a + place + 1, c + place + 1, line] for place, line in enumerate(first[a:b])]
            else:
                told += [["-", a + place + 1, 0, line] for place, line in enumerate(first[a:b])]
                told += [["+", 0, c + place + 1, line] for place, line in enumerate(second[c:d])]
        return {"lines": told}

    def stop(self) -> None:
        """Ends what was begun here."""
        with self.lock:
            if self.sheet:
                self.sheet.stop()
            self.close_lineage()
