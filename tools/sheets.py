"""Variants of a script beside each other: for a number of one of its lines, for seeds, for depths, or for two of these as a grid. Each is drawn
by a program of its own, as many at once as there are processors: it is brought to the script first and to the variant then, so that
`M of T` tells how much of the variant was asked anew.
"""

from __future__ import annotations

import os
import re
import threading
from collections.abc import Iterator
from concurrent.futures import ThreadPoolExecutor
from typing import Any
from xml.sax.saxutils import escape

from desk import as_bytes, counts
from figure import PLANE, figure_in, number
from formats import PLACES, Unfit, Wish, box_of, paths
from replies import lines_of
from session import QUERIES, Ended, Session, commands_before_end

MOST_CELLS = 100
AXIS = re.compile(r"(seed|depth|(\d+)\.(\d+))=(\d+)\.\.(\d+)(?:/(\d+))?$")
AXIS_TOLD = "seed=1..9, depth=0..5, or 3.2=1..9/2 for the second number of line 3 from 1 to 9 by steps of 2"
WORD = re.compile(r"[ \t]*([A-Za-z]\w*)")
AFTER_COLON = ("production", "hom", "ignoring", "consider")
# The sizes of a cell of a sheet, and of what is written below its picture.
CELL, GAP, CAPTION, LINE = 200, 12, 40, 15


def word_of(line: str) -> str:
    found = None if line.startswith(";") else WORD.match(line)
    return found.group(1) if found else ""


def numbers_of(line: str) -> list[tuple[int, int]]:
    """The places of a line's numbers, each its begin and its end. After some words there are names, to which other digits belong."""
    if line.startswith(";"):
        return []
    word = word_of(line)
    names = line.index(word) + len(word) if word in ("axiom", "ignore") else line.find(":") + 1 if word in AFTER_COLON and ":" in line else len(line)
    found = re.finditer(r"[A-Za-z]\w*|\d+", line[:names])
    after = re.finditer(r"[A-Za-z](?:_[A-Za-z0-9]{1,6})?|\d+", line[names:])
    places = [match.span() for match in found if match.group()[0].isdigit()]
    return places + [(names + match.start(), names + match.end()) for match in after if match.group()[0].isdigit()]


def with_edit(lines: list[str], edit: str) -> list[str]:
    """The lines with an edit in the place of the last one of its word, or else before the queries at the end."""
    word = word_of(edit)
    place = max((place for place, line in enumerate(lines) if word_of(line) == word), default=None)
    if place is not None:
        return lines[:place] + [edit] + lines[place + 1:]
    end = len(lines)
    while end and (word_of(lines[end - 1]) in QUERIES or not lines[end - 1].strip()):
        end -= 1
    return lines[:end] + [edit] + lines[end:]


class Axis:
    """What varies: a seed, a depth, or number `place` of line `line`, both from 0; and its values."""

    def __init__(self, kind: str, values: list[int], line: int = 0, place: int = 0) -> None:
        self.kind, self.values, self.line, self.place = kind, values, line, place
        if not values:
            raise Unfit("from %s there is no way to the last value" % kind)

    def put(self, lines: list[str], value: int) -> list[str]:
        """The lines with this value."""
        if self.kind != "number":
            return with_edit(lines, "%s %d" % (self.kind, value))
        numbers = numbers_of(lines[self.line]) if self.line < len(lines) else []
        if self.place >= len(numbers):
            raise Unfit("line %d has no number %d" % (self.line + 1, self.place + 1))
        begin, end = numbers[self.place]
        return lines[:self.line] + [lines[self.line][:begin] + str(value) + lines[self.line][end:]] + lines[self.line + 1:]

    def told(self, value: int) -> str:
        return "%s %d" % (self.kind if self.kind != "number" else "line %d:" % (self.line + 1), value)


def steps(first: int, last: int, step: int) -> list[int]:
    """The values from the first to the last one."""
    if step < 1 or last < first:
        raise Unfit("values go up from the first to the last one, by a step of at least 1")
    if (last - first) // step >= MOST_CELLS:
        raise Unfit("a sheet has at most %d pictures" % MOST_CELLS)
    return list(range(first, last + 1, step))


def axis_of_word(word: str) -> Axis:
    """An axis as the words of a tool give it."""
    found = AXIS.match(word)
    if not found:
        raise Unfit("%s is none of %s" % (word, AXIS_TOLD))
    values = steps(int(found.group(4)), int(found.group(5)), int(found.group(6) or 1))
    if found.group(2):
        return Axis("number", values, int(found.group(2)) - 1, int(found.group(3)) - 1)
    return Axis(found.group(1), values)


def axis_of(asked: dict[str, Any]) -> Axis:
    """An axis as a page asks for it."""
    kind, numbers = asked["kind"], [asked[name] for name in ("from", "to", "step")]
    if kind not in ("seed", "depth", "number") or not all(type(number) is int for number in numbers):
        raise Unfit("a sheet is of seeds, depths or a number of the script, in whole numbers")
    return Axis(kind, steps(*numbers), int(asked.get("line", 0)), int(asked.get("place", 0)))


class Cell:
    """One variant: its lines, what is told of it, and, once it is drawn, its counts, its picture and what was refused."""

    def __init__(self, lines: list[str], told: list[str]) -> None:
        self.lines, self.told, self.counts = lines, told, [0, 0]
        self.lattice, self.level, self.reply, self.refused, self.done = "square", 0, "", "", threading.Event()

    def has_picture(self) -> bool:
        return self.reply.startswith("segments ")

    def caption(self) -> list[str]:
        """What stands below the picture."""
        many = self.reply.split("\n", 1)[0].split(" ")[-1] if self.has_picture() else "0"
        return [", ".join(self.told), self.refused or "%d of %d asked anew, %s lines" % (self.counts[0], self.counts[1], many)]


def cells_of(lines: list[str], axes: list[Axis]) -> list[Cell]:
    """The cells of a grid, rows of the first axis below each other along the second one."""
    if not 1 <= len(axes) <= 2:
        raise Unfit("a sheet has one or two things that vary")
    rows: list[int | None] = list(axes[1].values) if len(axes) == 2 else [None]
    if len(rows) * len(axes[0].values) > MOST_CELLS:
        raise Unfit("a sheet has at most %d pictures" % MOST_CELLS)
    cells = []
    for row in rows:
        ground, told = (axes[1].put(lines, row), [axes[1].told(row)]) if row is not None else (lines, [])
        cells += [Cell(axes[0].put(ground, value), [axes[0].told(value)] + told) for value in axes[0].values]
    return cells


def commands_of(lines: list[str]) -> list[bytes]:
    return [line for _, line in commands_before_end(lines_of(as_bytes("\n".join(lines))))]


class Sheet:
    """The variants of a script, drawn in the background."""

    def __init__(self, words: list[str], lines: list[str], axes: list[Axis]) -> None:
        self.words, self.lines = words, lines
        self.columns = len(axes[0].values)
        self.cells = cells_of(lines, axes)
        self.lock, self.is_stopped = threading.Lock(), False
        self.running: set[Session] = set()
        self.pool = ThreadPoolExecutor(os.cpu_count() or 1)
        for cell in self.cells:
            self.pool.submit(self.draw, cell)

    def draw(self, cell: Cell) -> None:
        """Draws a cell, by a program of its own."""
        session = Session(self.words)
        with self.lock:
            self.running.add(session)
        try:
            if not self.is_stopped:
                self.follow(session, cell)
        except Ended:
            cell.refused = "it was stopped" if self.is_stopped else "the program ended"
        except Exception as error:
            cell.refused = "it failed: %s" % type(error).__name__
        finally:
            session.close()
            with self.lock:
                self.running.discard(session)
            cell.done.set()

    def follow(self, session: Session, cell: Cell) -> None:
        session.follow(commands_of(self.lines))
        before = counts(session.sent)
        session.follow(commands_of(cell.lines))
        cell.counts = counts(session.sent) or [0, before[1] if before else 0]
        cell.lattice, cell.level = session.lattice(), session.depth()
        refused = [reply for reply in session.replies if reply.startswith("refused ")]
        session.stand_at()
        cell.reply = session.answer(b"segments")
        cell.refused = refused[0] if refused else "" if cell.has_picture() else cell.reply.rstrip("\n")

    def stop(self) -> None:
        """Ends what is still being drawn."""
        self.is_stopped = True
        with self.lock:
            for session in self.running:
                session.interrupt()
        self.pool.shutdown(wait=False)

    def wait(self) -> None:
        self.pool.shutdown()


def told_of(cell: Cell, lines: list[str]) -> dict[str, Any]:
    """What a page is told of a cell: its values and the lines that it has in the place of some of the script's."""
    least, first, last = min(len(lines), len(cell.lines)), 0, 0
    while first < least and lines[first] == cell.lines[first]:
        first += 1
    while last < least - first and lines[len(lines) - 1 - last] == cell.lines[len(cell.lines) - 1 - last]:
        last += 1
    return {"told": cell.told, "first": first, "removed": len(lines) - first - last, "lines": cell.lines[first:len(cell.lines) - last]}


def sheet_svg(sheet: Sheet) -> Iterator[str]:
    """The lines of one SVG with all pictures, each as tools/export draws it alone, and its caption."""
    rows = (len(sheet.cells) + sheet.columns - 1) // sheet.columns
    wide, high = sheet.columns * (CELL + GAP) + GAP, rows * (CELL + CAPTION + GAP) + GAP
    yield "<svg xmlns=\"http://www.w3.org/2000/svg\" width=\"%d\" height=\"%d\" viewBox=\"0 0 %d %d\">" % (wide, high, wide, high)
    yield "<rect width=\"%d\" height=\"%d\" fill=\"white\"/>" % (wide, high)
    for place, cell in enumerate(sheet.cells):
        left, top = GAP + place % sheet.columns * (CELL + GAP), GAP + place // sheet.columns * (CELL + CAPTION + GAP)
        if cell.has_picture():
            figure = figure_in(cell.reply, cell.lattice)
            box = box_of(figure, Wish(), PLANE[cell.lattice])
            yield "<svg x=\"%d\" y=\"%d\" width=\"%d\" height=\"%d\" viewBox=\"%s\">" % (left, top, CELL, CELL,
                                                                                         " ".join(number(value, PLACES) for value in box))
            yield "<g fill=\"none\" stroke=\"black\" stroke-linecap=\"round\" stroke-linejoin=\"round\">"
            yield from paths(figure)
            yield "</g>"
            yield "</svg>"
        for line, text in enumerate(cell.caption()):
            yield "<text x=\"%d\" y=\"%d\" font-family=\"sans-serif\" font-size=\"11\">%s</text>" % (left, top + CELL + (line + 1) * LINE,
                                                                                                     escape(text[:60]))
    yield "</svg>"
