"""Rows of `conformance/export`: each kind of file, read back plainly or by another program, has the points of the picture, one after another."""

from __future__ import annotations

import collections
import math
import os
import random
import subprocess
import xml.etree.ElementTree
from collections.abc import Callable, Iterable, Sequence
from typing import Any, NamedTuple

import readers
from figure import SPACE, Figure, Put, joined, plane_of
from formats import SIZES, Unfit, wish_of, written
from readers import Point, Run

KINDS = ("svg", "pdf", "png", "dxf", "obj", "glb", "gltf")
PNG_SIZE = 500
# Where a line is, a PNG has at least so much ink of 255: a point thinner than one of its points may be spread over four.
LEAST_INK = 10
# So many lines of a picture are looked for in its points, and in so many files at once something is read.
MOST_LOOKED_FOR, AT_ONCE = 200, 50
# A random picture of more lines is left out.
MOST_SEGMENTS = 4000
# What random pictures are made of: what draws, moves and turns, numbers for it, and now and then large ones.
SYMBOLS = ["F"] * 8 + ["F(%d)", "F_a", "f", "f(%d)", "+", "+", "-", "-", "+(%d)", "&", "^", "\\", "/", "|", "!(%d)"]
NUMBERS, LARGE = [-3, -1, 0, 0, 1, 2, 2, 3, 5, 20], [700, 10 ** 6, -10 ** 9]
POINTS_OF_A_PDF = SIZES["pdf"][2] / 25.4 * 72
# rsvg-convert tells by how much a drawing is larger in six digits.
TOLD_OF_SCALE = 2e-6


class Row(NamedTuple):
    """A kind of file, who reads it, how, what is missing for that or nothing, and how near a place has to be: in the whole length of a picture,
    and in what it measures by."""
    kind: str
    reader: str
    read: Callable[[Sequence[str]], list[list[Run]]]
    lacks: str
    relative: float
    absolute: float


class Picture:
    """A script's picture, its files, and what a reader should find in them."""

    def __init__(self, name: str, script: bytes, figure: Figure, view: dict[str, str]) -> None:
        self.name, self.script, self.figure, self.view = name, script, figure, view
        self.count = sum(len(places) - 1 for _, places in figure.runs)

    def path(self, folder: str, kind: str) -> str:
        return os.path.join(folder, "%s.%s" % (self.name, kind))

    def write(self, folder: str, kind: str) -> str:
        """Writes a file. Says what is missing where it can't be had."""
        words = {**self.view, **({"size": str(PNG_SIZE)} if kind == "png" else {})}
        try:
            data, told = written(kind, self.figure, wish_of(kind, words, self.name, self.script.decode("latin-1")))
        except Unfit as why:
            return str(why)
        with open(self.path(folder, kind), "wb") as file:
            file.write(data)
        return ""

    def put(self) -> Put:
        return plane_of(self.figure.lattice, *(float(self.view[word]) if word in self.view else None for word in ("turn", "tilt")))

    def expected(self, kind: str) -> list[Run]:
        """The runs of a file, in what it measures by."""
        if kind in ("svg", "pdf"):
            return [(width, [(10 * x, 10 * y) for x, y in points]) for width, points in self.figure.drawn(self.put())]
        runs = self.figure.points(SPACE)
        if kind in ("glb", "gltf") and self.figure.lattice == "cubic":
            runs = ((width, [(x, z, -y) for x, y, z in points]) for width, points in runs)
        return list(runs)


def rows() -> list[Row]:
    no_inkex = "" if readers.has_inkex() else "Inkscape's Python modules aren't installed (in Debian: inkscape)"
    rsvg, poppler = readers.lacks("rsvg-convert", "librsvg2-bin"), readers.lacks("pdftocairo", "poppler-utils")
    ezdxf, assimp = readers.lacks_module("ezdxf", "python3-ezdxf"), readers.lacks("assimp", "assimp-utils")
    told = readers.TOLD_TO
    return [Row("svg", "plainly", readers.plain_svg, "", 1e-12, 1e-6),
            Row("svg", "by rsvg-convert", readers.svg_by_rsvg, rsvg, told / readers.LONG_SIDE + TOLD_OF_SCALE, 2e-6),
            Row("svg", "by Inkscape's modules", readers.svg_by_inkscape, no_inkex, 1e-12, 1e-6),
            Row("pdf", "by poppler", readers.pdf_by_poppler, rsvg or poppler, 3 * told / POINTS_OF_A_PDF, 2e-6),
            Row("dxf", "plainly", readers.plain_dxf, "", 1e-12, 1e-6), Row("dxf", "by ezdxf", readers.dxf_by_ezdxf, ezdxf, 1e-12, 1e-6),
            Row("obj", "plainly", readers.plain_obj, "", 1e-12, 1e-6), Row("obj", "by assimp", readers.obj_by_assimp, assimp, 1e-5, 1e-5),
            Row("glb", "plainly", readers.plain_tubes, "", 1e-6, 1e-5), Row("gltf", "plainly", readers.plain_tubes, "", 1e-6, 1e-5),
            Row("glb", "by assimp", readers.tubes_by_assimp, assimp, 1e-5, 1e-5)]


def is_near(one: Sequence[float], other: Sequence[float], near: float) -> bool:
    return all(abs(a - b) <= near for a, b in zip(one, other))


def is_between(place: Sequence[float], start: Sequence[float], stop: Sequence[float], near: float) -> bool:
    """Whether a place is on a line, in the plane."""
    away = [to - at for at, to in zip(start, stop)]
    offset = [to - at for at, to in zip(start, place)]
    length = math.hypot(*away)
    if length <= near:
        return math.hypot(*offset) <= 2 * near
    along = sum(a * b for a, b in zip(away, offset)) / length
    return -2 * near <= along <= length + 2 * near and abs(away[0] * offset[1] - away[1] * offset[0]) / length <= 2 * near


def goes_through(found: Sequence[Point], expected: Sequence[Point], near: float) -> bool:
    """Whether a line has the points that are expected, in their order. A program may leave out those on a straight part."""
    if not is_near(found[0], expected[0], near):
        return False
    at = 0
    for start, stop in zip(found, found[1:]):
        at += 1
        while at < len(expected) - 1 and not is_near(expected[at], stop, near):
            if not is_between(expected[at], start, stop, near):
                return False
            at += 1
        if at >= len(expected) or not is_near(expected[at], stop, near):
            return False
    return all(is_near(place, found[-1], near) for place in expected[at:])


def goes_around(found: Sequence[Point], expected: list[Point], near: float) -> bool:
    """Whether a line has the points that are expected; a closed one from any of them on, and either way round, as a rectangle may be told."""
    if goes_through(found, expected, near):
        return True
    if expected[0] != expected[-1] or not is_near(found[0], found[-1], 2 * near):
        return False
    starts = [at for at, place in enumerate(expected[:-1]) if is_near(place, found[0], near)]
    around = [expected[at:] + expected[1:at + 1] for at in starts]
    return any(goes_through(found, places, near) or goes_through(found, places[::-1], near) for places in around)


def are_runs(found: Sequence[Run], expected: Sequence[Run], near: float) -> bool:
    """Whether the runs of a drawing are those that are expected."""
    return len(found) == len(expected) and all(abs(width - wanted) <= 1e-3 * wanted + 2 * near and goes_around(points, places, near)
                                               for (width, points), (wanted, places) in zip(found, expected))


def by_width(runs: Iterable[Run]) -> dict[float, list[tuple[Point, Point]]]:
    """The ends of all segments, for each width, in their order."""
    found: dict[float, list[tuple[Point, Point]]] = collections.defaultdict(list)
    for width, points in runs:
        found[width].extend(zip(points, points[1:]))
    return found


def are_segments(found: Iterable[Run], expected: Iterable[Run], near: float) -> bool:
    ends, wanted = by_width(found), by_width(expected)
    return ends.keys() == wanted.keys() and all(
        len(ends[width]) == len(wanted[width]) and all(is_near(a, c, near) and is_near(b, d, near) for (a, b),
                                                       (c, d) in zip(ends[width], wanted[width]))
        for width in wanted)


def fits(row: Row, picture: Picture, found: list[Run]) -> bool:
    """Whether what a reader found is the picture."""
    expected = picture.expected(row.kind)
    whole = max((abs(value) for _, points in expected for point in points for value in point), default=0)
    if row.kind in ("svg", "pdf"):
        # A margin is around it.
        widest = max(width for width, _ in expected)
        return are_runs(found, expected, row.absolute + row.relative * (2 * whole + 20 + widest))
    return are_segments(found, expected, row.absolute + row.relative * whole)


def keeps_script(path: str, picture: Picture) -> bool:
    """Whether an SVG has its title, and keeps its script."""
    root = xml.etree.ElementTree.parse(path).getroot()
    kept = root.findtext(".//%smetadata" % readers.NAMESPACE) or ""
    wanted = "".join(sign if sign in "\t\n\r" or sign >= " " else "?" for sign in picture.script.decode("latin-1").replace("\r\n", "\n"))
    return root.findtext(readers.NAMESPACE + "title") == picture.name and kept == wanted


def picture_of(program: str, name: str, script: bytes, choice: random.Random | None = None) -> Picture | None:
    """The picture that is left of a script, whatever was refused; seen from somewhere, where something chooses. None where there is none."""
    ran = subprocess.run([program], input=script + b"\nshow\nsegments\n", stdout=subprocess.PIPE, stderr=subprocess.DEVNULL)
    shown, _, last = ran.stdout.decode("latin-1").rpartition("segments ")
    count, _, lines = last.partition("\n")
    segments = [tuple(map(int, line.split())) for line in lines.splitlines() if line[:1] in "-0123456789" and line.count(" ") == 6]
    if not count.isdigit() or len(segments) != int(count) or not segments or "\nlattice " not in "\n" + shown:
        return None
    figure = Figure(("\n" + shown).rpartition("\nlattice ")[2].split("\n")[0], joined(segments))
    if collections.Counter(figure.segments()) != collections.Counter(segments):
        raise RuntimeError("the runs of %s are other segments" % name)
    view = {word: "%.2f" % choice.uniform(-180, 180) for word in ("turn", "tilt")} if choice and choice.random() < 0.7 else {}
    return Picture(name, script, figure, view)


def random_string(choice: random.Random, length: int) -> str:
    """Symbols and branches, which may be nested."""
    words, opened = [], 0
    for _ in range(length):
        if choice.random() < 0.15:
            words.append("[")
            opened += 1
        word = choice.choice(SYMBOLS)
        words.append(word % choice.choice(LARGE if choice.random() < 0.02 else NUMBERS) if "%" in word else word)
        if opened and choice.random() < 0.4:
            words.append("]")
            opened -= 1
    return "".join(words) + "]" * opened


def random_script(choice: random.Random) -> bytes:
    lines = ["; <random> & \"drawn\"", "lattice " + choice.choice(["square", "hexagonal", "cubic"]),
             "axiom F" + random_string(choice, choice.randrange(1, 9))]
    lines += ["production f: F => " + random_string(choice, choice.randrange(2, 7)), "production g: F_a => F" + random_string(choice, 2)]
    lines += ["hom h: F => " + random_string(choice, 3)] * (choice.random() < 0.3)
    return "\n".join([*lines, "depth %d" % choice.randrange(1, 5), ""]).encode()


def random_pictures(program: str, count: int) -> list[Picture]:
    """So many pictures of random scripts, most of them seen from somewhere."""
    choice, number = random.Random(84), 0
    found: list[Picture] = []
    while len(found) < count:
        picture = picture_of(program, "random_%d" % number, random_script(choice), choice)
        if picture and picture.count <= MOST_SEGMENTS:
            found.append(picture)
        number += 1
    return found


def read_back(pictures: list[Picture], folder: str) -> int:
    """How many rows of the table fail; each is told."""
    missing = {kind: max([picture.write(folder, kind) for picture in pictures]) for kind in KINDS}
    total, failed = sum(picture.count for picture in pictures), 0
    for row in rows():
        if row.lacks or missing[row.kind]:
            print("%-4s %-21s skipped: %s" % (row.kind, row.reader, row.lacks or missing[row.kind]))
            continue
        differ = differing(row, pictures, folder)
        failed += bool(differ)
        print("%-4s %-21s %d pictures with %d segments, point by point: %d differ%s" % (row.kind, row.reader, len(pictures), total, len(differ),
                                                                                        told_of(differ)))
    lost = [picture.name for picture in pictures if not keeps_script(picture.path(folder, "svg"), picture)]
    print("svg  %-21s %d keep their title and script: %d don't%s" % ("plainly", len(pictures), len(lost), told_of(lost)))
    return failed + bool(lost) + png_rows(pictures, folder, missing["png"])


def told_of(names: Sequence[str]) -> str:
    return " (%s)" % ", ".join(names[:5]) if names else ""


def differing(row: Row, pictures: list[Picture], folder: str) -> list[str]:
    """The names of the pictures that a reader finds otherwise."""
    differ = []
    for first in range(0, len(pictures), AT_ONCE):
        some = pictures[first:first + AT_ONCE]
        try:
            found = row.read([picture.path(folder, row.kind) for picture in some])
        except (RuntimeError, subprocess.CalledProcessError) as error:
            differ.append("%s .. %s: %s" % (some[0].name, some[-1].name, error))
            continue
        differ += [picture.name for picture, runs in zip(some, found) if not fits(row, picture, runs)]
    return differ


def png_rows(pictures: list[Picture], folder: str, missing: str) -> int:
    """PNGs have their size, a transparent ground, and ink where lines are and nowhere else."""
    lacks = missing or readers.lacks_module("PIL", "python3-pil")
    if lacks:
        print("png  %-21s skipped: %s" % ("by Pillow", lacks))
        return 0
    differ = []
    for first in range(0, len(pictures), AT_ONCE):
        some = pictures[first:first + AT_ONCE]
        drawn = [on_png(picture, picture.path(folder, "svg")) for picture in some]
        seen = readers.seen_in_png([[picture.path(folder, "png"), [middle for middle, _, _, _ in lines[::max(1, len(lines) // MOST_LOOKED_FOR)]]]
                                    for picture, lines in zip(some, drawn)])
        differ += [picture.name for picture, lines, found in zip(some, drawn, seen) if not is_inked(lines, found)]
    print("png  %-21s %d pictures of %d points, lines where they belong on a transparent ground: %d differ%s" % (
        "by Pillow", len(pictures), PNG_SIZE, len(differ), told_of(differ)))
    return bool(differ)


def on_png(picture: Picture, path: str) -> list[Any]:
    """The lines of a picture on its PNG: the middle, both ends, and half of the width."""
    left, top, width, height = readers.box_of(readers.text_at(path))
    scale, lines = PNG_SIZE / max(width, height), []
    # The shorter side has whole points too.
    across, down = ((math.ceil(side * scale - 1e-6) - side * scale) / 2 for side in (width, height))
    for stroke, points in picture.expected("svg"):
        placed = [((x - left) * scale + across, (-y - top) * scale + down) for x, y in points]
        lines += [(((a + c) / 2, (b + d) / 2), (a, b), (c, d), max(stroke * scale, 0.6) / 2) for (a, b), (c, d) in zip(placed, placed[1:])]
    return lines


def is_inked(lines: list[Any], found: Any) -> bool:
    """Whether a PNG, as it was found, has these lines and nothing else."""
    width, height, corners, inks, some, is_dark = found
    if max(width, height) != PNG_SIZE or min(inks) < LEAST_INK or not is_dark:
        return False
    if len(lines) > 2000:
        return not any(corners)
    # A long line may end in a corner, where the margin is thinner than a point.
    inked = [place for place, ink in zip(((x, y) for x in (0, width - 1) for y in (0, height - 1)), corners) if ink]
    return all(any(distance((x + 0.5, y + 0.5), start, stop) <= half + 1.5 for _, start, stop, half in lines) for x, y in [*inked, *some])


def distance(place: Sequence[float], start: Sequence[float], stop: Sequence[float]) -> float:
    """From a place to a line, in the plane."""
    away, offset = (stop[0] - start[0], stop[1] - start[1]), (place[0] - start[0], place[1] - start[1])
    square = away[0] * away[0] + away[1] * away[1]
    part = min(1, max(0, (away[0] * offset[0] + away[1] * offset[1]) / square)) if square else 0
    return math.hypot(offset[0] - part * away[0], offset[1] - part * away[1])
