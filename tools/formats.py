"""A picture as a file for other programs. `tools/export` and the page's server both write by this module, and so the same bytes.

SVG, OBJ and glTF are texts that are written here. PNG and PDF are the SVG's, by rsvg-convert (in Debian: librsvg2-bin), and DXF is written by
ezdxf (python3-ezdxf). Without rsvg-convert there are no PNG and PDF; without ezdxf the DXF has single lines.
"""

from __future__ import annotations

import functools
import json
import math
import os
import re
import subprocess
import sys
from collections.abc import Iterable, Iterator, Mapping, Sequence
from typing import Any, NamedTuple

import tubes
from figure import SPACE, Figure, Put, bounds_of, number, path_of, plane_of

Box = tuple[float, float, float, float]
# Runs as a DXF is made of them: each a width and its points.
Runs = list[tuple[int, list[list[float]]]]
HERE = os.path.dirname(os.path.realpath(__file__))
PYTHON_OF_DEBIAN = "/usr/bin/python3"
NO_RSVG = "%s is written by rsvg-convert, which isn't installed (in Debian: librsvg2-bin)"
NO_EZDXF = "this DXF has a line for each segment: polylines are written by ezdxf, which isn't installed (in Debian: python3-ezdxf)"
# A group whose first child this is keeps its script for Inkscape's extension too.
SCRIPT_ID = "lsys-script"
NO_XML = re.compile("[^\t\n\r -\ud7ff\ue000-\ufffd\U00010000-\U0010ffff]")
# Places after the point, of which a step has at least so many.
PLACES = 6
# A line of a PNG is at least so many points wide, which is seen.
LEAST_LINE = 0.6
LONGEST_RUN = 600
# The least and the greatest length of a step, degrees, points of a PNG's longer side, and millimetres of a PDF's.
BOUNDS = {"step": (1e-3, 1e6), "turn": (-360, 360), "tilt": (-360, 360)}
SIZES = {"png": (16, 16384, 2400, "points"), "pdf": (10, 5000, 200, "millimetres")}
GROUND = re.compile("none|[a-z]{3,24}|#[0-9a-f]{6}")


class Unfit(Exception):
    """What is wanted can't be had; the words are for a person."""


class MissingProgram(Unfit):
    """It can't be had on this machine, for want of a program."""


class Wish(NamedTuple):
    """What is wanted of a file: the length of a step (None for the kind's own), the view (None for the usual one), the size of the longer side and
    the colour behind the lines of a PNG or PDF, and the title and the script that it keeps."""
    step: float | None = None
    turn: float | None = None
    tilt: float | None = None
    size: float | None = None
    ground: str = "none"
    title: str = ""
    script: str = ""


USUAL = Wish()


class Written(NamedTuple):
    """The bytes of a file, and what a person should know of it."""
    data: bytes
    told: str = ""


def wish_of(kind: str, words: Mapping[str, str | None], title: str = "", script: str = "") -> Wish:
    """What texts say is wanted; of a name that is missing or empty, the usual. Raises Unfit where one of them has no sense."""
    given = {name: text for name, text in words.items() if text}
    found: dict[str, Any] = {name: measure(name, given[name], least, most) for name, (least, most) in BOUNDS.items() if name in given}
    if kind in SIZES and "size" in given:
        least, most, _, unit = SIZES[kind]
        found["size"] = measure("size in " + unit, given["size"], least, most)
    ground = given.get("ground", "none").lower()
    if not GROUND.fullmatch(ground):
        raise Unfit("the ground is none, a colour's name or #rrggbb, not %s" % given["ground"][:40])
    return Wish(title=clean(title), script=clean(script), ground=ground)._replace(**found)


def measure(name: str, text: str, least: float, most: float) -> float:
    try:
        value = float(text)
    except ValueError:
        value = math.nan
    if not least <= value <= most:
        raise Unfit("the %s is a number from %s to %s, not %s" % (name, number(least), number(most), text[:40]))
    return value


def clean(text: str) -> str:
    """A text with the signs that an XML file can have, and the line ends of one kind."""
    return NO_XML.sub("?", text.replace("\r\n", "\n"))


def as_xml(text: str) -> str:
    return text.replace("&", "&amp;").replace("<", "&lt;").replace(">", "&gt;").replace("\r", "&#13;")


def titled(name: str, level: int | None = None) -> str:
    """The title of a picture of the script of this name: at another level than the last one, where one is given."""
    stem = os.path.splitext(os.path.basename(name))[0] or "picture"
    return stem if level is None else "%s, level %d" % (stem, level)


def box_of(figure: Figure, wish: Wish, put: Put) -> Box:
    """The box of a drawing; its margin is a step, or more where lines are wide."""
    step, widest = wish.step or 10, max([width for width, _ in figure.runs], default=1)
    return bounds_of(figure, step, step * (1 + widest / 20), put)


def fitted(box: Box, longest: float) -> tuple[Box, list[int]]:
    """A box that is so much larger that both of its sides are whole where the longer one has this length, and what they are."""
    left, top, width, height = box
    scale = longest / max(width, height)
    sides = [max(1, math.ceil(side * scale - 1e-6)) for side in (width, height)]
    wide, high = (side / scale for side in sides)
    return (left - (wide - width) / 2, top - (high - height) / 2, wide, high), sides


def svg_lines(figure: Figure, wish: Wish, box: Box, thinnest: float = 0) -> Iterator[str]:
    """The lines of a drawing by paths, none of them thinner than that."""
    yield "<svg xmlns=\"http://www.w3.org/2000/svg\" viewBox=\"%s\">" % " ".join(number(value, PLACES) for value in box)
    yield "<title>%s</title>" % as_xml(wish.title)
    yield "<g fill=\"none\" stroke=\"black\" stroke-linecap=\"round\" stroke-linejoin=\"round\">"
    yield "<metadata id=\"%s\">%s</metadata>" % (SCRIPT_ID, as_xml(wish.script))
    yield from paths(figure, wish, thinnest)
    yield "</g>"
    yield "</svg>"


def paths(figure: Figure, wish: Wish = USUAL, thinnest: float = 0) -> Iterator[str]:
    """The paths of a drawing, one for each run, none of them thinner than that."""
    step = wish.step or 10
    for width, points in figure.drawn(plane_of(figure.lattice, wish.turn, wish.tilt)):
        yield "<path d=\"%s\" stroke-width=\"%s\"/>" % (path_of(points, step, PLACES), number(max(width * step / 10, thinnest), PLACES))


def svg(figure: Figure, wish: Wish) -> Written:
    box = box_of(figure, wish, plane_of(figure.lattice, wish.turn, wish.tilt))
    return Written(text_of(svg_lines(figure, wish, box)))


def text_of(lines: Iterable[str]) -> bytes:
    return "".join(line + "\n" for line in lines).encode("utf-8", "replace")


def png(figure: Figure, wish: Wish) -> Written:
    size = round(wish.size or SIZES["png"][2])
    return Written(by_rsvg("png", figure, wish, size, LEAST_LINE / size))


def pdf(figure: Figure, wish: Wish) -> Written:
    return Written(by_rsvg("pdf", figure, wish, round((wish.size or SIZES["pdf"][2]) / 25.4 * 72)))


def by_rsvg(kind: str, figure: Figure, wish: Wish, size: int, least: float = 0) -> bytes:
    """What rsvg-convert makes of the drawing, whose longer side gets this size, in points. The time that a PDF has in it is always the same."""
    wish = wish._replace(step=None)
    box, sides = fitted(box_of(figure, wish, plane_of(figure.lattice, wish.turn, wish.tilt)), size)
    drawn = text_of(svg_lines(figure, wish, box, least * max(box[2:])))
    return run_rsvg(kind, drawn, ["--background-color=" + wish.ground, "--dpi-x=72", "--dpi-y=72", "--width=%d" % sides[0], "--height=%d" % sides[1]])


def run_rsvg(kind: str, drawn: bytes, words: Sequence[str]) -> bytes:
    """What rsvg-convert makes of an SVG."""
    name, environment = kind.upper(), {"SOURCE_DATE_EPOCH": "0", **os.environ}
    try:
        ran = subprocess.run(["rsvg-convert", "--unlimited", "--format=" + kind, *words], input=drawn, capture_output=True,
                             env=environment, timeout=LONGEST_RUN)
    except FileNotFoundError:
        raise MissingProgram(NO_RSVG % name) from None
    except subprocess.TimeoutExpired:
        raise Unfit("rsvg-convert doesn't end with this %s" % name) from None
    if ran.returncode or not ran.stdout:
        said = ran.stderr.decode(errors="replace").strip().split("\n")[0]
        raise Unfit("rsvg-convert makes no %s of it: %s" % (name, said or "it ended with status %d" % ran.returncode))
    return ran.stdout


def obj(figure: Figure, wish: Wish) -> Written:
    """A Wavefront OBJ: the points, each once, and a line through points for each run; a group for each width."""
    numbers: dict[tuple[float, ...], int] = {}
    lines: list[str] = []
    group = None
    for width, points in figure.points(SPACE):
        if width != group:
            group = width
            lines.append("g width_%d" % width)
        lines.append("l " + " ".join(str(numbers.setdefault(point, len(numbers) + 1)) for point in points))
    step = wish.step or 1
    places = ("v " + " ".join(number(value * step, PLACES) for value in point) for point in numbers)
    return Written(text_of(["# " + " ".join(wish.title.split()), "o lsys", *places, *lines]))


def dxf(figure: Figure, wish: Wish) -> Written:
    """A DXF of release 12: a polyline for each run, on the layer of its width; single lines where there is no ezdxf."""
    step, is_flat = wish.step or 1, figure.lattice != "cubic"
    runs = [(width, [[round(value * step, PLACES) for value in point] for point in points]) for width, points in figure.points(SPACE)]
    try:
        from polylines import drawn
        return Written(drawn(is_flat, runs))
    except ImportError:
        return dxf_by_another(python_with("ezdxf"), is_flat, runs)


def dxf_by_another(python: str | None, is_flat: bool, runs: Runs) -> Written:
    """The DXF that another Python makes, where there is one that has ezdxf."""
    if python is None:
        return Written(text_of(dxf_lines(runs)), NO_EZDXF)
    ran = subprocess.run([python, os.path.join(HERE, "polylines.py")], input=json.dumps([is_flat, runs]).encode(), capture_output=True)
    if ran.returncode:
        raise Unfit("ezdxf makes no DXF of it: %s" % ran.stderr.decode(errors="replace").strip().split("\n")[-1])
    return Written(ran.stdout)


def dxf_lines(runs: Runs) -> Iterator[str]:
    """The lines of a DXF with a line for each segment."""
    yield from ("0", "SECTION", "2", "HEADER", "9", "$ACADVER", "1", "AC1009", "0", "ENDSEC", "0", "SECTION", "2", "ENTITIES")
    for width, points in runs:
        texts = [tuple(number(value, PLACES) for value in point) for point in points]
        for start, stop in zip(texts, texts[1:]):
            yield from ("0", "LINE", "8", "WIDTH_%d" % width, "10", start[0], "20", start[1], "30", start[2], "11", stop[0], "21", stop[1], "31",
                        stop[2])
    yield from ("0", "ENDSEC", "0", "EOF")


@functools.cache
def python_with(module: str) -> str | None:
    """A Python that has a module of Debian's, which the one that runs this may lack; or None."""
    asked = "import importlib.util, sys; sys.exit(importlib.util.find_spec('%s') is None)" % module
    for python in (sys.executable, PYTHON_OF_DEBIAN):
        if os.access(python, os.X_OK) and subprocess.run([python, "-c", asked], stderr=subprocess.DEVNULL).returncode == 0:
            return python
    return None


def glb(figure: Figure, wish: Wish) -> Written:
    return Written(tubes.binary(*gltf_parts(figure, wish)))


def gltf(figure: Figure, wish: Wish) -> Written:
    return Written(tubes.text(*gltf_parts(figure, wish)))


def gltf_parts(figure: Figure, wish: Wish) -> tuple[dict[str, Any], bytes]:
    return tubes.parts(figure.points(SPACE), wish.step or 1, figure.lattice == "cubic", {"title": wish.title, "script": wish.script})


# Each kind by the end of a file's name: its writer, and what a browser is told that it is.
KINDS = {"svg": (svg, "image/svg+xml"), "png": (png, "image/png"), "pdf": (pdf, "application/pdf"), "obj": (obj, "model/obj"),
         "dxf": (dxf, "image/vnd.dxf"), "glb": (glb, "model/gltf-binary"), "gltf": (gltf, "model/gltf+json")}


def written(kind: str, figure: Figure, wish: Wish) -> Written:
    """The file of a kind, and what a person should know of it. Raises Unfit where it can't be had."""
    return KINDS[kind][0](figure, wish)
