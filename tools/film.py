"""All levels of a script one after another, in one frame that fits the last one: an SVG that moves by itself, a GIF, and one HTML file that
holds the script, its replies and its pictures, and needs no server. From such a file, and from a link that holds a script, it is read again.
"""

from __future__ import annotations

import base64
import html
import json
import os
import re
import shutil
import subprocess
import tempfile
import zlib
from collections.abc import Iterable, Iterator, Sequence
from typing import Any

from figure import PLANE, figure_in, number
from formats import paths

WEB = os.path.join(os.path.dirname(os.path.realpath(__file__)), "web")
DATA = re.compile(r"<script type=\"application/json\" id=\"lsys\">(.*?)</script>", re.S)
LINK = re.compile(r"#script=([\w-]+)$")
LONGEST = 16777216
# The length of a step in the SVG.
STEP = 10
MOST_LINES = 2000000
NO_GIF = "a GIF is made by ImageMagick or ffmpeg (in Debian: imagemagick, ffmpeg), and neither is here that does"


class Unmade(Exception):
    """A film that can't be made, in words for a person."""


def box_around(points: Iterable[tuple[float, ...]]) -> tuple[float, float, float, float]:
    """The least box around these points and the origin, y going down."""
    xs: list[float] = [0]
    ys: list[float] = [0]
    for x, y in points:
        xs.append(x)
        ys.append(-y)
    return min(xs), min(ys), max(xs), max(ys)


def svg_of(levels: Sequence[str], lattice: str, pace: float, title: str) -> Iterator[str]:
    """The lines of an SVG in which each level is seen for `pace` seconds, again and again; where nothing moves, the last one is."""
    figures = [figure_in(reply, lattice) for reply in levels]
    left, top, right, bottom = box_around(point for _, points in figures[-1].points(PLANE) for point in points)
    box = [number(value) for value in (STEP * left - STEP, STEP * top - STEP, STEP * (right - left) + 2 * STEP, STEP * (bottom - top) + 2 * STEP)]
    yield "<svg xmlns=\"http://www.w3.org/2000/svg\" viewBox=\"%s\">" % " ".join(box)
    yield "<title>%s</title>" % html.escape(title)
    yield "<g fill=\"none\" stroke=\"black\" stroke-linecap=\"round\" stroke-linejoin=\"round\">"
    many = len(figures)
    for place, figure in enumerate(figures):
        shown = ";".join("visible" if each == place else "hidden" for each in range(many))
        yield "<g id=\"level_%d\" visibility=\"%s\">" % (place, "visible" if place == many - 1 else "hidden")
        if many > 1:
            yield ("<animate attributeName=\"visibility\" values=\"%s\" calcMode=\"discrete\" dur=\"%ss\" repeatCount=\"indefinite\"/>"
                   % (shown, number(pace * many)))
        yield from paths(figure)
        yield "</g>"
    yield "</g>"
    yield "</svg>"


def text_of(name: str) -> str:
    with open(os.path.join(WEB, name), encoding="utf-8") as file:
        return file.read()


def single_of(name: str, script: str, replies: list[list[Any]], levels: Sequence[str], lattice: str, pace: float) -> str:
    """One HTML file. The page's own drawing stands in it, as a script without modules."""
    kept = {"name": name, "script": script, "replies": replies, "lattice": lattice, "pace": pace, "levels": levels}
    # Half pairs, by which bytes are told that are none of a sign, are written as escapes.
    data = json.dumps(kept).replace("</", "<\\/").replace("<!--", "<\\u0021--")
    parts = {"name": html.escape(name), "drawing": re.sub(r"^export ", "", text_of("drawing.js"), flags=re.M), "player": text_of("single.js"),
             "data": data}
    return re.sub(r"\{(name|drawing|player|data)\}", lambda word: parts[word.group(1)], text_of("single.html"))


def script_in(page: str) -> str | None:
    """The script that such a file holds, or None."""
    found = DATA.search(page)
    try:
        script = json.loads(found.group(1))["script"] if found else None
    except (ValueError, KeyError, TypeError):
        return None
    return script if isinstance(script, str) and len(script) <= LONGEST else None


def script_of_link(link: str) -> str | None:
    """The script that a link of the page holds, or None."""
    found = LINK.search(link)
    if not found:
        return None
    text = found.group(1)
    unpacking = zlib.decompressobj(-zlib.MAX_WBITS)
    try:
        script = unpacking.decompress(base64.urlsafe_b64decode(text + "=" * (-len(text) % 4)), LONGEST).decode("utf-8")
        return script if unpacking.eof else None
    except (ValueError, zlib.error):
        return None


def makers_of_gif(many: int, pace: float) -> list[list[str]]:
    """The programs that may make a GIF of so many frames, with their words, those that are here."""
    names = ["png:%04d.png" % place for place in range(many)]
    with_magick = ["-delay", str(max(2, round(100 * pace))), "-loop", "0", *names, "-layers", "Optimize", "gif:film.gif"]
    with_ffmpeg = ["-loglevel", "error", "-framerate", "%g" % (1 / pace), "-i", "%04d.png", "-loop", "0", "film.gif"]
    makers = [("magick", with_magick), ("convert", with_magick), ("ffmpeg", with_ffmpeg)]
    found = [(shutil.which(name), words) for name, words in makers]
    return [[path, *words] for path, words in found if path]


def gif_of(frames: Sequence[bytes], pace: float) -> bytes:
    """A GIF of frames that are PNGs. Made by another program, the first one that is here and makes it."""
    with tempfile.TemporaryDirectory(prefix="lsys-film-") as folder:
        for place, frame in enumerate(frames):
            with open(os.path.join(folder, "%04d.png" % place), "wb") as file:
                file.write(frame)
        made = os.path.join(folder, "film.gif")
        for words in makers_of_gif(len(frames), pace):
            ran = subprocess.run(words, cwd=folder, stdin=subprocess.DEVNULL, stdout=subprocess.DEVNULL, stderr=subprocess.DEVNULL)
            if ran.returncode == 0 and os.path.exists(made):
                with open(made, "rb") as file:
                    return file.read()
    raise Unmade(NO_GIF)
