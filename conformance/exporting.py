"""Trials of the page: the files that it gives, which tools/export writes too, and pictures in space, which are shaded."""

from __future__ import annotations

import os
import shutil
import struct
import subprocess
import sys
import tempfile
import time
import xml.etree.ElementTree
import zlib
from collections.abc import Callable
from typing import Any

from trial import Trial

TOP = os.path.dirname(os.path.dirname(os.path.abspath(__file__)))
NAMESPACE = "{http://www.w3.org/2000/svg}"
ISLAND = "axiom F-F-F-F\nproduction f: F => F-F+F+FF-F-F+F\nproduction g: G => GG\ndepth 2\nsvg\n"
SPACE = "lattice cubic\naxiom !(20)F(2)[+F(2)][^F(2)]f(6)F(2)\nsvg\n"
CROSS = "lattice cubic\naxiom !(10)F(4)f(-2)^f(3)&-f(-2)F(4)\nsvg\n"
# How bright the middles of all lines are on the page.
SHADES = """
const { picture } = lookPage, { points, view, canvas } = picture, pen = canvas.getContext('2d'), dense = devicePixelRatio || 1, found = [];
for (let at = 0; at < picture.data.count; at++) {
  const part = %s, x = points[4 * at] + part * (points[4 * at + 2] - points[4 * at]),
    y = points[4 * at + 1] + part * (points[4 * at + 3] - points[4 * at + 1]);
  const values = pen.getImageData(Math.round(dense * (view.x + view.scale * x)), Math.round(dense * (view.y + view.scale * y)), 1, 1).data;
  found.push(values[3] ? values[0] + values[1] + values[2] : -1);
}
return found;
"""


def fetched(trial: Trial, kind: str, name: str) -> bytes:
    """The file of a kind that the menu gives."""
    trial.browser.click("#export summary")
    trial.browser.click("#export_" + kind)
    return trial.browser.downloaded(name)


def of_tool(trial: Trial, kind: str, *words: str) -> bytes:
    """The file that tools/export writes of the same script."""
    out = os.path.join(trial.folder, "tool." + kind)
    ran = subprocess.run([os.path.join(TOP, "tools", "export"), trial.path, out, "--program", trial.program, *words], stderr=subprocess.PIPE,
                         text=True)
    if ran.returncode:
        return ran.stderr.encode()
    with open(out, "rb") as file:
        return file.read()


def points_of(data: bytes) -> tuple[int, str | None, str | None]:
    """How many points the paths of an SVG have, its title, and the script that it keeps."""
    root = xml.etree.ElementTree.fromstring(data)
    paths = [path.get("d", "") for path in root.iter(NAMESPACE + "path")]
    return sum(len(words.split()) for words in paths), root.findtext(NAMESPACE + "title"), root.findtext(".//%smetadata" % NAMESPACE)


def png_of(data: bytes) -> Any:
    """The size of a PNG, and its first point."""
    if not data.startswith(b"\x89PNG"):
        return None
    place, packed, size, parts = 8, b"", None, 4
    while place < len(data):
        length, kind = struct.unpack(">I4s", data[place:place + 8])
        body = data[place + 8:place + 8 + length]
        packed += body if kind == b"IDAT" else b""
        if kind == b"IHDR":
            size, parts = struct.unpack(">II", body[:8]), {2: 3, 6: 4}[body[9]]
        place += 12 + length
    return size, tuple(zlib.decompress(packed)[1:1 + parts])


def exports(trial: Trial) -> None:
    """Files and a link."""
    browser, has_rsvg = trial.browser, bool(shutil.which("rsvg-convert"))
    trial.begin(ISLAND)
    trial.expect("the island is drawn", lambda page: page["lines"] == 256)
    for kind in ("svg", "obj", "dxf", "glb", *(("png", "pdf") if has_rsvg else ())):
        found = fetched(trial, kind, "island." + kind)
        trial.told("%s is what tools/export writes" % kind.upper(), len(found) > 500 and found == of_tool(trial, kind), found[:100])
    drawn = points_of(fetched(trial, "svg", "island.svg"))
    trial.told("the SVG is one path, with a title and the script", drawn == (256, "island", ISLAND), drawn)
    found = fetched(trial, "segments", "island.txt")
    trial.told("segments", found.startswith(b"segments 256\n") and found.count(b"\n") == 257)
    trial.told("the script", fetched(trial, "script", "island.lsys") == ISLAND.encode())
    turned(trial)
    browser.click("#less_level")
    trial.expect("level 1", lambda page: page["lines"] == 32)
    drawn = points_of(fetched(trial, "svg", "island.svg"))
    trial.told("the level that is seen is exported, and named", drawn[:2] == (32, "island, level 1"), drawn)
    linked(trial)


def turned(trial: Trial) -> None:
    """What is turned on the page is turned in the files."""
    trial.browser.click("#turn_right")
    trial.expect("turned", lambda page: page["view"][5] > 0.2)
    found = fetched(trial, "svg", "island.svg")
    trial.told("the SVG is turned as it is seen, by 15 degrees", found == of_tool(trial, "svg", "--turn=15") != of_tool(trial, "svg"), found[:200])
    trial.browser.click("#fit")


def linked(trial: Trial) -> None:
    browser = trial.browser
    browser.click("#export summary")
    browser.click("#export_link")
    trial.expect("a link", lambda page: "address" in page["notice"])
    link = browser.run("return location.href")
    trial.begin(None)
    browser.open(trial.address + link[link.index("#"):])
    trial.expect("the link's script is there", lambda page: page["script"] == ISLAND and page["lines"] == 256)
    trial.expect("it belongs to no file", lambda page: page["name"] == "from a link")


def png(trial: Trial) -> None:
    """PNG with its size and ground, also where rsvg-convert isn't installed."""
    browser = trial.browser
    for is_bare in [False] * bool(shutil.which("rsvg-convert")) + [True]:
        path, folder = os.environ["PATH"], bare_path()
        os.environ["PATH"] = folder if is_bare else path
        trial.begin(ISLAND)
        os.environ["PATH"] = path
        shutil.rmtree(folder)
        trial.expect("the island is drawn", lambda page: page["lines"] == 256)
        found = png_of(fetched(trial, "png", "island.png"))
        trial.told("a PNG of 2400 points, its ground transparent", found and max(found[0]) == 2400 and found[1] == (0, 0, 0, 0), found)
        trial.expect("which the browser draws where there is no rsvg-convert, and that is told", told_by_the_browser(is_bare))
        browser.click("#export summary")
        browser.run("document.getElementById('png_size').value = 300")
        browser.click("#png_clear")
        browser.click("#export_png")
        found = png_of(browser.downloaded("island.png"))
        trial.told("one of 300 points on white", found and max(found[0]) == 300 and found[1][:3] == (255, 255, 255), found)
    browser.click("#export summary")
    browser.click("#export_pdf")
    trial.expect("a PDF is none then, and that is told", lambda page: "PDF is written by rsvg-convert, which isn't installed" in page["notice"])
    trial.is_quiet()


def told_by_the_browser(is_bare: bool) -> Callable[[Any], bool]:
    """Whether the page tells that the browser drew a PNG, as it has to where nothing else can."""
    return lambda page: ("browser drew" in page["notice"]) == is_bare


def bare_path() -> str:
    """A folder for PATH in which there is Python and nothing else."""
    folder = tempfile.mkdtemp(prefix="lsys-bare-")
    for name, path in (("python3", sys.executable), ("env", shutil.which("env") or "/usr/bin/env")):
        os.symlink(os.path.realpath(path), os.path.join(folder, name))
    return folder


def shaded(trial: Trial) -> None:
    """In space, what is far is paler and lies behind, and directions differ in light."""
    browser = trial.browser
    trial.begin(SPACE)
    trial.expect("four lines in space", lambda page: page["lines"] == 4 and page["lattice"] == "cubic")
    time.sleep(0.3)
    first, left, up, far = browser.run(SHADES % "0.5")
    trial.told("a line along the first one and farther away is paler", far > first + 60 and first >= 0, (first, far))
    trial.told("lines of three directions differ in light", len({first, left, up}) == 3, (first, left, up))
    trial.shot("shaded")
    before = trial.page()["view"]
    browser.drag((0, 0), [(60, 0), (60, 40)], "#picture")
    trial.expect("what is near follows the mouse", lambda page: page["view"][3] > before[3] + 0.5 and page["view"][4] < before[4] - 0.2)
    browser.run("lookPage.picture.view.turn = 5 * Math.PI / 4; lookPage.picture.turnBy(0, 0)")
    time.sleep(0.3)
    first, _, _, far = browser.run(SHADES % "0.5")
    trial.told("seen from behind, the other one is paler", first > far + 60, (first, far))
    found, view = fetched(trial, "svg", "island.svg"), trial.page()["view"]
    words = ["--%s=%.4f" % (word, angle * 180 / 3.141592653589793 % 360) for word, angle in (("turn", view[3]), ("tilt", view[4]))]
    trial.told("its SVG is turned as it is seen", points_of(found)[0] == points_of(of_tool(trial, "svg", *words))[0]
               and is_like(found, of_tool(trial, "svg", *words)), words)
    browser.run("lookPage.put(arguments[0].split('\\n'), '')", CROSS)
    trial.expect("a cross of two lines", lambda page: page["lines"] == 2 and not page["pending"])
    for tilt in (1, -1):
        browser.run("Object.assign(lookPage.picture.view, {turn: 0, tilt: %d * Math.PI / 2, isFitted: true}); lookPage.picture.turnBy(0, 0)" % tilt)
        time.sleep(0.3)
        middle, aside = browser.run(SHADES % "0.5"), browser.run(SHADES % "0.15")
        near, other = (0, 1) if tilt > 0 else (1, 0)
        trial.told("the nearer line covers the other one", middle[0] == middle[1] == aside[near] != aside[other], (middle, aside))
    trial.is_quiet()


def is_like(one: bytes, other: bytes) -> bool:
    """Whether two drawings have the same points, but for what is rounded."""
    values = [[float(value) for path in xml.etree.ElementTree.fromstring(data).iter(NAMESPACE + "path")
               for pair in path.get("d", "")[1:].rstrip("Z").split() for value in pair.split(",")]
              for data in (one, other)]
    return len(values[0]) == len(values[1]) and all(abs(a - b) < 0.01 for a, b in zip(*values))


TRIALS = [exports, png, shaded]
