"""Reads back the files that tools/export writes: plainly, and by other programs where they are installed. Each reader gives runs: a width and the
points of a line, in the order of the file, in what the file measures by.

A reader that isn't here says what it needs. Nothing is installed.
"""

from __future__ import annotations

import base64
import json
import math
import os
import re
import shutil
import struct
import subprocess
import sys
import xml.etree.ElementTree
from collections.abc import Iterator, Sequence
from typing import Any

from formats import python_with

# A point, and a run: its width and its points.
Point = tuple[float, ...]
Run = tuple[float, list[Point]]
NAMESPACE = "{http://www.w3.org/2000/svg}"
INKEX = "/usr/share/inkscape/extensions"
NUMBER = re.compile(r"[-+]?[0-9.]+(?:e[-+]?\d+)?")
# The longer side of what rsvg-convert draws to be read again, and to what part of a point it tells places.
LONG_SIDE, TOLD_TO = 20000, 1 / 128
BY_EZDXF = """
import sys, json, ezdxf
for path in sys.argv[1:]:
    drawing = ezdxf.readfile(path)
    if drawing.audit().errors:
        raise SystemExit("errors in " + path)
    runs = []
    for line in drawing.modelspace():
        points = [list(line.dxf.start), list(line.dxf.end)] if line.dxftype() == "LINE" else [list(vertex.dxf.location) for vertex in line.vertices]
        runs.append([line.dxf.layer, points + (points[:1] if line.dxftype() == "POLYLINE" and line.is_closed else [])])
    print(json.dumps(runs))
"""
BY_INKEX = """
import sys, json, inkex
for path in sys.argv[1:]:
    root, runs = inkex.load_svg(path).getroot(), []
    for line in root.xpath("//svg:path"):
        points = [list(point) for point in line.path.transform(line.composed_transform()).to_absolute().end_points]
        runs.append([line.get("stroke-width"), points])
    print(json.dumps(runs))
"""

BY_PILLOW = """
import sys, json
from PIL import Image
Image.MAX_IMAGE_PIXELS = None
for path, places in json.load(sys.stdin):
    image = Image.open(path).convert("RGBA")
    width, height = image.size
    ink = image.getchannel("A")
    data = ink.load()
    near = lambda x, y: max(data[a, b] for a in range(x - 1, x + 2) for b in range(y - 1, y + 2) if 0 <= a < width and 0 <= b < height)
    full = [at for at, value in enumerate(ink.getdata()) if value > 200]
    some = [(at % width, at // width) for at in full[::max(1, len(full) // 100)]]
    dark = all(max(image.getpixel(place)[:3]) < 30 for place in some)
    corners = [data[x, y] for x in (0, width - 1) for y in (0, height - 1)]
    print(json.dumps([width, height, corners, [near(int(x), int(y)) for x, y in places], some, dark]))
"""


def text_at(path: str) -> str:
    with open(path, encoding="utf-8") as file:
        return file.read()


def svg_paths(text: str) -> Iterator[Run]:
    """The paths of an SVG, each by its width and its points, with y going up, moved as it says."""
    for path in xml.etree.ElementTree.fromstring(text).iter(NAMESPACE + "path"):
        words = path.get("d", "").strip()
        values = list(map(float, NUMBER.findall(words)))
        points = list(zip(values[::2], values[1::2]))
        points += points[:1] if words.endswith("Z") else []
        width = path.get("stroke-width") or re.findall(r"stroke-width:([^;]+)", path.get("style", ""))[0]
        matrix = list(map(float, NUMBER.findall(path.get("transform", ""))))
        a, b, c, d, e, f = matrix or (1, 0, 0, 1, 0, 0)
        yield float(width) * math.sqrt(abs(a * d - b * c)), [(a * x + c * y + e, -(b * x + d * y + f)) for x, y in points]


def box_of(text: str) -> list[float]:
    return list(map(float, re.findall(r'viewBox="([^"]*)"', text)[0].split()))


def back_in(text: str, box: Sequence[float]) -> list[Run]:
    """The runs of a drawing, as in another one that has this box with the same middle and longer side."""
    left, top, width, height = box_of(text)
    factor = max(box[2:]) / max(width, height)
    across, down = box[0] + box[2] / 2 - factor * (left + width / 2), box[1] + box[3] / 2 - factor * (top + height / 2)
    return [(stroke * factor, [(x * factor + across, y * factor - down) for x, y in points]) for stroke, points in svg_paths(text)]


def plain_svg(paths: Sequence[str]) -> list[list[Run]]:
    return [list(svg_paths(text_at(path))) for path in paths]


def svg_by_rsvg(paths: Sequence[str]) -> list[list[Run]]:
    found = []
    for path in paths:
        box = box_of(text_at(path))
        side = "--width" if box[2] >= box[3] else "--height"
        ran = subprocess.run(["rsvg-convert", "-u", "-a", "--format=svg", side, str(LONG_SIDE), path], stdout=subprocess.PIPE, check=True)
        found.append(back_in(ran.stdout.decode(), box))
    return found


def pdf_by_poppler(paths: Sequence[str]) -> list[list[Run]]:
    """A PDF as poppler draws it, in what the SVG beside it measures by."""
    found = []
    for path in paths:
        drawn = subprocess.run(["pdftocairo", "-svg", path, "-"], stdout=subprocess.PIPE, check=True).stdout.decode()
        found.append(back_in(drawn, box_of(text_at(path[:-4] + ".svg"))))
    return found


def svg_by_inkscape(paths: Sequence[str]) -> list[list[Run]]:
    ran = run_by(python_with("inkex") or "/usr/bin/python3", BY_INKEX, paths)
    return [[(float(width), [(x, -y) for x, y in points]) for width, points in json.loads(line)] for line in ran]


def run_by(python: str | None, script: str, paths: Sequence[str]) -> list[str]:
    """What a script prints of files, a line for each."""
    environment = {**os.environ, "PYTHONPATH": INKEX, "PYTHONDONTWRITEBYTECODE": "1"}
    ran = subprocess.run([python or sys.executable, "-c", script, *paths], capture_output=True, env=environment, text=True)
    if ran.returncode:
        raise RuntimeError(ran.stderr.strip().split("\n")[-1])
    return ran.stdout.splitlines()


def width_in(name: str) -> int:
    return int(name.rpartition("_")[2])


def plain_dxf(paths: Sequence[str]) -> list[list[Run]]:
    """The lines and polylines of a DXF, each record of which is a number and a value, on two lines."""
    return [list(runs_of_dxf(text_at(path).splitlines())) for path in paths]


def runs_of_dxf(lines: list[str]) -> Iterator[Run]:
    entity: dict[str, str] = {}
    points: list[Point] = []

    def place(*keys: str) -> Point:
        return tuple(float(entity.get(key, 0)) for key in keys)
    for code, value in list(zip(map(str.strip, lines[::2]), map(str.strip, lines[1::2]))) + [("0", "END")]:
        if code == "0":
            kind = entity.get("0")
            if kind == "LINE":
                yield width_in(entity["8"]), [place("10", "20", "30"), place("11", "21", "31")]
            elif kind == "POLYLINE":
                width, is_closed, points = width_in(entity["8"]), int(entity["70"]) & 1, []
            elif kind == "VERTEX":
                points.append(place("10", "20", "30"))
            elif kind == "SEQEND":
                yield width, points + (points[:1] if is_closed else [])
            entity = {}
        entity[code] = value


def dxf_by_ezdxf(paths: Sequence[str]) -> list[list[Run]]:
    return [[(width_in(layer), points) for layer, points in json.loads(line)] for line in run_by(python_with("ezdxf"), BY_EZDXF, paths)]


def plain_obj(paths: Sequence[str]) -> list[list[Run]]:
    return [list(runs_of_obj(text_at(path).splitlines())) for path in paths]


def runs_of_obj(lines: list[str]) -> Iterator[Run]:
    points: list[Point] = []
    width = 0
    for line in lines:
        word, *rest = line.split()
        if word == "v":
            points.append(tuple(map(float, rest)))
        elif word == "g":
            width = width_in(rest[0])
        elif word == "l":
            yield width, [points[int(place) - 1] for place in rest]


def by_assimp(path: str) -> Any:
    """The meshes of a file, as assimp reads them."""
    out = path + ".json"
    subprocess.run(["assimp", "export", path, out, "-fassjson"], stdout=subprocess.DEVNULL, check=True)
    with open(out) as file:
        return json.load(file)["meshes"]


def in_threes(values: Sequence[Any]) -> list[Any]:
    return list(zip(values[::3], values[1::3], values[2::3]))


def obj_by_assimp(paths: Sequence[str]) -> list[list[Run]]:
    return [[(width_in(mesh["name"]), [points[end] for end in face]) for mesh in by_assimp(path) for points in [in_threes(mesh["vertices"])]
             for face in mesh["faces"]]
            for path in paths]


def tubes_by_assimp(paths: Sequence[str]) -> list[list[Run]]:
    return [[run for mesh in by_assimp(path) for run in tubes_of(mesh["name"], in_threes(mesh["vertices"]), in_threes(mesh["normals"]),
                                                                 mesh["faces"])] for path in paths]


def plain_tubes(paths: Sequence[str]) -> list[list[Run]]:
    return [list(runs_of_glb(path)) for path in paths]


def runs_of_glb(path: str) -> Iterator[Run]:
    """The tubes of a file of glTF, of one text or of bytes."""
    with open(path, "rb") as file:
        data = file.read()
    if path.endswith(".glb"):
        length = struct.unpack("<I", data[12:16])[0]
        told, numbers = json.loads(data[20:20 + length]), data[28 + length:]
    else:
        told = json.loads(data)
        numbers = base64.b64decode(told["buffers"][0]["uri"].partition(",")[2])

    def values(number: int) -> tuple[Any, ...]:
        view, kind = told["bufferViews"][told["accessors"][number]["bufferView"]], {5126: "f", 5125: "I"}[told["accessors"][number]["componentType"]]
        return struct.unpack_from("<%d%s" % (view["byteLength"] // 4, kind), numbers, view["byteOffset"])
    for mesh in told.get("meshes", []):
        primitive = mesh["primitives"][0]
        places, outward = (in_threes(values(primitive["attributes"][name])) for name in ("POSITION", "NORMAL"))
        yield from tubes_of(mesh["name"], places, outward, in_threes(values(primitive["indices"])))


def tubes_of(name: str, places: list[Point], outward: list[Point], faces: Sequence[Sequence[int]], sides: int = 8) -> Iterator[Run]:
    """The segments along which tubes go: from the middle of a ring to that of the next one that triangles lead to. Each point of a ring has to be
    as far from the tube's middle as its width says."""
    middles = [tuple(sum(place[axis] for place in places[first:first + sides]) / sides for axis in range(3))
               for first in range(0, len(places), sides)]
    width, last = width_in(name), None
    for face in faces:
        rings = sorted({corner // sides for corner in face})
        if len(rings) == 2 and rings != last:
            last = rings
            check_ring(places, outward, [ring * sides for ring in rings], middles[rings[0]], middles[rings[1]], width)
            yield width, [middles[ring] for ring in rings]


def check_ring(places: list[Point], outward: list[Point], firsts: Sequence[int], start: Point, stop: Point, width: float) -> None:
    """Raises where a ring isn't around the line from start to stop, in the distance of half a tenth of its width."""
    away = [to - at for at, to in zip(start, stop)]
    length = math.sqrt(sum(value * value for value in away))
    far = max(abs(value) for value in (*start, *stop, 1))
    # What a reader rounds has no direction.
    if length <= 1e-6 * far:
        return
    for first, middle in zip(firsts, (start, stop)):
        for place, normal in zip(places[first:first + 8], outward[first:first + 8]):
            offset = [value - at for value, at in zip(place, middle)]
            along = sum(value * step for value, step in zip(offset, away)) / length
            distance = math.sqrt(max(0, sum(value * value for value in offset) - along * along))
            leans = abs(sum(value * step for value, step in zip(normal, away))) / length
            if abs(distance - width / 20) > 1e-4 * far + 1e-3 * width or leans > 1e-3:
                raise RuntimeError("a ring is %g from its line, and leans %g" % (distance, leans))


def seen_in_png(asked: list[Any]) -> list[Any]:
    """Of each PNG, named with places: its size, how opaque its corners are, how much ink is at the places, and some of the points that have ink."""
    python = python_with("PIL") or sys.executable
    ran = subprocess.run([python, "-c", BY_PILLOW], input=json.dumps(asked).encode(), stdout=subprocess.PIPE, check=True)
    return list(map(json.loads, ran.stdout.splitlines()))


def has_inkex() -> bool:
    if not os.path.isdir(os.path.join(INKEX, "inkex")):
        return False
    return subprocess.run(["/usr/bin/python3", "-c", "import inkex"], env={**os.environ, "PYTHONPATH": INKEX},
                          stderr=subprocess.DEVNULL).returncode == 0


def lacks(program: str, package: str) -> str:
    """What is said where a program isn't in PATH."""
    return "" if shutil.which(program) else "%s isn't installed (in Debian: %s)" % (program, package)


def lacks_module(module: str, package: str) -> str:
    return "" if python_with(module) else "%s isn't installed (in Debian: %s)" % (module, package)
