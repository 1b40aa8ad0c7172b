"""glTF of a picture: a tube along each run, as thick as its lines are wide, bent at each turn as a pipe is. A mesh for each width.

glTF is a JSON text and the bytes of numbers, written plainly here; nothing of Debian's writes it. Its second axis goes up, so what is up in
space goes there. A ring of points stands around each place that a run goes through, and its middle is that place.
"""

from __future__ import annotations

import array
import base64
import functools
import json
import math
import struct
import sys
from collections.abc import Iterable, Sequence
from typing import Any

# A vector of three numbers, and a ring of them.
Vector = tuple[float, ...]
Ring = tuple[Vector, ...]
SIDES = 8
# Numbers of a ring differ by less than this where they mean the same.
NEARLY = 1e-9
FLOAT, NUMBER, POINTS, TRIANGLES = 5126, 5125, 34962, 34963
# A line of width 1 is a tenth of a step wide, as it is drawn.
RADIUS = 1 / 20


def dot(one: Vector, other: Vector) -> float:
    return one[0] * other[0] + one[1] * other[1] + one[2] * other[2]


def cross(one: Vector, other: Vector) -> Vector:
    return one[1] * other[2] - one[2] * other[1], one[2] * other[0] - one[0] * other[2], one[0] * other[1] - one[1] * other[0]


def scaled(vector: Vector, factor: float) -> Vector:
    return vector[0] * factor, vector[1] * factor, vector[2] * factor


def plus(one: Vector, other: Vector) -> Vector:
    return one[0] + other[0], one[1] + other[1], one[2] + other[2]


def rounded(vector: Vector) -> Vector:
    """A vector whose small errors are gone, so that rings that mean the same are the same."""
    return tuple(round(value, 12) + 0.0 for value in vector)


@functools.lru_cache(4096)
def direction(away: Vector) -> Vector | None:
    """The unit vector of a way, or None of one without a length."""
    length = math.sqrt(dot(away, away))
    return rounded(scaled(away, 1 / length)) if length else None


@functools.lru_cache(4096)
def ring_around(along: Vector) -> Ring:
    """Unit vectors around a direction, to the left of each other."""
    other = (1.0, 0.0, 0.0) if abs(along[2]) > 0.9 else (0.0, 0.0, 1.0)
    right = cross(other, along)
    right = scaled(right, 1 / math.sqrt(dot(right, right)))
    up, turns = cross(along, right), [2 * math.pi * (side + 0.5) / SIDES for side in range(SIDES)]
    return tuple(rounded(plus(scaled(right, math.cos(turn)), scaled(up, math.sin(turn)))) for turn in turns)


@functools.lru_cache(4096)
def bend(ring: Ring, along: Vector, after: Vector) -> tuple[Ring, Ring]:
    """Where a tube of this ring is cut so that it goes on in another direction, and the ring of that one."""
    share = 1 + dot(along, after)
    cut = tuple(plus(vector, scaled(along, -dot(vector, after) / share)) for vector in ring)
    return cut, tuple(rounded(plus(vector, scaled(after, -dot(vector, after)))) for vector in cut)


@functools.lru_cache(4096)
def in_a_row(vectors: Ring) -> tuple[float, ...]:
    return tuple(value for vector in vectors for value in vector)


# The corners of two triangles at each side of a tube between two rings: which of the rings, and which of its points.
SIDE = [corner for side in range(SIDES) for after in [(side + 1) % SIDES]
        for corner in [(0, side), (0, after), (1, after), (0, side), (1, after), (1, side)]]


class Mesh:
    """The points, what is outward at each, and the triangles of all tubes of one width."""

    def __init__(self, radius: float) -> None:
        self.radius = radius
        self.places, self.outward, self.triangles = array.array("f"), array.array("f"), array.array("I")

    def ring(self, place: Vector, offsets: Ring, outward: Ring) -> int:
        """Puts a ring around a place, and gives the number of its first point."""
        first, radius = len(self.places) // 3, self.radius
        self.places.extend([at + radius * away for at, away in zip(place * SIDES, in_a_row(offsets))])
        self.outward.extend(in_a_row(outward))
        return first

    def side(self, one: int, other: int) -> None:
        """The side of a tube between two rings."""
        firsts = one, other
        self.triangles.extend([firsts[ring] + side for ring, side in SIDE])

    def cap(self, place: Vector, ring: Ring, along: Vector, is_end: bool) -> None:
        first = self.ring(place, ring, (along if is_end else scaled(along, -1),) * SIDES)
        for side in range(1, SIDES - 1):
            self.triangles.extend((first, first + side, first + side + 1) if is_end else (first, first + side + 1, first + side))

    def tube(self, points: Sequence[Vector], directions: list[Vector]) -> None:
        """A tube along points, of which each goes on in a direction. It is cut where it would go straight back."""
        along = directions[0]
        ring = ring_around(along)
        self.cap(points[0], ring, along, False)
        last = self.ring(points[0], ring, ring)
        for place, after in zip(points[1:], directions[1:] + [None]):
            share = None if after is None else dot(along, after)
            is_straight, ends = share is not None and share > 1 - NEARLY, share is None or share < NEARLY - 1
            cut, turned = (ring, ring) if is_straight or ends else bend(ring, along, after)
            here = self.ring(place, cut, ring)
            self.side(last, here)
            last = here
            if ends:
                self.cap(place, ring, along, True)
            if ends and after is not None:
                turned = ring_around(after)
                self.cap(place, turned, after, False)
            if not is_straight and after is not None:
                last = self.ring(place, turned if ends else cut, turned)
            if after is not None:
                along, ring = after, turned


def directions_of(points: Sequence[Vector]) -> list[Vector]:
    """The direction of each segment. One without a length goes on as the one before it, or as the first that has one."""
    found = [direction(rounded(plus(stop, scaled(start, -1)))) for start, stop in zip(points, points[1:])]
    known = [each for each in found if each is not None]
    last: Vector = known[0] if known else (0.0, 1.0, 0.0)
    directions = []
    for each in found:
        last = each or last
        directions.append(last)
    return directions


def meshes_of(runs: Iterable[tuple[int, list[Vector]]], step: float, is_upright: bool) -> dict[int, Mesh]:
    """The meshes by their widths. In space, the third axis goes up, and the second one away."""
    meshes: dict[int, Mesh] = {}
    for width, points in runs:
        mesh = meshes.setdefault(width, Mesh(width * step * RADIUS))
        points = [(x, z, -y) if is_upright else (x, y, z) for x, y, z in points]
        directions = directions_of(points)
        mesh.tube([scaled(point, step) for point in points], directions)
    return meshes


class Bytes:
    """The numbers of a file, and what the text tells of each part of them."""

    def __init__(self) -> None:
        self.data: list[bytes] = []
        self.views: list[dict[str, Any]] = []
        self.accessors: list[dict[str, Any]] = []

    def put(self, numbers: array.array[Any], kind: int, target: int, more: dict[str, Any]) -> int:
        """Puts a part, and gives its number."""
        if sys.byteorder == "big":
            numbers.byteswap()
        data = numbers.tobytes()
        self.views.append({"buffer": 0, "byteOffset": sum(map(len, self.data)), "byteLength": len(data), "target": target})
        self.data.append(data)
        self.accessors.append({"bufferView": len(self.views) - 1, "componentType": kind, **more})
        return len(self.accessors) - 1

    def put_vectors(self, numbers: array.array[Any], is_bounded: bool) -> int:
        more = {"count": len(numbers) // 3, "type": "VEC3"}
        if is_bounded:
            more.update({word: [find(numbers[axis::3]) for axis in range(3)] for word, find in (("min", min), ("max", max))})
        return self.put(numbers, FLOAT, POINTS, more)


def parts(runs: Iterable[tuple[int, list[Vector]]], step: float, is_upright: bool, kept: dict[str, str]) -> tuple[dict[str, Any], bytes]:
    """The text of a file as a value, without the place of its numbers, and the numbers' bytes. `kept` is told with the scene."""
    found = Bytes()
    meshes = []
    for width, mesh in meshes_of(runs, step, is_upright).items():
        attributes = {"POSITION": found.put_vectors(mesh.places, True), "NORMAL": found.put_vectors(mesh.outward, False)}
        triangles = found.put(mesh.triangles, NUMBER, TRIANGLES, {"count": len(mesh.triangles), "type": "SCALAR"})
        meshes.append({"name": "width_%d" % width, "primitives": [{"attributes": attributes, "indices": triangles, "material": 0}]})
    text: dict[str, Any] = {"asset": {"version": "2.0", "generator": "lsys"}, "scene": 0, "scenes": [{"name": kept["title"], "extras": kept}]}
    if meshes:
        surface = {"baseColorFactor": [0.6, 0.6, 0.6, 1.0], "metallicFactor": 0.0, "roughnessFactor": 0.7}
        text["scenes"][0]["nodes"] = list(range(len(meshes)))
        text.update({"nodes": [{"name": mesh["name"], "mesh": number} for number, mesh in enumerate(meshes)], "meshes": meshes,
                     "materials": [{"name": "lines", "pbrMetallicRoughness": surface}], "bufferViews": found.views, "accessors": found.accessors})
    return text, b"".join(found.data)


def with_buffer(text: dict[str, Any], data: bytes, place: dict[str, Any]) -> dict[str, Any]:
    return {**text, "buffers": [{"byteLength": len(data), **place}]} if data else text


def text(told: dict[str, Any], data: bytes) -> bytes:
    """The file as one text."""
    place = {"uri": "data:application/octet-stream;base64," + base64.b64encode(data).decode()}
    return json.dumps(with_buffer(told, data, place), indent=1).encode() + b"\n"


def binary(told: dict[str, Any], data: bytes) -> bytes:
    """The file as bytes: the text and the numbers one after the other."""
    words = json.dumps(with_buffer(told, data, {}), separators=(",", ":")).encode()
    words += b" " * (-len(words) % 4)
    chunks = struct.pack("<I4s", len(words), b"JSON") + words
    if data:
        chunks += struct.pack("<I4s", len(data), b"BIN\0") + data
    return struct.pack("<4sII", b"glTF", 2, 12 + len(chunks)) + chunks
