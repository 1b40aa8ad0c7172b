"""The last level of a script as a figure: runs of connected segments, and where they are drawn. formats.py writes it for other programs.

Nothing is derived here: the program `lsys` is asked for the segments of its picture, and they are joined. It stands on replies.py
and on the standard library, and runs where these two files are.
"""

from __future__ import annotations

import math
import subprocess
from collections.abc import Callable, Iterable, Iterator, Mapping, Sequence

from replies import Caret, Lines, caret_below, commands_of, refusal, reply_from

# A place of a lattice, what puts one into the plane or into space, a run so put, and what a refusal of a line means after the edits before.
Place = tuple[int, int, int]
Put = Callable[[float, float, float], tuple[float, ...]]
Drawn = tuple[int, list[tuple[float, ...]]]
Meaning = Callable[[bytes, bytes, list[bytes]], str]
# Lines that only print, and are left out where only the figure is wanted.
QUERIES = (b"string", b"segments", b"svg", b"show", b"bounds")
NUMBERED = (b"string", b"at", b"growth")
HALF, HEIGHT = 0.5, math.sqrt(3) / 2
# The view in space that has three equal angles in the plane: so far turned, and seen from so far above, in degrees. A step along each axis is
# drawn with the length 1 there, and in other views by the same scale.
CORNER_TURN, CORNER_TILT, CORNER_SCALE = 45, math.degrees(math.asin(math.sqrt(1 / 3))), math.sqrt(1.5)
# Where a place of a lattice is in space, and where it is drawn in the plane, upwards; a step has the length 1.
SPACE: dict[str, Put] = {"square": lambda x, y, z: (x, y, 0), "hexagonal": lambda x, y, z: (x + HALF * y, HEIGHT * y, 0), "cubic": lambda x, y,
                         z: (x, y, z)}
PLANE: dict[str, Put] = {"square": lambda x, y, z: (x, y), "hexagonal": lambda x, y, z: (x + HALF * y, HEIGHT * y),
         "cubic": lambda x, y, z: (HEIGHT * (x - y), z - HALF * (x + y))}


def plane_of(lattice: str, turn: float | None = None, tilt: float | None = None) -> Put:
    """Where a place of a lattice is drawn in the plane, upwards, in a view: a sheet turned to the right by degrees, or space turned around what
    is up and seen from so many degrees above. Without a view as in the table."""
    if turn is None and tilt is None:
        return PLANE[lattice]
    if lattice != "cubic":
        flat = direction(turn or 0)

        def put_flat(x: float, y: float, z: float) -> tuple[float, ...]:
            right, up = PLANE[lattice](x, y, z)
            return turned(right, up, *flat)
        return put_flat
    along, across = direction(CORNER_TURN if turn is None else turn)
    level, steep = direction(CORNER_TILT if tilt is None else tilt)

    def put(x: float, y: float, z: float) -> tuple[float, ...]:
        right, back = turned(x, y, along, -across)
        return CORNER_SCALE * right, CORNER_SCALE * (level * z - steep * back)
    return put


def direction(degrees: float) -> tuple[float, float]:
    """The cosine and the sine, which are whole numbers where they should be."""
    quarters: dict[float, tuple[float, float]] = {0: (1, 0), 90: (0, 1), 180: (-1, 0), 270: (0, -1)}
    turn = math.radians(degrees)
    return quarters.get(degrees % 360) or (math.cos(turn), math.sin(turn))


def turned(x: float, y: float, along: float, across: float) -> tuple[float, float]:
    """A place, turned to the right by the angle of this cosine and sine."""
    return along * x + across * y, along * y - across * x


class Refused(Exception):
    """A script of which lines were refused: each line by its number, itself and its reply; or there was no picture, for which number and
    line are 0 and nothing."""

    def __init__(self, answered: list[tuple[int, bytes, bytes]]) -> None:
        Exception.__init__(self, answered)
        self.answered = answered

    def each(self, with_caret: Caret = caret_below, meaning: Meaning = lambda line, reply, taken: "") -> Iterator[str]:
        """The words for a person, of one refusal after another. `meaning` tells what a refusal means, of its line, its reply and the edits
        that were taken before."""
        taken = []
        for number, line, reply in self.answered:
            if reply.startswith(b"ok "):
                taken.append(line)
            elif number and reply.startswith(b"refused "):
                yield refusal(number, line, reply, with_caret, meaning(line, reply, taken))
            elif not number:
                means = meaning(line, reply, taken) if line else ""
                yield "no picture: %s" % reply.decode(errors="replace").strip() + (": " + means if means else "")

    def told(self, with_caret: Caret = caret_below) -> str:
        return "\n".join(self.each(with_caret))

    def __str__(self) -> str:
        return self.told()


class Figure:
    """The runs of a picture: each a width and the places that a pen goes through, on a lattice."""

    def __init__(self, lattice: str, runs: list[tuple[int, list[Place]]]) -> None:
        self.lattice, self.runs = lattice, runs

    def segments(self) -> Iterator[tuple[int, ...]]:
        """All segments of the runs, as the program would list them, in the order of the runs."""
        for width, places in self.runs:
            for start, stop in zip(places, places[1:]):
                yield start + stop + (width,)

    def points(self, where: Mapping[str, Put]) -> Iterator[Drawn]:
        """Each run's width and the points of its places, each place put by one of the tables above."""
        return self.drawn(where[self.lattice])

    def drawn(self, put: Put) -> Iterator[Drawn]:
        """The same, each place put so."""
        for width, places in self.runs:
            yield width, [put(*place) for place in places]


def joined(segments: Iterable[tuple[int, ...]]) -> list[tuple[int, list[Place]]]:
    """Runs of segments of one width, each of which begins where the one before it ended. Where the last run doesn't go on, an earlier
    one may that ended there. Each segment is looked at once."""
    runs: list[tuple[int, list[Place]]] = []
    ends: dict[tuple[Place, int], list[Place]] = {}
    for x, y, z, to_x, to_y, to_z, width in segments:
        start, stop = (x, y, z), (to_x, to_y, to_z)
        places = ends.pop((start, width), None)
        if places is None:
            places = [start]
            runs.append((width, places))
        places.append(stop)
        ends[stop, width] = places
    return runs


def figure_in(reply: str, lattice: str) -> Figure:
    """The figure of the segments that a program listed."""
    return Figure(lattice, joined(tuple(map(int, row.split())) for row in reply.split("\n")[1:-1]))


def asked(script: bytes, level: int | None) -> tuple[bytes, list[tuple[int, bytes]]]:
    """The script that is sent, without the lines that only print and with the questions for the figure after it, and its commands
    with their numbers."""
    commands = [(number, line) for number, line in commands_of(script) if line.split()[:1] == [] or not is_query(line)]
    last = [b"depth %d" % level] if level is not None else []
    return b"\n".join([line for _, line in commands] + last + [b"show", b"segments"]) + b"\n", commands + [(0, line) for line in last]


def is_query(line: bytes) -> bool:
    words = line.split()
    return words[0] in QUERIES and len(words) == 1 or words[0] in NUMBERED and len(words) == 2 and words[1].isdigit()


def figure_of(program: str, script: bytes, level: int | None = None, words: Sequence[str] = ()) -> Figure:
    """The figure that a program draws of a script, at another level than the script's where one is given. Raises Refused where a line
    is refused or there is no picture."""
    sent, commands = asked(script, level)
    ran = subprocess.run([program] + list(words), input=sent, capture_output=True)
    lines = iter(ran.stdout.splitlines(True))

    def next_line() -> bytes:
        return next(lines, b"")

    replies = [next_line() for _ in commands]
    if any(reply.startswith(b"refused ") for reply in replies):
        raise Refused([pair + (reply,) for pair, reply in zip(commands, replies)])
    shown = list(reply_from(Lines(next_line)))
    first = next_line()
    if not first.startswith(b"segments "):
        why = first or ran.stderr or b"the program ended with status %d" % ran.returncode
        raise Refused([(0, b"", why)])
    lattice = next(line for line in shown if line.startswith(b"lattice ")).split()[1].decode()
    return Figure(lattice, joined(tuple(map(int, line.split())) for line in lines))


def number(value: float, places: int = 4) -> str:
    """A number with at most so many places after the point."""
    text = ("%.*f" % (places, value)).rstrip("0").rstrip(".")
    return "0" if text == "-0" else text


def path_of(points: Sequence[tuple[float, ...]], step: float, places: int = 4) -> str:
    """The words of an SVG path through these points, y going down; it is closed where it ends where it began."""
    is_closed = len(points) > 2 and points[0] == points[-1]
    words = ["%s,%s" % (number(x * step, places), number(-y * step, places)) for x, y in (points[:-1] if is_closed else points)]
    return "M" + " ".join(words) + ("Z" if is_closed else "")


def bounds_of(figure: Figure, step: float, margin: float, put: Put | None = None) -> tuple[float, float, float, float]:
    """The least box around a figure and its origin, with a margin: left, top, width and height."""
    xs: list[float] = [0]
    ys: list[float] = [0]
    for _, points in figure.drawn(put or PLANE[figure.lattice]):
        for x, y in points:
            xs.append(x)
            ys.append(-y)
    left, top = min(xs) * step - margin, min(ys) * step - margin
    return left, top, (max(xs) - min(xs)) * step + 2 * margin, (max(ys) - min(ys)) * step + 2 * margin


def box_of(figure: Figure, step: float, margin: float) -> list[str]:
    """The words of that box."""
    return list(map(number, bounds_of(figure, step, margin)))
