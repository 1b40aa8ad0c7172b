"""Compares the segments of eight curves with places made by formulas, what nesting and depth cost at two sizes, and edits with deriving anew.

usage: conformance/curves [--program PATH]

The curves are scripts of examples/, at each depth up to the one given in the table below. Their places are computed here from
the digits of a segment's number, in whole numbers and without rewriting anything: that of Koch's curves and of the Sierpinski
gasket by its heading, a sum over the digits; the dragon's heading by the changes between binary digits; Hilbert's and Peano's
curves by their known maps from a number to a place; the Cantor set by ternary digits that are 0 or 2.

The rows on cost are those of `squares.py`: instructions for each symbol may not grow with a script's size; and those of `anew.py`: no edit,
undo or redo costs more than a fifth more than to derive anew what it leaves, but those that are named there. They want valgrind.
"""

from __future__ import annotations

import os
import re
import subprocess
from collections.abc import Callable, Iterable, Iterator, Sequence

from anew import dear_edits
from programs import TOP, program_of
from squares import squares
from telling import Words

Place = tuple[int, int]
Segments = list[tuple[Place, Place]]
SQUARE = [(0, 1), (-1, 0), (0, -1), (1, 0)]
HEXAGONAL = [(1, 0), (0, 1), (-1, 1), (-1, 0), (0, -1), (1, -1)]


def digits(number: int, base: int, count: int) -> list[int]:
    """The last so many digits of a number, the first of them first."""
    return [number // base ** place % base for place in reversed(range(count))]


def along(directions: Sequence[Place], headings: Iterable[int]) -> list[Place]:
    """The places from the origin on, each one step from the one before in the direction of its heading."""
    places: list[Place] = [(0, 0)]
    for heading in headings:
        (x, y), (dx, dy) = places[-1], directions[heading % len(directions)]
        places.append((x + dx, y + dy))
    return places


def joined(places: list[Place]) -> Segments:
    """The segments between neighbouring places."""
    return list(zip(places, places[1:]))


def by_digit_sums(directions: Sequence[Place], parts: Sequence[int], sides: int = 1, side_turn: int = 0, first: int = 0) -> Callable[[int], Segments]:
    """The curves of Koch: a segment's heading is the sum of what its digits turn, and of the turns between the sides before."""
    def segments(depth: int) -> Segments:
        each = len(parts) ** depth
        return joined(along(directions, (first + side_turn * (number // each) + sum(parts[digit] for digit in digits(number, len(parts), depth))
                                         for number in range(sides * each))))
    return segments


def dragon(depth: int) -> Segments:
    """The heading is the number of changes between neighbouring binary digits."""
    return joined(along(SQUARE, (bin(number ^ number >> 1).count("1") for number in range(2 ** depth))))


def sierpinski(depth: int) -> Segments:
    """Each ternary digit d turns by 1 - d, to the other side after each digit that isn't 1."""
    def heading(number: int) -> int:
        side, turned = 1, -(depth % 2)
        for digit in digits(number, 3, depth):
            turned += side * (1 - digit)
            side = side if digit == 1 else -side
        return turned
    return joined(along(HEXAGONAL, map(heading, range(3 ** depth))))


def hilbert(depth: int) -> Segments:
    """The place of a number on Hilbert's curve, a pair of its binary digits at a time from the last one on."""
    def place(number: int) -> Place:
        x = y = 0
        for level in range(depth):
            pair = number >> 2 * level & 3
            right, up = pair >> 1, (pair ^ pair >> 1) & 1
            if not up:
                if right:
                    x, y = 2 ** level - 1 - x, 2 ** level - 1 - y
                x, y = y, x
            x, y = x + right * 2 ** level, y + up * 2 ** level
        return -y, x
    return joined([place(number) for number in range(4 ** depth)])


def peano(depth: int) -> Segments:
    """Peano's own formula: ternary digits go to x and y by turns, each turned round where those that went to the other are odd."""
    def place(number: int) -> Place:
        x = y = odd_x = odd_y = 0
        ternary = digits(number, 3, 2 * depth)
        for for_x, for_y in zip(ternary[::2], ternary[1::2]):
            x = 3 * x + (2 - for_x if odd_y else for_x)
            odd_x ^= for_x & 1
            y = 3 * y + (2 - for_y if odd_x else for_y)
            odd_y ^= for_y & 1
        return x, y
    return joined([place(number) for number in range(9 ** depth)])


def cantor(depth: int) -> Segments:
    """A segment starts at the number whose ternary digits are twice the binary digits of the segment's number."""
    starts = [sum(2 * digit * 3 ** place for place, digit in enumerate(reversed(digits(number, 2, depth)))) for number in range(2 ** depth)]
    return [((start, 0), (start + 1, 0)) for start in starts]


# A script of examples/, the greatest depth, and the segments at a depth.
CURVES = [
    ("koch_island", 3, by_digit_sums(SQUARE, [0, -1, 0, 1, 1, 0, -1, 0], sides=4, side_turn=-1)),
    ("quadratic_snowflake", 5, by_digit_sums(SQUARE, [0, 1, 0, -1, 0], first=-1)),
    ("snowflake", 5, by_digit_sums(HEXAGONAL, [0, 1, -1, 0], sides=3, side_turn=-2)),
    ("dragon", 12, dragon),
    ("sierpinski", 7, sierpinski),
    ("hilbert", 6, hilbert),
    ("peano", 4, peano),
    ("cantor", 8, cantor)]


def drawn(program: str, name: str, depths: Iterable[int]) -> Iterator[Segments]:
    """What the program draws at each depth: lists of pairs of places, their third coordinates and widths left out."""
    with open(os.path.join(TOP, "examples", name + ".lsys")) as file:
        system = [line for line in file.read().split("\n") if re.match("axiom|production|hom|lattice|ignore", line)]
    script = "\n".join(system + ["depth %d\nsegments" % depth for depth in depths]) + "\n"
    written = subprocess.run([program], input=script, stdout=subprocess.PIPE, text=True).stdout
    for part in re.split("^segments ", written, flags=re.M)[1:]:
        count, *lines = [line for line in part.split("\n") if line and not line.startswith("ok ")]
        numbers = [[int(number) for number in line.split(" ")] for line in lines]
        if int(count) != len(lines):
            numbers = []
        yield [((line[0], line[1]), (line[3], line[4])) for line in numbers]


def main() -> int:
    parser = Words(__doc__)
    parser.add_argument("--program")
    options = parser.parse_args()
    program = program_of(options.program)
    failed = 0
    for name, greatest, segments in CURVES:
        depths = range(greatest + 1)
        pictures = list(drawn(program, name, depths))
        agree = len(pictures) == len(depths) and all(picture == segments(depth) for depth, picture in zip(depths, pictures))
        failed += not agree
        print("%-20s %s at depths 0 to %d, %d segments in all" % (name, "agrees" if agree else "DIFFERS", greatest, sum(map(len, pictures))))
    failed += squares(program) + dear_edits(program)
    return 1 if failed else 0
