"""Checks that each picture is well-formed XML with the right box and bounds, over all cases, examples and N random scripts.

usage: conformance/pictures [N] [--program PATH] [--seed S]

Beside each `svg` of a script the check asks for `segments` and `bounds` too. A picture has a line for each segment, and the box is the
least that holds the origin and the ends of all lines, with a margin of 10. The bounds are those of the origin and the segments' ends, on
one of the lattices. By default 500 random scripts are run.
"""

from __future__ import annotations

import os
import re
import subprocess
import xml.etree.ElementTree
from collections.abc import Iterable, Iterator

from programs import TOP, program_of
from scripts import script
from scripts_in import scripts_in
from telling import Words

NAMESPACE = "{http://www.w3.org/2000/svg}"
PICTURE = re.compile(rb"^segments (\d+)\n((?:-?\d.*\n)*)bounds (.*)\n(<svg .*\n(?:<.*\n)*?</svg>\n)", re.M)


def box_of(lines: list[xml.etree.ElementTree.Element]) -> str:
    xs = [0] + [int(line.get(name, "")) for line in lines for name in ("x1", "x2")]
    ys = [0] + [int(line.get(name, "")) for line in lines for name in ("y1", "y2")]
    return "%d %d %d %d" % (min(xs) - 10, min(ys) - 10, max(xs) - min(xs) + 20, max(ys) - min(ys) + 20)


def bounds_of(segments: Iterable[Iterable[int]]) -> list[str]:
    """The bounds of a list of segments: on the square and the cubic lattice, and on the hexagonal one."""
    ends = [(0, 0, 0)] + [end for x, y, z, to_x, to_y, to_z, _ in segments for end in ((x, y, z), (to_x, to_y, to_z))]
    measured = [list(zip(*ends)), list(zip(*((x, y, x + y) for x, y, _ in ends)))]
    return [" ".join("%d %d" % (min(values), max(values)) for values in measures) for measures in measured]


def is_right(count: bytes, listed: bytes, bounds: bytes, picture: bytes) -> bool:
    if bounds.decode() not in bounds_of([map(int, line.split()) for line in listed.splitlines()]):
        return False
    try:
        root = xml.etree.ElementTree.fromstring(picture)
    except xml.etree.ElementTree.ParseError:
        return False
    lines = list(root)
    return (root.tag == NAMESPACE + "svg" and all(line.tag == NAMESPACE + "line" and line.get("stroke") == "black" for line in lines)
            and len(lines) == int(count) and root.get("viewBox") == box_of(lines))


def texts(count: int, seed: int) -> Iterator[tuple[str, bytes]]:
    for folder in ("conformance/cases", "examples"):
        for path in scripts_in(os.path.join(TOP, folder)):
            if not os.path.exists(path[:-len(".lsys")] + ".words"):
                with open(path, "rb") as file:
                    yield os.path.basename(path), file.read()
    for number in range(count):
        yield "%d-%d" % (seed, number), script(seed, number)


def main() -> int:
    parser = Words(__doc__)
    parser.add_argument("count", type=int, nargs="?", default=500)
    parser.add_argument("--program")
    parser.add_argument("--seed", type=int, default=1)
    options = parser.parse_args()
    program = program_of(options.program)
    scripts = pictures = segments = failed = 0
    for name, text in texts(options.count, options.seed):
        text = re.sub(rb"^[ \t]*svg[ \t]*(\r?\n|\r?$)", rb"segments\nbounds\nsvg\n", text, flags=re.M)
        written = subprocess.run([program], input=text, stdout=subprocess.PIPE, stderr=subprocess.DEVNULL).stdout
        found = PICTURE.findall(written)
        wrong = [picture for picture in found if not is_right(*picture)]
        if wrong or len(found) != written.count(b"<svg "):
            failed += 1
            print("WRONG %s" % name)
        scripts, pictures, segments = scripts + 1, pictures + len(found), segments + sum(int(count) for count, *_ in found)
    print("%d scripts, %d pictures with %d segments in all, %d scripts with a wrong one" % (scripts, pictures, segments, failed))
    return 1 if failed else 0
