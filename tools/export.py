"""Writes the last level of a script as a file for other programs.

usage: tools/export SCRIPT FILE [--level N] [--step LENGTH] [--turn DEGREES] [--tilt DEGREES] [--size N] [--ground COLOUR] [--limit N]
                    [--program PATH]
       tools/export SCRIPT FILE --sheet VARIES [--sheet VARIES] [--limit N] [--program PATH]

The end of FILE says the kind. Drawings: .svg has a path for each run of connected segments of one width, a title and the script (drawing
programs, plotters); .png and .pdf are made of it by rsvg-convert. Lines: .obj has them in space (Blender, Houdini), .dxf polylines on a layer for
each width (cutters), by ezdxf, or single lines without it. Tubes: .glb and .gltf are glTF, as thick as the lines are wide. A step of the lattice
has the LENGTH given, 10 in an SVG and 1 in the others; angles are exact, 60 degrees on the hexagonal lattice. A drawing is turned to the right
by --turn; in space, --turn turns around what is up, 45 by default, and --tilt is from how far above one looks. The longer side of a PNG has N
points, 2400 by default, and that of a PDF N millimetres, 200 by default; the ground is transparent, or has the COLOUR. Of a script that has
a refusal nothing is written: the refusals are told, with what was wrong. SCRIPT may be `-` for standard input. Without --program a program
is taken that is newer than its sources.

With --sheet FILE, an .svg or a .png, gets pictures of variants beside each other, each drawn by a program of its own, as many at once as there
are processors, and below each how much of it was asked anew of all against the script. VARIES is seed=1..9, depth=0..5, or 3.2=1..9/2: the
second number of line 3, from 1 to 9 by steps of 2. Two of them make a grid, the second one downwards.
"""

from __future__ import annotations

import os
from typing import Any, NoReturn

from desk import as_text
from figure import Refused, figure_of
from formats import KINDS, Unfit, run_rsvg, titled, wish_of, written
from hints import LIMIT, as_told, hint
from programs import program_of
from sheets import Sheet, axis_of_word, sheet_svg
from telling import Words, give_up, say
from texts import read_script

WISHES = ("step", "turn", "tilt", "size", "ground")


def words_of_tool() -> Any:
    parser = Words(__doc__)
    parser.add_argument("script")
    parser.add_argument("file")
    parser.add_argument("--level", type=int)
    for word in (*WISHES, "limit", "program"):
        parser.add_argument("--" + word)
    parser.add_argument("--sheet", action="append")
    options = parser.parse_args()
    options.kind = os.path.splitext(options.file)[1][1:].lower()
    if options.sheet:
        if options.kind not in ("svg", "png"):
            parser.error("a sheet is an .svg or a .png, and %s ends in neither" % options.file)
        if any(getattr(options, word) is not None for word in ("level", *WISHES)):
            parser.error("with --sheet go --limit and --program alone")
        return options
    if options.kind not in KINDS:
        parser.error("%s ends in none of %s" % (options.file, ", ".join("." + kind for kind in KINDS)))
    if options.level is not None and options.level < 0:
        parser.error("a level is at least 0")
    try:
        options.wish = wish_of(options.kind, {word: getattr(options, word) for word in WISHES})
    except Unfit as why:
        parser.error(str(why))
    return options


def write_sheet(options: Any, script: bytes, words: list[str]) -> int:
    """Writes pictures of variants of the script into one file."""
    lines = as_text(script).replace("\r\n", "\n").split("\n")
    try:
        sheet = Sheet([program_of(options.program, words)] + words, lines, [axis_of_word(word) for word in options.sheet])
    except Unfit as unfit:
        return give_up(str(unfit), 2)
    sheet.wait()
    data = "".join(line + "\n" for line in sheet_svg(sheet)).encode()
    try:
        data = run_rsvg("png", data, []) if options.kind == "png" else data
    except Unfit as why:
        give_up(str(why))
    with open(options.file, "wb") as file:
        file.write(data)
    say("%s: %d pictures, %d of them drawn" % (options.file, len(sheet.cells), sum(cell.has_picture() for cell in sheet.cells)))
    return 0


def tell_refusals(refused: Refused, program: str, options: Any, words: list[str]) -> NoReturn:
    """Tells each refused line with what was wrong, and that nothing is written."""
    limit = int(options.limit or LIMIT)

    def meaning(line: bytes, reply: bytes, taken: list[bytes]) -> str:
        return as_told(hint(line, reply.decode("latin-1"), taken, limit, words=[program, *words]))

    for text in refused.each(meaning=meaning):
        say(text)
    give_up("%s is not written" % options.file)


def main() -> int:
    options = words_of_tool()
    script = read_script(options.script, say)
    words = ["--limit", options.limit] if options.limit else []
    if options.sheet:
        return write_sheet(options, script, words)
    asked = {word: getattr(options, word) for word in WISHES}
    program = program_of(options.program, words)
    try:
        figure = figure_of(program, script, options.level, words)
        name = "" if options.script == "-" else options.script
        wish = wish_of(options.kind, asked, titled(name, options.level), script.decode("utf-8", "surrogateescape"))
        data, told = written(options.kind, figure, wish)
    except Refused as refused:
        tell_refusals(refused, program, options, words)
    except Unfit as why:
        give_up(str(why))
    with open(options.file, "wb") as file:
        file.write(data)
    if told:
        say(told)
    say("%s: %d segments in %d runs" % (options.file, sum(len(places) - 1 for _, places in figure.runs), len(figure.runs)))
    return 0
