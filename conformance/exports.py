"""Checks the files that tools/export writes, and the extension for Inkscape where Inkscape is installed.

usage: conformance/export [--program PATH] [--random N] [--keep FOLDER]

The pictures of examples/ and of N random scripts, 200 by default, are written as files of each kind. A table tells of each kind and each reader
that the file has the points of the program's own `segments`, one after another, and their widths: plainly read, by rsvg-convert, Inkscape's
modules, poppler, ezdxf, assimp and Pillow. A reader that isn't installed is skipped, and that is told; nothing is installed. An SVG keeps its
title and its script. The page's server sends the same bytes as tools/export writes. A curve is one run. Of a script that has a refusal
nothing is written, and the refusal is told with its line and a caret. With Inkscape's Python modules the extension draws a curve, a
plant and a curve in space, refuses a wrong script, and opens a group again, also of an exported SVG; without them that is skipped with a word.
With --keep the files are left in a folder.
"""

from __future__ import annotations

import os
import re
import subprocess
import tempfile
import time

from asking import Looking
from figure import figure_of
from formats import KINDS, wish_of, written
from programs import TOP, program_of
from readback import Picture, picture_of, random_pictures, read_back
from readers import INKEX, has_inkex
from telling import Words

EXAMPLES = os.path.join(TOP, "examples")
EXTENSION = os.path.join(TOP, "tools", "inkscape", "lsys_inkscape.py")
PYTHON = "/usr/bin/python3"
EMPTY = "<svg xmlns=\"http://www.w3.org/2000/svg\" width=\"210mm\" height=\"297mm\" viewBox=\"0 0 210 297\"/>\n"
WRONG = "axiom F\nproduction f: F => F[+F\ndepth 2\n"
TOLD = ("; line 2: refused syntax token 24: the `[` at column 21 isn't closed: a `]` is missing after it\n    production f: F => F[+F\n            "
        "               ^\n; %s is not written\n")
ONE = "F-F++F-F"
TOLD_INSIDE = "line 2: refused syntax token 24\n    production f: F => F[+F\N{CARET}"
CURVE = "axiom F\nproduction f: F => " + ONE + "\nlattice hexagonal\nhom twice: F => " + "-".join([ONE, ONE + "++" + ONE, ONE]) + "\ndepth %d\n"


def examples(program: str) -> list[Picture]:
    """The last pictures of all examples that draw."""
    found = []
    for name in sorted(name for name in os.listdir(EXAMPLES) if name.endswith(".lsys")):
        with open(os.path.join(EXAMPLES, name), "rb") as file:
            found.append(picture_of(program, name[:-5], file.read()))
    return list(filter(None, found))


# What is wanted of a file, beside what is usual: of the page's server, and by the words of tools/export.
USUAL: dict[str, str] = {}
WANTED = [
    *((kind, USUAL) for kind in KINDS), ("svg", {"turn": "30.5"}), ("svg", {"turn": "-20", "tilt": "60"}),
    ("png", {"size": "500", "ground": "white"}), ("pdf", {"size": "90", "tilt": "-10"}), ("glb", {"level": "1", "step": "2.5"})]


def same_bytes(program: str, folder: str) -> int:
    """The page's server sends what tools/export writes, of each kind."""
    differ = []
    for name in ("plant_b", "hilbert_cube"):
        path = os.path.join(EXAMPLES, name + ".lsys")
        looking = Looking([os.path.join(TOP, "tools", "look"), path, "--program", program, "--no-browser"], folder)
        for kind, wanted in WANTED:
            out = os.path.join(folder, "same." + kind)
            tool = [os.path.join(TOP, "tools", "export"), path, out, "--program", program]
            differ += [] if is_same(looking, tool, kind, wanted, out) else ["%s of %s, %s" % (kind, name, wanted)]
        looking.end()
    print("of %d files page and tools/export give the same bytes%s" % (2 * len(WANTED), ", NO: " + "; ".join(differ[:5]) if differ else ""))
    return len(differ)


def is_same(looking: Looking, words_of_tool: list[str], kind: str, wanted: dict[str, str], out: str) -> bool:
    """Whether a file is the same from both; where one can't have it for want of a program, nor can the other one."""
    ran = subprocess.run(words_of_tool + ["--%s=%s" % pair for pair in wanted.items()], stderr=subprocess.PIPE, text=True)
    sent = looking.client.ask("GET", "/export/%s?%s" % (kind, "&".join("%s=%s" % pair for pair in wanted.items())))
    if ran.returncode:
        return sent[0] == 501 and "isn't installed" in ran.stderr
    with open(out, "rb") as file:
        return sent[0] == 200 and file.read() == sent[2]


def refuses_words(program: str, folder: str) -> int:
    """Words that have no sense are told, and nothing is written."""
    script, failed = os.path.join(EXAMPLES, "plant_b.lsys"), []
    for words in (["x.svg", "--step=0"], ["x.svg", "--turn=nan"], ["x.png", "--size=9"], ["x.png", "--size=1e9"], ["x.png", "--ground=url(x)"],
                  ["x.pdf", "--size=x"],
                  ["x.gif"], ["x"], ["x.glb", "--tilt=inf"]):
        ran = subprocess.run([os.path.join(TOP, "tools", "export"), script, *words, "--program", program], cwd=folder, stderr=subprocess.PIPE,
                             text=True)
        is_told = ran.returncode == 2 and ran.stderr.count("\n") == 1 and "--help says more" in ran.stderr
        if not is_told or os.path.exists(os.path.join(folder, words[0])):
            failed.append("%s: %s" % (words, ran.stderr))
    print("words without sense are told in a line: %s" % ("yes" if not failed else "NO, but %s" % failed))
    return len(failed)


def curves(program: str) -> int:
    """A curve is one run, at each size, in a time that grows as its segments do."""
    failed, told = 0, []
    for depth in (5, 6, 7):
        begun = time.process_time()
        figure = figure_of(program, (CURVE % depth).encode())
        for kind in ("svg", "obj", "glb"):
            written(kind, figure, wish_of(kind, {}))
        failed += len(figure.runs) != 1 or len(figure.runs[0][1]) != 4 ** (depth + 2) + 1
        told.append("%d segments in %.2f s" % (4 ** (depth + 2), time.process_time() - begun))
    print("a curve is one run, %s: %s" % ("yes" if not failed else "NO", ", ".join(told)))
    return failed


def refused(program: str, folder: str) -> int:
    """What is told of a refused script, and that nothing is written."""
    script, out = os.path.join(folder, "wrong.lsys"), os.path.join(folder, "wrong.svg")
    with open(script, "w") as file:
        file.write(WRONG)
    ran = subprocess.run([os.path.join(TOP, "tools", "export"), script, out, "--program", program], capture_output=True,
                         text=True)
    is_right = ran.returncode == 1 and TOLD % out == ran.stderr and not os.path.exists(out)
    print("a refused script is told, and nothing is written: %s" % ("yes" if is_right else "NO, but %r" % ran.stderr))
    return not is_right


class Extension:
    """Runs the extension by Inkscape's Python, on a drawing in a folder."""

    def __init__(self, program: str, folder: str) -> None:
        self.program, self.folder = program, folder
        self.drawing = os.path.join(folder, "drawing.svg")

    def run(self, *words: str) -> tuple[str, str]:
        """What it says, and what it draws."""
        out = os.path.join(self.folder, "drawn.svg")
        ran = subprocess.run([PYTHON, EXTENSION, "--program=" + self.program, "--output=" + out, *words, self.drawing], stdout=subprocess.DEVNULL,
                             stderr=subprocess.PIPE, text=True, env={**os.environ, "PYTHONPATH": INKEX})
        if not os.path.exists(out):
            return ran.stderr, ""
        with open(out) as file:
            text = file.read()
        os.remove(out)
        return ran.stderr, text

    def draw_on(self, text: str) -> None:
        with open(self.drawing, "w") as file:
            file.write(text)


def exported_again(inkscape: Extension, program: str) -> list[str]:
    """The extension finds the script in an SVG of tools/export, too."""
    subprocess.run([os.path.join(TOP, "tools", "export"), os.path.join(EXAMPLES, "koch_island.lsys"), inkscape.drawing, "--program", program],
                   stderr=subprocess.DEVNULL, check=True)
    with open(inkscape.drawing) as file:
        island = file.read()
    inkscape.draw_on(island.replace("<g ", "<g id=\"island\" ", 1))
    said, again = inkscape.run("--id=island", "--level=1")
    return [] if not said and again.count("<path") == 1 and again.count("production f") == 1 and len(again) < len(island) else ["an exported SVG"]


def extension(program: str, folder: str) -> int:
    inkscape = Extension(program, folder)
    inkscape.draw_on(EMPTY)
    failed = []
    for name, most in (("koch_island", 1), ("plant_b", 400), ("hilbert_cube", 1)):
        said, drawn = inkscape.run("--file=" + os.path.join(EXAMPLES, name + ".lsys"))
        if said or not 1 <= drawn.count("<path") <= most:
            failed.append(name)
    said, drawn = inkscape.run("--text=" + WRONG)
    failed += [] if TOLD_INSIDE in said and "<path" not in drawn else ["a refused script"]
    _, island = inkscape.run("--file=" + os.path.join(EXAMPLES, "koch_island.lsys"))
    inkscape.draw_on(re.sub("<g ", "<g id=\"island\" ", island, count=1))
    said, again = inkscape.run("--id=island", "--level=1")
    is_one = again.count("<path") == 1 and again.count("production f") == 1
    failed += [] if not said and is_one and len(again) < len(island) else ["a group opened again"]
    failed += exported_again(inkscape, program)
    begun = time.time()
    inkscape.draw_on(EMPTY)
    inkscape.run("--text=" + "axiom F-F\\n" + (CURVE % 5).split("\n", 1)[1].replace("\n", "\\n"))
    print("the extension for Inkscape: %s; 32768 segments in %.1f s" % ("FAILED " + ", ".join(failed) if failed else "as it should be",
                                                                        time.time() - begun))
    return len(failed)


def main() -> int:
    parser = Words(__doc__)
    parser.add_argument("--program")
    parser.add_argument("--random", type=int, default=200)
    parser.add_argument("--keep")
    options = parser.parse_args()
    program = program_of(options.program)
    with tempfile.TemporaryDirectory() as folder:
        files = options.keep or os.path.join(folder, "files")
        os.makedirs(files, exist_ok=True)
        failed = read_back(examples(program) + random_pictures(program, options.random), files)
        failed += curves(program) + same_bytes(program, folder) + refuses_words(program, folder) + refused(program, folder)
        if has_inkex():
            failed += extension(program, folder)
        else:
            print("the extension for Inkscape: skipped, its Python modules aren't installed")
    return 1 if failed else 0
