"""Runs the scripts of examples/ and writes a page with their pictures, gallery/index.html, and the pictures themselves beside it.

usage: tools/gallery [--program PATH] [--into FOLDER] [--sheet FILE]

examples/gallery.txt has the order: a script's name a line, and headings after a #. The page is plain HTML: contents with a small
picture of each script, and then each script with its pictures, the replies that are no pictures, and links to the files. It runs
nothing. Without --program it is made by a program that is newer than its sources, a proved one where there is one. With --sheet
only one picture is written, of twelve figures (those that end in * in examples/gallery.txt).
"""

from __future__ import annotations

import html
import os
import re
import subprocess
from collections.abc import Iterator, Mapping

from figure import PLANE, Figure, box_of, figure_of, number, path_of
from programs import TOP, program_of, shown
from telling import Words, give_up

EXAMPLES = os.path.join(TOP, "examples")
PICTURE = re.compile(r"^<svg .*?^</svg>\n", re.S | re.M)
HEAD = """<!DOCTYPE html>
<html lang="en">
<head>
<meta charset="utf-8">
<meta name="viewport" content="width=device-width">
<title>lsys: gallery</title>
<style>
body { font-family: sans-serif; max-width: 76rem; margin: 1rem auto; padding: 0 1rem; color: #222; background: #fff }
nav ul { list-style: none; margin: 0; padding: 0; display: flex; flex-wrap: wrap; gap: .5rem }
nav li { width: 7.5rem; font-size: .75rem; text-align: center; overflow-wrap: anywhere }
nav img { display: block; width: 100%; height: 6rem; object-fit: contain; border: 1px solid #ddd; box-sizing: border-box; padding: .3rem }
nav span { display: block; height: 6rem; border: 1px solid #ddd; box-sizing: border-box; padding: .3rem; color: #222; font-family: monospace }
nav h2 { font-size: 1rem; margin: .9rem 0 .3rem }
article { display: flex; flex-wrap: wrap; gap: 1.5rem; border-top: 1px solid #ccc; padding: 1rem 0 }
.pictures { flex: 1 1 24rem; display: flex; flex-wrap: wrap; gap: 1rem; align-items: flex-end }
.script { flex: 1 1 28rem; min-width: 0 }
figure { flex: 1 1 12rem; min-width: 10rem; margin: 0 }
figure svg { width: 100%; max-height: 30rem; overflow: visible }
figcaption { font-size: .75rem }
line { stroke-linecap: round }
pre { white-space: pre-wrap; overflow-wrap: anywhere; background: #f4f4f0; padding: .6rem; font-size: .85rem }
pre.replies { background: none; color: #666 }
h3 { margin: 0 }
</style>
</head>
<body>
<h1>Pictures by <code>lsys</code></h1>
"""
# The sheet: its columns, and the room of a figure and of its name.
COLUMNS, ROOM, MARGIN, NAME_ROOM = 4, 240, 16, 26
LEAST_LINE = 0.9


class Example:
    """A script of examples/, with what the program answers to it."""

    def __init__(self, name: str, program: str) -> None:
        self.name = name
        with open(os.path.join(EXAMPLES, name + ".lsys")) as file:
            self.script = file.read()
        written = subprocess.run([program], input=self.script, stdout=subprocess.PIPE, text=True).stdout
        self.pictures = PICTURE.findall(written)
        self.replies = PICTURE.sub("(a picture)\n", written)

    def files(self) -> list[str]:
        """The names of its pictures' files, as the page's links have them."""
        return ["pictures/%s-%d.svg" % (self.name, number) for number in range(1, len(self.pictures) + 1)]

    def entry(self) -> str:
        """Its place in the contents: the last picture, which is mostly the finished one."""
        image = ("<img src=\"%s\" alt=\"\" loading=\"lazy\">" % self.files()[-1] if self.pictures
                 else "<span>%s</span>" % html.escape(self.replies.split("\n")[-2][:60]))
        return "<li><a href=\"#%s\">%s%s</a></li>\n" % (self.name, image, self.name)

    def article(self) -> str:
        figures = "".join("<figure>\n%s<figcaption><a href=\"%s\">%s</a></figcaption>\n</figure>\n" % (picture, file, os.path.basename(file))
                          for picture, file in zip(self.pictures, self.files()))
        link = "<h3 id=\"%s\"><a href=\"../examples/%s.lsys\">examples/%s.lsys</a></h3>\n" % (self.name, self.name, self.name)
        texts = "<pre>%s</pre>\n<pre class=\"replies\">%s</pre>\n" % (html.escape(self.script), html.escape(self.replies))
        return "<article>\n<div class=\"pictures\">\n%s</div>\n<div class=\"script\">\n%s</div>\n</article>\n" % (figures, link + texts)


def order() -> list[str]:
    """The lines of examples/gallery.txt: headings, and names of scripts that are there, of which some are marked for the sheet."""
    with open(os.path.join(EXAMPLES, "gallery.txt")) as file:
        lines = file.read().split("\n")[:-1]
    named = {line.rstrip(" *") for line in lines if not line.startswith("#")}
    there = {name[:-5] for name in os.listdir(EXAMPLES) if name.endswith(".lsys")}
    if named != there:
        give_up("examples/gallery.txt and the scripts of examples/ differ: %s" % ", ".join(sorted(named ^ there)))
    return lines


def page(lines: list[str], examples: Mapping[str, Example]) -> str:
    contents, articles, is_open = ["<nav>\n"], [], False
    for line in lines:
        if line.startswith("#"):
            heading = "<h2>%s</h2>\n" % html.escape(line[1:].strip())
            contents.append(("</ul>\n" if is_open else "") + heading + "<ul>\n")
            articles.append(heading)
            is_open = True
        else:
            example = examples[line.rstrip(" *")]
            contents.append(example.entry())
            articles.append(example.article())
    return HEAD + "".join(contents) + "</ul>\n</nav>\n" + "".join(articles) + "</body>\n</html>\n"


def write_page(folder: str, lines: list[str], examples: Mapping[str, Example]) -> None:
    os.makedirs(os.path.join(folder, "pictures"), exist_ok=True)
    with open(os.path.join(folder, "index.html"), "w") as file:
        file.write(page(lines, examples))
    for example in examples.values():
        for name, picture in zip(example.files(), example.pictures):
            with open(os.path.join(folder, name), "w") as file:
                file.write(picture)
    pictures = [len(example.pictures) for example in examples.values()]
    print("%s: %d scripts, of which %d draw %d pictures" % (
        shown(os.path.join(folder, "index.html")), len(pictures), len(pictures) - pictures.count(0), sum(pictures)))


def figure_at(place: int, name: str, figure: Figure) -> str:
    """A figure of the sheet, in its own room, with its name below. Its lines are at least as wide as can be seen there."""
    left, top = place % COLUMNS * (ROOM + MARGIN) + MARGIN, place // COLUMNS * (ROOM + NAME_ROOM + MARGIN) + MARGIN
    step = 10 if figure.lattice == "square" else 20
    box = box_of(figure, step, step)
    least = LEAST_LINE * max(map(float, box[2:])) / ROOM
    paths = "".join("<path d=\"%s\" stroke-width=\"%s\"/>\n" % (path_of(points, step), number(max(width, least))) for width,
                    points in figure.points(PLANE))
    return ("<svg x=\"%d\" y=\"%d\" width=\"%d\" height=\"%d\" viewBox=\"%s\">\n%s</svg>\n"
            "<text x=\"%d\" y=\"%d\" fill=\"black\" stroke=\"none\">%s</text>\n") % (
        left, top, ROOM, ROOM, " ".join(box), paths, left + ROOM // 2, top + ROOM + NAME_ROOM - 8, name)


def sheet(program: str, names: list[str]) -> Iterator[str]:
    rows = -(-len(names) // COLUMNS)
    width, height = COLUMNS * (ROOM + MARGIN) + MARGIN, rows * (ROOM + NAME_ROOM + MARGIN) + MARGIN
    yield ("<svg xmlns=\"http://www.w3.org/2000/svg\" viewBox=\"0 0 %d %d\">\n<rect width=\"100%%\" height=\"100%%\" fill=\"white\"/>\n"
           % (width, height))
    yield ("<g fill=\"none\" stroke=\"black\" stroke-linecap=\"round\" stroke-linejoin=\"round\" font-family=\"sans-serif\" font-size=\"14\" "
           "text-anchor=\"middle\">\n")
    for place, name in enumerate(names):
        with open(os.path.join(EXAMPLES, name + ".lsys"), "rb") as file:
            yield figure_at(place, name, figure_of(program, file.read()))
    yield "</g>\n</svg>\n"


def main() -> int:
    parser = Words(__doc__)
    parser.add_argument("--program")
    parser.add_argument("--into", default=os.path.join(TOP, "gallery"))
    parser.add_argument("--sheet")
    options = parser.parse_args()
    lines, program = order(), program_of(options.program)
    if options.sheet:
        with open(options.sheet, "w") as file:
            file.writelines(sheet(program, [line.rstrip(" *") for line in lines if line.endswith("*")]))
    else:
        names = [line.rstrip(" *") for line in lines if not line.startswith("#")]
        write_page(options.into, lines, {name: Example(name, program) for name in names})
    return 0
