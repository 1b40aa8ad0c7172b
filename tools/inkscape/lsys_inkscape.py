#!/usr/bin/env python3
"""Inkscape's extension for `lsys`: draws the last level of a script as a group of paths, one for each run of connected segments of
one width.

The group keeps its script, so that running the extension on it, with no other script given, draws it anew. Nothing is derived here:
the program is asked. Where a line is refused, nothing is drawn, and the refusal is shown with the line and a caret.
"""
from __future__ import annotations

import os
import re
import shutil
import sys
from typing import Any

import inkex

HERE = os.path.dirname(os.path.realpath(__file__))
sys.dont_write_bytecode = True
# Beside this file where it is installed, and in the folder above where it stands in the repository.
sys.path[:0] = [HERE, os.path.dirname(HERE)]
from figure import PLANE, Figure, Refused, box_of, figure_of, number, path_of
from replies import caret_inside

SCRIPT = "lsys-script"
NO_PROGRAM = ("The program lsys was not found in PATH nor beside this extension. Install it (the package of lsys has it), or name it on the page "
              "Program.")
# What a field of several lines holds in place of a line's end, where a line begins after it. A \\n inside of a line is a roll and a module,
# and so it is before an `at` without a number.
COMMANDS = ("axiom|production|drop|ignore|ignoring|consider|common|schedule|seed|depth|lattice|lineage|version|"
            "hom|string|segments|svg|show|bounds|at|growth|undo|redo|quit")
LINE_END = re.compile(r"\\n(?=;|\\n|$|[ \t]*(?!at(?![ \t]+\d))(?:%s)(?![a-z]))" % COMMANDS)


# What some editors put at the head of a file.
MARK = "\ufeff"


class Unable(Exception):
    """Nothing can be drawn; the words are for a person."""


def program_at(preferred: str) -> str:
    """The program: the one that is named, or the first that is found."""
    if preferred:
        if os.path.isfile(preferred) and os.access(preferred, os.X_OK):
            return preferred
        raise Unable("There is no program at %s." % preferred)
    beside = [os.path.join(HERE, "lsys"), os.path.join(os.path.dirname(os.path.dirname(HERE)), "bin", "lsys")]
    found = shutil.which("lsys") or next((path for path in beside if os.access(path, os.X_OK)), None)
    if not found:
        raise Unable(NO_PROGRAM)
    return found


def script_of(group: Any) -> str | None:
    """The script that a group keeps, or None."""
    kept = group.find("svg:metadata", namespaces=inkex.NSS)
    return kept.text if kept is not None and kept.get("id", "").startswith(SCRIPT) else None


class Draw(inkex.EffectExtension):
    def add_arguments(self, parser: Any) -> None:
        for name in ("tab", "file", "text", "program"):
            parser.add_argument("--" + name, default="")
        for name, kind, usual in (("level", int, -1), ("step", float, 2.0), ("line", float, 0.2), ("tell", inkex.Boolean, False),
                                  ("limit", int, 100000)):
            parser.add_argument("--" + name, type=kind, default=usual)

    def effect(self) -> None:
        try:
            kept = [element for element in self.svg.selection if script_of(element) is not None]
            if self.options.tell:
                raise Unable("\n\n".join(script_of(element) or "" for element in kept) or "No figure of lsys is selected.")
            given = self.given_script()
            if given is None and not kept:
                raise Unable("There is no script: name a file, write one, or select a figure of lsys.")
            jobs = [(element, (script_of(element) if given is None else given) or "") for element in kept] or [(None, given or "")]
            figures = [(element, script, self.figure(script)) for element, script in jobs]
        except Unable as why:
            inkex.errormsg(str(why))
            return
        except Refused as refused:
            # Inkscape's window has letters of many widths.
            inkex.errormsg(refused.told(caret_inside))
            return
        for element, script, figure in figures:
            group = self.group_of(figure, script)
            if element is None:
                self.add(group, box_of(figure, self.svg.unittouu("%fmm" % self.options.step), 0))
            else:
                self.put(element, group)

    def given_script(self) -> str | None:
        """The script of the dialog, or None where it has none."""
        text = LINE_END.sub("\n", self.options.text)
        if text.strip():
            return text
        if not self.options.file or os.path.isdir(self.options.file):
            return None
        try:
            with open(self.options.file, encoding="utf-8", errors="replace") as file:
                script = file.read()
        except OSError as error:
            raise Unable("The script %s can't be read: %s" % (self.options.file, error.strerror)) from None
        if script.startswith(MARK):
            inkex.errormsg("A byte order mark stood at the head of %s: it is left out." % self.options.file)
        return script.removeprefix(MARK)

    def figure(self, script: str) -> Figure:
        level = self.options.level if self.options.level >= 0 else None
        return figure_of(program_at(self.options.program), script.encode(), level, ["--limit", str(self.options.limit)])

    def group_of(self, figure: Figure, script: str) -> Any:
        step, line = (self.svg.unittouu("%fmm" % length) for length in (self.options.step, self.options.line))
        group = inkex.Group()
        group.set("style", "fill:none;stroke:#000000;stroke-linecap:round;stroke-linejoin:round")
        kept = inkex.elements.Metadata()
        kept.set("id", self.svg.get_unique_id(SCRIPT))
        kept.text = re.sub("[^\t\n -\ud7ff\ue000-\ufffd]", "?", script)
        group.append(kept)
        for width, points in figure.points(PLANE):
            path = inkex.PathElement()
            path.set("d", path_of(points, step))
            path.set("style", "stroke-width:" + number(width * line))
            group.append(path)
        return group

    def add(self, group: Any, box: list[str]) -> None:
        """Puts the middle of a figure into the middle of what one sees, or of the page."""
        left, top, width, height = map(float, box)
        view = self.svg.namedview
        x, y = view.center if view.get("inkscape:cx") else (self.svg.viewbox_width / 2, self.svg.viewbox_height / 2)
        group.set("transform", "translate(%s,%s)" % (number(x - left - width / 2), number(y - top - height / 2)))
        self.svg.get_current_layer().append(group)

    def put(self, element: Any, group: Any) -> None:
        """Puts a figure in the place of the one that it replaces."""
        if element.get("transform"):
            group.set("transform", element.get("transform"))
        group.set("id", element.get_id())
        element.getparent().replace(element, group)


if __name__ == "__main__":
    Draw().run()
