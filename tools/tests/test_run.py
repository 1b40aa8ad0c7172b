"""What tools/run makes of replies, scripts in links and pages, and films."""

from __future__ import annotations

import argparse
import base64
import contextlib
import io
import os
import unittest
import zlib
from unittest import mock

import run
from film import script_in, script_of_link, svg_of
from run import Run, folder_for
from tests.standing_in import WithFolder

PICTURE = b"<svg xmlns>\n<line x1=\"0\"/>\n</svg>\n"
EMPTY = b"<svg xmlns>\n</svg>\n"
SCRIPT = b"axiom F\nsvg\ndepth 70\nstring\nsvg\n"
REPLIES = b"ok 0/0\n" + PICTURE + b"refused many 7\n" + b"F\n" + EMPTY


class Passing(WithFolder):
    def passed(self, script: bytes, replies: bytes, is_one: bool) -> tuple[bytes, str]:
        """What goes to standard output, and what is said, where both are one place or two."""
        options = argparse.Namespace(script="plant.lsys", out=self.folder, limit=None)
        out, said = io.BytesIO(), io.StringIO()
        stdout = mock.patch("sys.stdout", io.TextIOWrapper(out, write_through=True))
        with stdout, contextlib.redirect_stderr(said), mock.patch.object(run, "goes_to_one_place", lambda: is_one):
            Run(script, options, []).pass_on(io.BytesIO(replies))
            return out.getvalue(), said.getvalue()

    def test_pictures_go_into_files_and_refusals_are_told(self) -> None:
        out, said = self.passed(SCRIPT, REPLIES, False)
        self.assertEqual(out, b"ok 0/0\nrefused many 7\nF\n")
        self.assertEqual(os.listdir(self.folder), ["plant-1.svg"])
        with open(os.path.join(self.folder, "plant-1.svg"), "rb") as file:
            self.assertEqual(file.read(), PICTURE)
        self.assertIn("; line 3: refused many 7: depth is at most 64", said)
        self.assertIn("    depth 70\n          ^\n", said)
        self.assertIn("; line 5: no lines, and so no picture is written", said)

    def test_a_refusal_is_not_written_twice_into_one_place(self) -> None:
        out, said = self.passed(SCRIPT, REPLIES, True)
        self.assertEqual((out, said.count("refused many 7")), (b"ok 0/0\nF\n", 1))

    def test_where_pictures_go(self) -> None:
        self.assertEqual([folder_for("a/b.lsys", None), folder_for("b.lsys", None), folder_for("a/b.lsys", "out"), folder_for("-", None)],
                         ["a", ".", "out", "."])


class Kept(unittest.TestCase):
    def test_a_script_in_a_link(self) -> None:
        packing = zlib.compressobj(9, zlib.DEFLATED, -15)
        packed = packing.compress("axiom F\u00e9\n".encode()) + packing.flush()
        text = base64.urlsafe_b64encode(packed).decode().rstrip("=")
        self.assertEqual(script_of_link("http://127.0.0.1:1/#script=" + text), "axiom F\u00e9\n")
        for link in ("http://127.0.0.1:1/#script=@", "http://127.0.0.1:1/#script=AAAA", "http://127.0.0.1:1/"):
            self.assertIsNone(script_of_link(link))

    def test_a_script_in_a_page(self) -> None:
        page = "<p>x</p><script type=\"application/json\" id=\"lsys\">{\"script\": \"axiom F\\n\"}</script>"
        self.assertEqual(script_in(page), "axiom F\n")
        self.assertIsNone(script_in("<p>none</p>"))

    def test_a_film_shows_one_level_after_another(self) -> None:
        levels = ["segments 1\n0 0 0 0 1 0 1\n", "segments 1\n0 0 0 0 2 0 1\n"]
        lines = list(svg_of(levels, "square", 0.5, "a"))
        self.assertEqual(lines[0], "<svg xmlns=\"http://www.w3.org/2000/svg\" viewBox=\"-10 -30 20 40\">")
        self.assertEqual([line for line in lines if line.startswith("<animate")],
                         ["<animate attributeName=\"visibility\" values=\"%s\" calcMode=\"discrete\" dur=\"1s\" repeatCount=\"indefinite\"/>" % values
                          for values in ("visible;hidden", "hidden;visible")])
        self.assertEqual([line for line in lines if line.startswith("<path")],
                         ["<path d=\"M0,0 0,-10\" stroke-width=\"1\"/>", "<path d=\"M0,0 0,-20\" stroke-width=\"1\"/>"])
