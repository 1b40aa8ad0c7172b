"""The files of a picture: SVG, OBJ, DXF, glTF, PNG and PDF, and what texts say is wanted of them."""

from __future__ import annotations

import json
import shutil
import struct
import unittest

import formats
from figure import Figure
from formats import Unfit, Wish, clean, dxf_lines, fitted, titled, wish_of, written

UP = Figure("square", [(1, [(0, 0, 0), (0, 1, 0)])])
BENT = Figure("square", [(1, [(0, 0, 0), (1, 0, 0), (1, 1, 0)]), (2, [(1, 1, 0), (2, 1, 0)])])
POST = Figure("cubic", [(2, [(0, 0, 0), (0, 0, 2)])])
SVG = b"""<svg xmlns="http://www.w3.org/2000/svg" viewBox="-10.5 -20.5 21 31">
<title>a&lt;b</title>
<g fill="none" stroke="black" stroke-linecap="round" stroke-linejoin="round">
<metadata id="lsys-script">axiom F
</metadata>
<path d="M0,0 0,-10" stroke-width="1"/>
</g>
</svg>
"""
OBJ = b"# a title\no lsys\nv 0 0 0\nv 1 0 0\nv 1 1 0\nv 2 1 0\ng width_1\nl 1 2 3\ng width_2\nl 3 4\n"
# The group codes of a DXF: 0 a record, 2 a name, 8 a layer, 10, 20, 30 and 11, 21, 31 the ends of a line.
DXF = ["0", "SECTION", "2", "HEADER", "9", "$ACADVER", "1", "AC1009", "0", "ENDSEC", "0", "SECTION", "2", "ENTITIES",
       "0", "LINE", "8", "WIDTH_3", "10", "0", "20", "0", "30", "0", "11", "1.5", "21", "-2", "31", "0", "0", "ENDSEC", "0", "EOF"]
WISHES: list[tuple[str, dict[str, str | None], dict[str, object]]] = [
    ("svg", {}, {"step": None, "turn": None, "ground": "none"}),
    ("svg", {"step": "2.5", "turn": "-90", "tilt": "", "size": "9"}, {"step": 2.5, "turn": -90, "tilt": None, "size": None}),
    ("png", {"size": "500", "ground": "White"}, {"size": 500, "ground": "white"}),
    ("pdf", {"size": "10", "ground": "#00FF7f"}, {"size": 10, "ground": "#00ff7f"}),
]
UNFIT = [
    ("svg", {"step": "0"}, "the step is a number from 0.001 to 1000000, not 0"), ("svg", {"step": "x"}, "not x"), ("svg", {"turn": "361"}, "not 361"),
    ("png", {"size": "15"}, "the size in points is a number from 16 to 16384, not 15"), ("pdf", {"size": "nan"}, "millimetres"),
    ("png", {"ground": "#12345"}, "the ground is none, a colour's name or #rrggbb, not #12345"),
]
# A box and the length of its longer side: the box whose sides are whole then, and what they are.
FITTED = [
    ((0, 0, 100, 50), 200, (0, 0, 100, 50), [200, 100]),
    ((0, 0, 3, 2), 10, (0, -0.05, 3, 2.1), [10, 7]),
    ((-1, -1, 2, 4), 4, (-1, -1, 2, 4), [2, 4]),
]
TITLES = [("dir/plant.lsys", None, "plant"), ("plant.lsys", 3, "plant, level 3"), ("", None, "picture"), ("a.b.lsys", 0, "a.b, level 0")]


class Texts(unittest.TestCase):
    def test_svg(self) -> None:
        self.assertEqual(written("svg", UP, Wish(title="a<b", script="axiom F\n")).data, SVG)

    def test_the_lines_of_an_svg_are_as_wide_as_its_step_says(self) -> None:
        data = written("svg", BENT, Wish(step=20)).data
        self.assertIn(b"<path d=\"M0,0 20,0 20,-20\" stroke-width=\"2\"/>\n<path d=\"M20,-20 40,-20\" stroke-width=\"4\"/>", data)

    def test_a_closed_path(self) -> None:
        square = Figure("square", [(1, [(0, 0, 0), (1, 0, 0), (1, 1, 0), (0, 1, 0), (0, 0, 0)])])
        self.assertIn(b"d=\"M0,0 10,0 10,-10 0,-10Z\"", written("svg", square, Wish()).data)

    def test_obj(self) -> None:
        self.assertEqual(written("obj", BENT, Wish(title="a\ntitle")).data, OBJ)

    def test_dxf_of_single_lines(self) -> None:
        self.assertEqual(list(dxf_lines([(3, [[0, 0, 0], [1.5, -2, 0]])])), DXF)

    def test_signs_that_xml_lacks(self) -> None:
        self.assertEqual(clean("\x00a\r\nb\x1b\t"), "?a\nb?\t")


class Tubes(unittest.TestCase):
    def check(self, text: dict[str, object]) -> None:
        """A tube of width 2 has the radius 0.1 around its corners, and goes up from 0 to 2; each end has a lid."""
        accessors = text["accessors"]
        assert isinstance(accessors, list)
        places, outward, triangles = accessors
        # Four rings of eight points; sixteen triangles around, and six on each lid.
        self.assertEqual((places["count"], outward["count"], triangles["count"]), (32, 32, 84))
        self.assertEqual((places["min"][1], places["max"][1]), (0, 2))
        self.assertAlmostEqual(places["max"][0], 0.0923880, 6)
        self.assertEqual(text["scenes"], [{"name": "post", "extras": {"title": "post", "script": "axiom F"}, "nodes": [0]}])

    def test_gltf_as_one_text(self) -> None:
        text = json.loads(written("gltf", POST, Wish(title="post", script="axiom F")).data)
        self.check(text)
        self.assertTrue(text["buffers"][0]["uri"].startswith("data:application/octet-stream;base64,"))

    def test_gltf_as_bytes(self) -> None:
        data = written("glb", POST, Wish(title="post", script="axiom F")).data
        magic, version, length, first, kind = struct.unpack_from("<4sIII4s", data)
        self.assertEqual((magic, version, length, kind), (b"glTF", 2, len(data), b"JSON"))
        self.check(json.loads(data[20:20 + first]))
        second, kind = struct.unpack_from("<I4s", data, 20 + first)
        # 32 points and 32 directions of three numbers, 84 corners, four bytes each.
        self.assertEqual((second, kind, first % 4), (4 * (32 * 3 + 32 * 3 + 84), b"BIN\0", 0))

    def test_a_picture_without_lines(self) -> None:
        text = json.loads(written("gltf", Figure("square", []), Wish()).data)
        self.assertNotIn("meshes", text)


class Pixels(unittest.TestCase):
    def test_png_and_pdf_are_made_or_their_program_is_named(self) -> None:
        for kind, begin in (("png", b"\x89PNG\r\n\x1a\n"), ("pdf", b"%PDF-")):
            with self.subTest(kind=kind):
                if shutil.which("rsvg-convert"):
                    self.assertTrue(written(kind, UP, Wish()).data.startswith(begin))
                else:
                    with self.assertRaisesRegex(formats.MissingProgram, "librsvg2-bin"):
                        written(kind, UP, Wish())

    def test_boxes_are_made_whole(self) -> None:
        for box, longest, whole, sides in FITTED:
            with self.subTest(box=box):
                found, found_sides = fitted(box, longest)
                self.assertEqual(found_sides, sides)
                for one, other in zip(found, whole):
                    self.assertAlmostEqual(one, other, 9)


class Wanted(unittest.TestCase):
    def test_what_texts_say(self) -> None:
        for kind, words, fields in WISHES:
            with self.subTest(kind=kind, words=words):
                wish = wish_of(kind, words)._asdict()
                self.assertEqual({name: wish[name] for name in fields}, fields)

    def test_what_has_no_sense(self) -> None:
        for kind, words, told in UNFIT:
            with self.subTest(kind=kind, words=words), self.assertRaisesRegex(Unfit, told):
                wish_of(kind, words)

    def test_titles(self) -> None:
        for name, level, title in TITLES:
            with self.subTest(name=name):
                self.assertEqual(titled(name, level), title)
