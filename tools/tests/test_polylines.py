"""Runs as polylines of a DXF. Where there is no ezdxf, one that notes what it is asked for stands in for it."""

from __future__ import annotations

import importlib
import importlib.util
import io
import sys
import types
import unittest
from typing import Any
from unittest import mock


class Drawing:
    """Notes the polylines that are put."""

    def __init__(self, file: io.StringIO | None = None) -> None:
        self.file = file
        self.put: list[tuple[str, list[Any], bool, str]] = []

    def __enter__(self) -> Drawing:
        return self

    def __exit__(self, *_: object) -> None:
        if self.file:
            self.file.write("%d polylines" % len(self.put))

    def add_polyline_2d(self, points: list[Any], closed: bool, layer: str) -> None:
        self.put.append(("flat", points, closed, layer))

    def add_polyline(self, points: list[Any], closed: bool, layer: str) -> None:
        self.put.append(("space", points, closed, layer))


def polylines_over(writer: object) -> Any:
    """The module, over an ezdxf that has this writer."""
    addons, ezdxf = types.ModuleType("ezdxf.addons"), types.ModuleType("ezdxf")
    vars(addons)["r12writer"] = writer
    with mock.patch.dict(sys.modules, {"ezdxf": ezdxf, "ezdxf.addons": addons}):
        sys.modules.pop("polylines", None)
        module = importlib.import_module("polylines")
    sys.modules.pop("polylines", None)
    return module


class Polylines(unittest.TestCase):
    def test_a_run_that_ends_at_its_begin_is_closed(self) -> None:
        module, drawing = polylines_over(Drawing), Drawing()
        module.put(drawing, True, 2, [[0, 0, 0], [1, 0, 0], [1, 1, 0], [0, 0, 0]])
        module.put(drawing, True, 3, [[0, 0, 0], [1, 0, 0], [0, 0, 0], [5, 5, 0]])
        module.put(drawing, False, 1, [[0, 0, 0], [0, 0, 4]])
        self.assertEqual(drawing.put, [("flat", [[0, 0], [1, 0], [1, 1]], True, "WIDTH_2"),
                                       ("flat", [[0, 0], [1, 0], [0, 0], [5, 5]], False, "WIDTH_3"),
                                       ("space", [[0, 0, 0], [0, 0, 4]], False, "WIDTH_1")])

    def test_all_runs_come_into_one_file(self) -> None:
        module = polylines_over(Drawing)
        self.assertEqual(module.drawn(True, [(1, [[0, 0, 0], [1, 0, 0]]), (2, [[0, 0, 0], [0, 1, 0]])]), b"2 polylines")

    @unittest.skipUnless(importlib.util.find_spec("ezdxf"), "ezdxf isn't installed")
    def test_ezdxf_writes_a_polyline_on_its_layer(self) -> None:
        text = importlib.import_module("polylines").drawn(True, [(2, [[0, 0, 0], [1, 0, 0], [1, 1, 0]])]).decode()
        words = [word.strip() for word in text.split("\n")]
        self.assertEqual((words.count("POLYLINE"), words.count("VERTEX"), words.count("WIDTH_2") > 0), (1, 3, True))
