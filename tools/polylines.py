"""A DXF by ezdxf (in Debian: python3-ezdxf): of release 12, a polyline for each run, on the layer of its width.

Where the Python of the tools has no ezdxf, another one that has it runs this file: runs come from standard input, and the DXF goes to standard
output.
"""

from __future__ import annotations

import io
import json
import sys
from typing import Any

from ezdxf.addons import r12writer


def put(drawing: Any, is_flat: bool, width: int, points: list[list[float]]) -> None:
    """A run as a polyline, closed where it ends where it began. One in the plane is a polyline of two dimensions, which cutters take."""
    layer, is_closed = "WIDTH_%d" % width, len(points) > 2 and points[0] == points[-1]
    points = points[:-1] if is_closed else points
    if is_flat:
        drawing.add_polyline_2d([point[:2] for point in points], closed=is_closed, layer=layer)
    else:
        drawing.add_polyline(points, closed=is_closed, layer=layer)


def drawn(is_flat: bool, runs: list[tuple[int, list[list[float]]]]) -> bytes:
    """The bytes of a DXF."""
    file = io.StringIO()
    with r12writer(file) as drawing:
        for width, points in runs:
            put(drawing, is_flat, width, points)
    return file.getvalue().encode()


if __name__ == "__main__":
    sys.stdout.buffer.write(drawn(*json.load(sys.stdin)))
