"""The scripts of a folder and of the folders in it, as conformance/cases has them by theme."""

from __future__ import annotations

import os
from collections.abc import Iterator


def scripts_in(folder: str) -> Iterator[str]:
    """The path of each script NAME.lsys below a folder, by their paths in order."""
    for room, folders, names in os.walk(folder):
        folders.sort()
        for name in sorted(names):
            if name.endswith(".lsys"):
                yield os.path.join(room, name)
