"""Builds a program of this folder over the crates of this checkout, without proofs."""

from __future__ import annotations

import os
import shutil
import sys

HERE = os.path.dirname(os.path.abspath(__file__))
TOP = os.path.dirname(os.path.dirname(HERE))
sys.path.insert(0, os.path.join(TOP, "tools"))
from building import build_without_proofs

USED = ["lsys_syntax", "lsys_spec", "lsys_text", "lsys_module", "lsys_region", "lsys_level", "lsys_forest"]


def needed(needs: dict[str, list[str]], names: list[str]) -> list[str]:
    """These crates and those that they stand on, where the list of crates has them."""
    found = []

    def visit(name: str) -> None:
        if name in needs and name not in found:
            found.append(name)
            for below in needs[name]:
                visit(below)

    for name in names:
        visit(name)
    return found


def lay_out(name: str, folder: str) -> str:
    """Makes a repository of the program and the sources of the crates that it needs."""
    needs = {}
    with open(os.path.join(TOP, "crates.txt")) as file:
        for line in file:
            crate, colon, below = line.partition("#")[0].partition(":")
            if colon:
                needs[crate.split()[0]] = below.split()
    lines = ["forest_%s: %s" % (name, " ".join(USED))]
    for crate in needed(needs, USED):
        lines.append("%s: %s" % (crate, " ".join(needs[crate])))
        for part in ("src", "specs"):
            source = os.path.join(TOP, "crates", crate, part)
            if os.path.isdir(source):
                shutil.copytree(source, os.path.join(folder, "crates", crate, part))
    with open(os.path.join(folder, "crates.txt"), "w") as file:
        file.write("\n".join(lines) + "\n")
    program = os.path.join(folder, "crates", "forest_" + name)
    os.makedirs(os.path.join(program, "src"))
    shutil.copy(os.path.join(HERE, name + ".rt.txt"), os.path.join(program, "src", "main.rt"))
    return program


def build(name: str, folder: str) -> str:
    """The path of the program, which is built in this folder, and fast where the toolchain gives it."""
    return build_without_proofs(lay_out(name, folder), folder)[0]
