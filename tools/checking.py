"""A check of a crate in one process, over the libraries that `rt ci` left in the crates' folders out/, and when each module was written."""

from __future__ import annotations

import os
import re
import subprocess
import sys
from collections.abc import Sequence

sys.dont_write_bytecode = True
from programs import TOP
from telling import give_up

KIT = "/opt/rattle"
LIBRARIES = KIT + "/rlibs"


def needs() -> dict[str, list[str]]:
    """The crates that each crate names, by its name."""
    with open(os.path.join(TOP, "crates.txt")) as file:
        lines = [line.split(":") for line in file if ":" in line and not line.startswith("#")]
    return {name.strip(): used.split() for name, used in lines}


def folder_of(crate: str) -> str:
    return os.path.join(TOP, "crates", crate)


def library(name: str) -> str:
    return os.path.join(folder_of(name), "out", "rlib", name + ".rlib")


def command(crate: str, folder: str, tests: bool = False, only: Sequence[str] = (), at: str | None = None) -> list[str]:
    """The words of the check of a crate, or of a copy of its folder at `at`. What it checks goes to `folder`."""
    of = needs()
    if crate not in of:
        give_up("crates.txt names no crate %s" % crate, 2)
    externs = ["std=%s/std.rlib" % LIBRARIES]
    for name in of[crate]:
        path = library(name) if name in of else "%s/%s.rlib" % (LIBRARIES, name)
        if not os.path.exists(path):
            give_up("there is no library %s: run rt ci %s first" % (os.path.relpath(path, TOP), name))
        externs.append("%s=%s" % (name, path))
    root = "src/lib.rt" if os.path.exists(os.path.join(at or folder_of(crate), "src", "lib.rt")) else "src/main.rt"
    said = [KIT + "/bin/rattle", "check", "--crate-name", crate, root, "-L", "dependency=" + LIBRARIES]
    for extern in externs:
        said += ["--extern", extern]
    for name in of:
        said += ["-L", "dependency=" + os.path.dirname(library(name))]
    said += ["--antt-project", KIT + "/rattle/logic/antt-project.json", "--logic-built", KIT + "/logic_built", "--jobs", "1"]
    said += ["--incremental", folder] + (["--test"] if tests else [])
    for path in only:
        said += ["--only", path]
    return said


def checked(crate: str, folder: str, tests: bool = False, only: Sequence[str] = (), at: str | None = None) -> tuple[int, str]:
    """What a check says."""
    ran = subprocess.run(command(crate, folder, tests, only, at), cwd=at or folder_of(crate), stdout=subprocess.PIPE,
                         stderr=subprocess.STDOUT, text=True, check=False)
    return ran.returncode, ran.stdout.rstrip()


def modules(folder: str, since: float = 0) -> list[tuple[float, str]]:
    """When each module was written, and its name, in the order of time."""
    written = []
    for at, _, names in os.walk(folder):
        for name in names:
            moment = os.stat(os.path.join(at, name)).st_mtime
            if name.endswith(".oantt") and moment > since:
                written.append((moment, re.sub(r"(\.decls)?\.oantt$", "", name)))
    return sorted(written)


def seconds(written: list[tuple[float, str]]) -> dict[str, float]:
    """The seconds of each module: the time since the one before."""
    taken: dict[str, float] = {}
    for (before, _), (now, name) in zip(written, written[1:]):
        taken[name] = taken.get(name, 0) + now - before
    return taken
