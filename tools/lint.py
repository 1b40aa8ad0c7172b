"""Checks the Python, the shell scripts and the page's scripts of this repository by what is installed of ruff, mypy, shellcheck and node.

usage: tools/lint

What isn't installed is left out, and that is said; none of them is needed. pyproject.toml has what ruff and mypy look for: ruff goes through
all modules and commands, and mypy through the modules. The status is 1 where one of them has found something, which is shown then.
"""

from __future__ import annotations

import os
import shutil
import subprocess
from collections.abc import Iterator
from typing import NamedTuple

from bounds import is_python
from programs import TOP
from telling import Words

FOLDERS = (".ci", "tools", "conformance")


class Call(NamedTuple):
    """The words of a checker, and the file that it reads from its standard input, or none."""
    words: list[str]
    path: str = ""


def own_files() -> Iterator[str]:
    """The files of the folders that have code, by their paths below the repository's."""
    for top in FOLDERS:
        for folder, folders, names in os.walk(os.path.join(TOP, top)):
            folders[:] = sorted(name for name in folders if not name.startswith((".", "__")))
            yield from (os.path.relpath(os.path.join(folder, name), TOP) for name in sorted(names))


def is_shell(path: str) -> bool:
    with open(os.path.join(TOP, path), "rb") as file:
        line = file.readline(80)
    return line.startswith(b"#!") and line.rstrip().endswith(b"sh")


def checkers() -> dict[str, list[Call]]:
    """The calls of each checker."""
    files = list(own_files())
    python = [path for path in files if is_python(os.path.join(TOP, path))]
    scripts = [path for path in files if path.endswith(".js")]
    return {"ruff": [Call(["ruff", "check", "--no-cache", "--quiet", *python])],
            "mypy": [Call(["mypy", "--no-error-summary", "--cache-dir", os.devnull])],
            "shellcheck": [Call(["shellcheck", *filter(is_shell, files)])],
            "node": [Call(["node", "--input-type=module", "--check"], path) for path in scripts]}


def findings(calls: list[Call]) -> str:
    """What a checker finds, or nothing."""
    told = []
    for words, path in calls:
        with open(os.path.join(TOP, path) if path else os.devnull, "rb") as source:
            ran = subprocess.run(words, cwd=TOP, stdin=source, stdout=subprocess.PIPE, stderr=subprocess.STDOUT, text=True)
        if ran.returncode:
            told.append("%s%s" % (path + ": " if path else "", ran.stdout.rstrip("\n") or "%s ended with status %d" % (words[0], ran.returncode)))
    return "\n".join(told)


def main() -> int:
    Words(__doc__).parse_args()
    missing, clean, failed = [], [], 0
    for name, calls in checkers().items():
        if not shutil.which(name):
            missing.append(name)
            continue
        found = findings(calls)
        failed += bool(found)
        if found:
            print("%s:\n%s" % (name, found), flush=True)
        else:
            clean.append(name)
    told = ["nothing found by %s" % ", ".join(clean)] * bool(clean) + ["not installed, and left out: %s" % ", ".join(missing)] * bool(missing)
    print("; ".join(told))
    return 1 if failed else 0
