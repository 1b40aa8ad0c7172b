"""The bounds of the house: what passes one of them, and where. A finding that is in the table of known ones (house_known.py) is let
through as long as it goes no further; an entry that nothing needs any more is a finding too.
"""

from __future__ import annotations

import ast
import os
from collections.abc import Callable, Iterator
from dataclasses import dataclass

from house_known import KNOWN, NAMED_EDITS, Known
from programs import TOP
from sources import CRATES, PARTS, Function, clauses_in, crate_of, crates, defined, functions_in, near, stem_of, texts, uses

MOST_COLUMNS, MOST_PARAMETERS, FUNCTION_LINES, FILE_LINES = 100, 6, 40, 600
# Files of these ends are code, and so are commands without an end that Python runs.
CODE = (".rt", ".antt", ".py", ".js")


@dataclass
class Finding:
    """What passes a bound: which one, the file, the line, what it is called, the figure, and what is wrong in words."""
    bound: str
    file: str
    line: int
    name: str
    figure: int
    told: str

    def key(self) -> tuple[str, str, str]:
        """By what it is known. A name is meant wherever it stands."""
        return self.bound, "crates" if self.bound.startswith("twice") else self.file, self.name

    def shown(self) -> str:
        return "%s:%d: %s" % (self.file, self.line, self.told)


def long_clauses() -> Iterator[Finding]:
    for crate in crates():
        for path, text in texts(crate, "src", ".rt"):
            for clause in clauses_in(path, text):
                if len(clause.text) > MOST_COLUMNS:
                    told = "a clause of %d columns, more than %d: %s" % (len(clause.text), MOST_COLUMNS, clause.text)
                    yield Finding("columns", near(path), clause.line, clause.name, len(clause.text), told)


def names_twice() -> Iterator[Finding]:
    """Names that several files define: of definitions, and of the sources' types."""
    for part, what in (("specs", "an exported name"), ("src", "a type")):
        for name, places in sorted(defined(part).items()):
            files = sorted({near(path) for path, _ in places})
            if len(files) > 1:
                path, line = max(places)
                told = "%s is %s that %d files define: %s" % (name, what, len(files), ", ".join(files))
                yield Finding("twice in " + part, near(path), line, name, len(files), told)


def used_once() -> dict[str, list[tuple[str, int, str]]]:
    """Of each crate the exported names, each with its file and line, that no more than one place uses."""
    found: dict[str, list[tuple[str, int, str]]] = {crate: [] for crate in crates()}
    many = uses()
    for name, places in defined().items():
        if many[stem_of(name)] < 2:
            for path, line in places:
                found[crate_of(path) or ""].append((near(path), line, name))
    return found


def names_once() -> Iterator[Finding]:
    for crate, names in used_once().items():
        if names:
            told = "%d exported names of %s are used in one place at most (tools/house --once lists them)" % (len(names), crate)
            yield Finding("once", "crates/%s/specs" % crate, 1, crate, len(names), told)


def own_files() -> Iterator[str]:
    """The files of the repository that are code, of a crate those of its parts."""
    for crate in crates():
        for part, end in PARTS:
            yield from (path for path, _ in texts(crate, part, end))
    for top in ("tools", "conformance"):
        for folder, folders, names in os.walk(os.path.join(TOP, top)):
            folders[:] = sorted(name for name in folders if name != "__pycache__")
            paths = (os.path.join(folder, name) for name in sorted(names))
            yield from (path for path in paths if path.endswith(CODE) or is_python(path))


def text_of(path: str) -> str:
    with open(path, encoding="utf-8", errors="replace") as file:
        return file.read()


def is_python(path: str) -> bool:
    """Whether a file is a module, or a command without an end that Python runs."""
    if path.endswith(".py"):
        return True
    if "." in os.path.basename(path):
        return False
    with open(path, "rb") as file:
        return file.readline().startswith(b"#!/usr/bin/env python3")


def python_functions(path: str, text: str) -> Iterator[Function]:
    for node in ast.walk(ast.parse(text)):
        if isinstance(node, ast.FunctionDef):
            given = node.args
            many = len(given.posonlyargs) + len(given.args) + len(given.kwonlyargs) + bool(given.vararg) + bool(given.kwarg)
            yield Function(path, node.lineno, node.name, many, (node.end_lineno or node.lineno) - node.lineno + 1)


def functions(paths: list[str]) -> Iterator[Function]:
    for path in paths:
        if path.endswith(".rt"):
            yield from functions_in(path, text_of(path))
        elif is_python(path):
            yield from python_functions(path, text_of(path))


def large_code() -> Iterator[Finding]:
    """Functions of many parameters or lines, and files of many lines."""
    paths = list(own_files())
    for found in functions(paths):
        file = near(found.path)
        if found.parameters > MOST_PARAMETERS:
            told = "%s has %d parameters, more than %d" % (found.name, found.parameters, MOST_PARAMETERS)
            yield Finding("parameters", file, found.line, found.name, found.parameters, told)
        if found.lines >= FUNCTION_LINES:
            told = "%s has %d lines, %d or more" % (found.name, found.lines, FUNCTION_LINES)
            yield Finding("lines of a function", file, found.line, found.name, found.lines, told)
    for path in paths:
        many = text_of(path).count("\n")
        if many >= FILE_LINES:
            yield Finding("lines of a file", near(path), 1, "", many, "%d lines, %d or more" % (many, FILE_LINES))


def missing_edits() -> Iterator[Finding]:
    for crate, edits in NAMED_EDITS.items():
        for name, turns in edits.items():
            if not os.path.exists(os.path.join(CRATES, crate, "must-fail", name + ".edit")):
                file = "crates/%s/must-fail/%s.edit" % (crate, name)
                yield Finding("edits", file, 1, name, 1, "this edit has to be there, by which %s" % turns)


SEARCHES: tuple[Callable[[], Iterator[Finding]], ...] = (long_clauses, names_twice, names_once, large_code, missing_edits)


def all_findings() -> list[Finding]:
    return [finding for search in SEARCHES for finding in search()]


def compared(findings: list[Finding], known: tuple[Known, ...] = KNOWN) -> Iterator[str]:
    """What is wrong, in a line each: a finding that isn't known, or goes further, and a known one that nothing needs."""
    worst: dict[tuple[str, str, str], Finding] = {}
    for finding in findings:
        before = worst.get(finding.key())
        if before is None or before.figure < finding.figure:
            worst[finding.key()] = finding
    allowed = {entry.key(): entry for entry in known}
    for key, finding in worst.items():
        entry = allowed.get(key)
        if entry is None:
            yield finding.shown()
        elif finding.figure > entry.figure:
            yield "%s; %d are known" % (finding.shown(), entry.figure)
    for key, entry in allowed.items():
        if key not in worst and not entry.may_go:
            yield "tools/house_known.py: nothing needs this entry any more: %s of %s %s" % (entry.bound, entry.file, entry.name)
