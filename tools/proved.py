"""Checks that each clause which docs/PROVED.md names stands in the file that it names.

usage: tools/proved [--unnamed]

A row of its tables has a promise, a clause and a file, which is below the crate of the heading above. A clause is told in one of these ways:
  `CALL` `label`, ..   each of these is the label of an `ensures` of the function, which has an `ensures` without a label where none is told;
                       a function of a trait that is met has the trait's clauses, and needs none of its own
  `CALL`, no memory    the function's answer is no want of memory: its type has neither AllocError nor an enum with a variant Memory
  `TYPE`, invariant    the type has an invariant
  `NAME` `field`, ..   in a file of definitions: it has this name, and the record has these fields
Each cell is a line: at most 120 columns. Each law of a crate has a row. --unnamed lists what else public functions ensure that no row names.
"""

from __future__ import annotations

import collections
import os
import re
import sys
from collections.abc import Iterable, Iterator
from typing import NamedTuple

from programs import TOP
from sources import closed

PAGE = os.path.join(TOP, "docs", "PROVED.md")
MOST_COLUMNS = 120
HEAD = re.compile(r"^[ \t]*(?P<pub>pub(?:\([a-z]+\))? )?(?:(?P<kind>fn|trait|struct|enum) (?P<name>\w+)|(?P<impl>impl)\b(?P<of>[^{\n]*))", re.M)
CLAUSE = re.compile(r"^[ \t]*ensures\b ?(\w*) ?\{", re.M)
INVARIANT = re.compile(r"^[ \t]*ghost invariant\b", re.M)
ANSWER = re.compile(r"->\s*(.*?)\s*(?=\n\s*(?:requires|ensures|decreases)|\{|;)", re.S)
DEFINED = r"^[ \t]*(?:(?:abbrev|unfoldable) pub|pub (?:record|data)|(?:record|data) pub) %s(?=[\s:(])"
TOLD = re.compile(r"`([^`]+)`")


class Function(NamedTuple):
    """A function as a source has it: what it belongs to, whether it is public, its type, and the labels of what it ensures."""
    owner: list[str]
    is_public: bool
    answer: str
    labels: list[str]


class Row(NamedTuple):
    """A row of the page."""
    line: int
    crate: str
    promise: str
    clause: str
    file: str


def text_of(path: str) -> str:
    with open(path, encoding="utf-8") as file:
        return file.read()


def plain(words: str) -> list[str]:
    """The words of an impl without what stands in angle brackets."""
    while "<" in words and words != re.sub(r"<[^<>]*>", "", words):
        words = re.sub(r"<[^<>]*>", "", words)
    return words.split()


class Source:
    """What a file of source has: its functions by name, the types with an invariant, its enums with their variants."""

    def __init__(self, text: str) -> None:
        self.functions: dict[str, list[Function]] = collections.defaultdict(list)
        self.invariants: set[str] = set()
        self.enums: dict[str, list[str]] = {}
        owner: list[str] = []
        ends = 0
        for found in HEAD.finditer(text):
            if found["kind"] == "fn":
                self.add_function(text, found, owner if found.start() < ends else [])
            elif found["impl"] or found["kind"] == "trait":
                opens = text.find("{", found.end())
                owner = plain(found["of"]) if found["impl"] else ["trait", found["name"]]
                ends = closed(text, opens)
                if INVARIANT.search(text, opens, ends):
                    self.invariants.update(owner[-1:])
            elif found["kind"] == "enum":
                opens = text.find("{", found.end())
                self.enums[found["name"]] = re.findall(r"^ {4}(\w+)", text[opens:closed(text, opens)], re.M)

    def add_function(self, text: str, found: re.Match[str], owner: list[str]) -> None:
        opens, after = found.end(), HEAD.search(text, found.end())
        part = text[opens:after.start() if after else len(text)]
        answer = ANSWER.search(part.split("ensures")[0].split("requires")[0] + "{")
        public = (found["pub"] or "").strip() == "pub" or bool({"for", "trait"} & set(owner))
        self.functions[found["name"]].append(Function(owner, public, answer.group(1) if answer else "", CLAUSE.findall(part)))


class Crates:
    """The sources and the definitions of crates, read once each."""

    def __init__(self) -> None:
        self.sources: dict[str, Source] = {}
        self.lacking: set[str] | None = None

    def source(self, path: str) -> Source:
        if path not in self.sources:
            self.sources[path] = Source(text_of(path))
        return self.sources[path]

    def lack_memory(self) -> set[str]:
        """The types of error that may be want of memory."""
        if self.lacking is None:
            enums = [self.source(path).enums for path in sorted(files("src", ".rt"))]
            self.lacking = {"AllocError", *(name for found in enums for name, variants in found.items() if "Memory" in variants)}
        return self.lacking


def files(part: str, end: str, crate: str | None = None) -> Iterator[str]:
    for name in [crate] if crate else sorted(os.listdir(os.path.join(TOP, "crates"))):
        for folder, _, names in os.walk(os.path.join(TOP, "crates", name, part)):
            yield from (os.path.join(folder, file) for file in names if file.endswith(end))


def rows_of(text: str) -> tuple[list[Row], list[str]]:
    """The rows of the page, and what is wrong with its form."""
    rows, wrong, crate = [], [], None
    for number, line in enumerate(text.split("\n"), 1):
        if line.startswith("### "):
            crate = TOLD.findall(line)[0]
        elif line.startswith("## "):
            crate = None
        elif crate and line.startswith("| ") and not line.startswith(("| ---", "| What is promised")):
            cells = [cell.strip() for cell in re.split(r"(?<!\\)\|", line)[1:-1]]
            wrong += ["line %d: a cell has %d columns" % (number, len(cell)) for cell in cells if len(cell) > MOST_COLUMNS]
            if len(cells) != 3:
                wrong.append("line %d: a row has a promise, a clause and a file" % number)
            else:
                rows.append(Row(number, crate, *cells))
    return rows, wrong


def functions_named(source: Source, call: str) -> list[Function]:
    """The functions that a call names: by its name, or by its type or trait and its name."""
    *owner, name = call.split("::")
    return [one for one in source.functions.get(name, []) if not owner and not one.owner or owner and owner[0] in one.owner]


def fault_of_call(crates: Crates, path: str, call: str, labels: list[str], rest: str) -> str | None:
    found = functions_named(crates.source(path), call)
    if not found:
        return "there is no function %s" % call
    if rest == ", no memory":
        lacks = [word for one in found for word in re.findall(r"\w+", one.answer) if word in crates.lack_memory()]
        return "%s may answer %s" % (call, lacks[0]) if lacks else None
    missing = [label for label in labels if not any(label in one.labels for one in found)]
    if missing:
        return "%s has no clause %s" % (call, ", ".join(missing))
    if not labels and not any("" in one.labels or "for" in one.owner for one in found):
        return "%s has no clause without a label" % call
    return None


def body_of(text: str, found: re.Match[str]) -> str:
    """The lines of a definition after the one that names it: those that are indented more than it is."""
    indent = len(found.group()) - len(found.group().lstrip())
    lines = []
    for line in text[found.end():].split("\n")[1:]:
        if line.strip() and len(line) - len(line.lstrip()) <= indent:
            break
        lines.append(line)
    return "\n".join(lines)


def fault_of_fact(path: str, name: str, fields: list[str]) -> str | None:
    text = text_of(path)
    found = re.search(DEFINED % re.escape(name), text, re.M)
    if not found:
        return "there is no definition %s" % name
    missing = [field for field in fields if not re.search(r"^\s+pub %s :" % re.escape(field), body_of(text, found), re.M)]
    return "%s has no field %s" % (name, ", ".join(missing)) if missing else None


def fault_of(crates: Crates, row: Row) -> str | None:
    """What is wrong with a row, or None."""
    files_told = TOLD.findall(row.file)
    path = os.path.join(TOP, "crates", row.crate, files_told[0]) if files_told else ""
    told = TOLD.findall(row.clause)
    if not os.path.isfile(path):
        return "there is no file %s" % row.file
    if not told:
        return "no clause is told"
    rest = TOLD.sub("", row.clause)
    if row.file.startswith("`specs/"):
        return fault_of_fact(path, told[0], told[1:])
    if rest == ", invariant":
        return None if told[0] in crates.source(path).invariants else "%s has no invariant" % told[0]
    return fault_of_call(crates, path, told[0], told[1:], rest)


def public_clauses(crates: Crates, names: Iterable[str]) -> Iterator[tuple[str, str, list[str]]]:
    """Of each public function of these crates: its crate, its call and its labels."""
    for crate in names:
        for path in sorted(files("src", ".rt", crate)):
            for name, found in sorted(crates.source(path).functions.items()):
                for one in found:
                    if one.is_public and one.labels:
                        yield crate, "::".join(one.owner[-1:] + [name]), one.labels


def main() -> int:
    if set(sys.argv[1:]) - {"--unnamed"}:
        print(__doc__)
        return 0 if set(sys.argv[1:]) & {"-h", "--help"} else 2
    crates = Crates()
    rows, wrong = rows_of(text_of(PAGE))
    for row in rows:
        fault = fault_of(crates, row)
        if fault:
            wrong.append("line %d: %s: %s" % (row.line, row.crate, fault))
    named = collections.defaultdict(set)
    for row in rows:
        told = TOLD.findall(row.clause)
        named[row.crate, told[0] if told else ""].update(told[1:] or [""])
    clauses = list(public_clauses(crates, sorted({row.crate for row in rows})))
    laws = [(crate, call) for crate, call, _ in clauses if "law_of_" in call]
    wrong += ["no row has the law %s of %s" % (call, crate) for crate, call in laws if (crate, call) not in named]
    unnamed = [(crate, call, label) for crate, call, labels in clauses for label in labels if label not in named[crate, call]]
    if "--unnamed" in sys.argv:
        for crate, call, label in unnamed:
            print("%s: %s %s" % (crate, call, label))
    for line in wrong:
        print("docs/PROVED.md: " + line)
    every = sum(len(labels) for _, _, labels in clauses)
    print("%d rows, %d wrong; of %d public clauses %d are named" % (len(rows), len(wrong), every, every - len(unnamed)))
    return 1 if wrong else 0
