"""Writes down how a line is read, for the tools that explain refusals: tools/line_machine.json, made of the definitions.

usage: tools/line_machine [--check]

The definitions have the machine that reads the tokens of a line: crates/lsys_syntax/specs/LineMachine.antt with RuleMachine.antt and
ExpressionMachine.antt. Their clauses are written as lists, which tools/machine.py works out. With --check nothing is written, and the
status says whether what is kept is what would be written.
"""

from __future__ import annotations

import json
import os
import re
from collections.abc import Iterator, Sequence
from typing import Any

from programs import TOP
from telling import Words, give_up

SPECS = os.path.join(TOP, "crates", "lsys_syntax", "specs")
KEPT = os.path.join(TOP, "tools", "line_machine.json")
MACHINES = ["Limits", "ExpressionMachine", "RuleMachine", "LineMachine"]
TREES = ["Tokens", "Strings", "Expressions", "Commands"]
# Where the machine begins to be used, and what the prelude has.
WANTED = ["line_step", "finish", "Fresh"]
PRELUDE = ["zero", "suc", "true", "false", "Some", "None"]
BUILT_IN = {"nat_lt", "nat_le", "bytes_eq", "codes", "option_map"}
WORDS = re.compile(r"\s*(\"[^\"]*\"|[A-Za-z_]\w*(?:\.[A-Za-z_0-9]\w*)*|\d+|\[\]|[^\s])")


def items_of(name: str) -> list[list[str]]:
    """The parts of a file of definitions, each from its first line to its last, without comments."""
    with open(os.path.join(SPECS, name + ".antt"), encoding="utf-8") as file:
        lines = [re.sub(r"(^|\s)--.*", "", line.rstrip("\n")) for line in file]
    items = []
    for line in lines:
        if line and not line[0].isspace() and line not in ("]", "}"):
            items.append([line])
        elif line.strip() and items:
            items[-1].append(line)
    return items


def constructors() -> set[str]:
    """The names of the constructors of all trees that the machine has to do with."""
    found = set(PRELUDE)
    for name in MACHINES + TREES:
        for item in items_of(name):
            if item[0].startswith("mutual") or re.match(r"(pub )?data ", item[0]):
                found |= {match.group(1) for match in map(re.compile(r"\s+([A-Za-z_]\w*) : ").match, item[1:]) if match}
    return found


class Reading:
    """Reads an expression or a pattern: variables and names as [name], calls as [function, argument ..]."""

    def __init__(self, text: str) -> None:
        self.words, self.at = WORDS.findall(text), 0

    def peek(self) -> str:
        return self.words[self.at] if self.at < len(self.words) else ""

    def take(self, wanted: str | None = None) -> str:
        word = self.peek()
        if wanted and word != wanted:
            raise ValueError("%s stands where %s should: %s" % (word, wanted, " ".join(self.words)))
        self.at += 1
        return word

    def expression(self) -> Any:
        if self.peek() == "λ":
            self.take()
            name = self.take()
            self.take(".")
            return {"by": name, "is": self.expression()}
        if self.peek() == "if":
            self.take()
            condition = self.expression()
            self.take("then")
            first = self.expression()
            self.take("else")
            return {"if": condition, "then": first, "else": self.expression()}
        left = self.sum()
        if self.peek() == "∷":
            self.take()
            return ["∷", left, self.expression()]
        return left

    def sum(self) -> Any:
        left = self.call()
        while self.peek() in ("+", "-", "^"):
            left = [self.take(), left, self.call()]
        return left

    def call(self) -> Any:
        parts = [self.atom()]
        while self.peek() and (re.match(r"[\w\"(\[]", self.peek())) and self.peek() not in ("then", "else"):
            parts.append(self.atom())
        if len(parts) == 1:
            return parts[0]
        return parts[0] + parts[1:] if isinstance(parts[0], list) and len(parts[0]) == 1 else ["apply"] + parts

    def atom(self) -> Any:
        word = self.take()
        if word == "(":
            inner = self.expression()
            self.take(")")
            return inner
        if word == "record":
            return self.record()
        if word[0] == "\"":
            return {"text": word[1:-1]}
        return int(word) if word.isdigit() else [word]

    def record(self) -> dict[str, Any]:
        self.take("{")
        fields = {}
        while self.peek() != "}":
            name = self.take()
            self.take("=")
            fields[name] = self.expression()
            if self.peek() == ";":
                self.take()
        self.take("}")
        return {"record": fields}


def whole(text: str) -> Any:
    reading = Reading(text)
    found = reading.expression()
    if reading.peek():
        raise ValueError("this isn't read to its end: " + text)
    return found


def without_module(tree: Any) -> Any:
    """Names without the module that they come from; `b.head` is a part of a record."""
    if isinstance(tree, dict):
        return {key: (value if key in ("by", "text") else {name: without_module(part) for name, part in value.items()} if key == "record"
                      else without_module(value))
                for key, value in tree.items()}
    if not isinstance(tree, list):
        return tree
    head = tree[0]
    if isinstance(head, str) and "." in head:
        parts = head.split(".")
        head = parts[-1] if parts[0][0].isupper() else {"of": parts[0], "parts": parts[1:]}
    elif not isinstance(head, str):
        head = without_module(head)
    return [head] + [without_module(part) for part in tree[1:]]


def clauses_of(names: Sequence[str]) -> dict[str, list[Any]]:
    """The clauses of all functions of some files: for each its patterns and what it is. A clause is `name pattern .. = expression`."""
    found: dict[str, list[Any]] = {}
    for name in names:
        for item in items_of(name):
            text = " ".join(item)
            match = re.match(r"([A-Za-z_]\w*)((?: (?!=).*?)?) =(?: |$)(.*)", text)
            if not match or text.startswith(("pub ", "abbrev ", "use ", "data ", "record ")) or "elim" in text or "refl" in text.split():
                continue
            patterns = Reading(match.group(2))
            taken = []
            while patterns.peek():
                taken.append(without_module(patterns.atom()))
            found.setdefault(match.group(1), []).append([taken, without_module(whole(match.group(3)))])
    return found


def names_in(tree: Any) -> Iterator[str]:
    """All names that an expression holds."""
    if isinstance(tree, dict):
        for key, value in tree.items():
            if key == "record":
                for part in value.values():
                    yield from names_in(part)
            elif key not in ("by", "text", "of", "parts"):
                yield from names_in(value)
    elif isinstance(tree, list):
        for part in tree:
            if isinstance(part, str):
                yield part
            else:
                yield from names_in(part)


def machine() -> dict[str, Any]:
    """What is kept: the functions that reading a line needs, and the constructors."""
    functions, made = clauses_of(MACHINES), constructors()
    needed, left = {}, [name for name in WANTED if name in functions]
    while left:
        name = left.pop()
        if name in needed or name not in functions:
            continue
        needed[name] = functions[name]
        for _, expression in functions[name]:
            left += names_in(expression)
    unknown = {word for clauses in needed.values() for patterns, _ in clauses for word in names_in(patterns)} & set(functions) - made
    if unknown:
        give_up("these names are functions, and stand in patterns: %s" % ", ".join(sorted(unknown)))
    used = {word for clauses in needed.values() for clause in clauses for word in names_in(clause)}
    return {"functions": {name: needed[name] for name in sorted(needed)}, "constructors": sorted(made & used)}


def text_of(kept: dict[str, Any]) -> str:
    """The text of the file, a function a line."""
    def compact(value: object) -> str:
        return json.dumps(value, ensure_ascii=False, separators=(",", ":"))

    rows = ",\n".join("%s:%s" % (compact(name), compact(clauses)) for name, clauses in kept["functions"].items())
    return "{\"functions\":{\n%s\n},\n\"constructors\":%s}\n" % (rows, compact(kept["constructors"]))


def main() -> int:
    parser = Words(__doc__)
    parser.add_argument("--check", action="store_true")
    options = parser.parse_args()
    text = text_of(machine())
    if options.check:
        with open(KEPT, encoding="utf-8") as file:
            is_current = file.read() == text
        print("tools/line_machine.json is %s" % ("what the definitions give" if is_current
                                                 else "NOT what the definitions give: run tools/line_machine"))
        return 0 if is_current else 1
    with open(KEPT, "w", encoding="utf-8") as file:
        file.write(text)
    return 0
