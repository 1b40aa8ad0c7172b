"""What the lines say that a program has taken so far: the rules by their labels, the tables, and single settings."""

from __future__ import annotations

import re
from collections.abc import Iterable

RULE = re.compile(r"[ \t]*(production|hom)[ \t]+(?:(\w+)[ \t]+)?(\w+)[ \t]*:(.*)", re.S)
NAME = r"[A-Za-z](?:_[A-Za-z0-9]{1,6})?"
MODULE = re.compile(r"(%s|[-+&^\\/|!])[ \t]*(?:\(([^)]*)\))?" % NAME)
ARROW = re.compile(r"=>")


class Rule:
    """A rule as its line has it: its kind, table and label, and its parts as texts."""

    def __init__(self, line: str, match: re.Match[str]) -> None:
        self.line, self.kind, self.label, self.text = line, match.group(1), match.group(3), match.group(4)
        self.table = (match.group(2) or "main") if self.kind == "production" else None
        front, _, successor = self.text.partition("=>")
        self.successor: str = successor
        self.pattern, self.condition, self.weight = parts_of(front)
        self.left, self.predecessor, self.right = contexts_of(self.pattern)
        found = MODULE.match(self.predecessor)
        self.name = found.group(1) if found else ""
        self.formals = [word.strip() for word in (found.group(2) or "").split(",") if word.strip()] if found else []

    def has_contexts(self) -> bool:
        return bool(self.left or self.right)

    def group(self) -> tuple[str, str | None, str, int]:
        """What the rules are for that are tried one after another."""
        return self.kind, self.table, self.name, len(self.formals)


def parts_of(front: str) -> tuple[str, str, str]:
    """The pattern, the condition and the weight of what stands before an arrow."""
    front, _, weight = front.partition("@")
    pattern, _, condition = front.partition(":")
    return pattern.strip(), condition.strip(), weight.strip()


def contexts_of(pattern: str) -> tuple[str, str, str]:
    left, has_left, rest = pattern.rpartition("<")
    middle, _, right = rest.partition(">")
    return (left.strip() if has_left else ""), middle.strip(), right.strip()


def rule_of(line: str) -> Rule | None:
    """The rule that a line puts, or None."""
    match = RULE.match(line)
    return Rule(line, match) if match else None


# The rules by their labels, and the lines of single settings by their words.
System = tuple[dict[str, Rule], dict[str, str]]


class Known:
    """What the taken lines say, in their order."""

    def __init__(self, lines: Iterable[bytes | str] = ()) -> None:
        self.rules: dict[str, Rule] = {}
        self.settings: dict[str, str] = {}
        self.past: list[System] = []
        self.future: list[System] = []
        for line in lines:
            self.take(line)

    def take(self, line: bytes | str) -> None:
        """Takes a line that the program took."""
        text = line.decode("utf-8", "surrogateescape") if isinstance(line, bytes) else line
        words = text.split()
        word = "".join(re.findall(r"^[ \t]*([A-Za-z]*)", text))
        if word in ("undo", "redo"):
            left, gained = (self.past, self.future) if word == "undo" else (self.future, self.past)
            if left:
                gained.append((dict(self.rules), dict(self.settings)))
                self.rules, self.settings = left.pop()
            return
        rule = rule_of(text)
        if rule or word in ("drop", "axiom", "ignore", "schedule", "seed", "depth", "lattice", "version", "ignoring", "consider", "common",
                            "lineage"):
            self.past, self.future = (self.past + [(dict(self.rules), dict(self.settings))])[-32:], []
        if rule:
            self.rules[rule.label] = rule
        elif word == "drop" and len(words) > 1:
            self.rules.pop(words[1], None)
        elif word and len(words) > 1:
            self.settings[word] = text

    def number(self, word: str, usual: int = 0) -> int:
        found = re.search(r"\d+", self.settings.get(word, ""))
        return int(found.group()) if found else usual

    def depth(self) -> int:
        return self.number("depth")

    def version(self) -> int:
        return self.number("version", 1)

    def tables(self) -> list[str]:
        return ["main"] + sorted({rule.table for rule in self.rules.values() if rule.table is not None} - {"main"})

    def schedule(self) -> list[str]:
        return self.settings.get("schedule", "schedule main").split()[1:]

    def rules_for(self, name: str, count: int, table: str | None) -> list[Rule]:
        """The rules that are tried for a module of this name with so many parameters, in order."""
        return [rule for rule in self.rules.values() if rule.group() == (("production", table, name, count) if table else ("hom", None, name, count))]

    def table_at(self, level: int) -> str:
        schedule = self.schedule()
        return schedule[level % len(schedule)] if schedule else "main"
