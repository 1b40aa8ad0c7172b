"""Which module, rule and values made a derivation end with a fault: the level is asked of another program, and the rules are worked out
as far as they stand without contexts."""

from __future__ import annotations

import re
import subprocess
from collections.abc import Iterable, Iterator, Mapping, Sequence

from known import NAME, Known, Rule

LEAST, MOST = -2 ** 63, 2 ** 63 - 1
SECONDS = 3
WORDS = re.compile(r"\s*(%s|\d+|\|\||&&|==|!=|<=|>=|[-+*/%%^!<>(),])" % NAME)
LEVELS = [["||"], ["&&"], ["==", "!=", "<", "<=", ">", ">="], ["+", "-"], ["*", "/", "%"]]
SYMBOL = re.compile(r"(%s|[-+&^\\/|!])(\([^)]*\))?" % NAME)
SAYS = {"divide-by-zero": "`%s` divides by 0", "overflow": "`%s` is past 64 bits", "negative-power": "`%s` has a negative exponent",
        "negative-weight": "the weight `%s` is negative"}


class Fault(Exception):
    """An expression has a fault: its kind, and the part that has it."""

    def __init__(self, kind: str, part: str) -> None:
        Exception.__init__(self, kind, part)
        self.kind, self.part = kind, part


class Unknown(Exception):
    """A name whose value isn't known here."""


class Expression:
    """Works an expression out with the values of its names, from left to right."""

    def __init__(self, text: str, known: Mapping[str, int]) -> None:
        self.words, self.at, self.known = WORDS.findall(text), 0, known

    def peek(self) -> str:
        return self.words[self.at] if self.at < len(self.words) else ""

    def value(self) -> int:
        return self.level(0, True)

    def level(self, number: int, counts: bool) -> int:
        """The value of what stands at a level of operators. Where it doesn't count, no fault is one."""
        if number == len(LEVELS):
            return self.prefix(counts)
        begin = self.at
        left = self.level(number + 1, counts)
        while self.peek() in LEVELS[number]:
            sign = self.words[self.at]
            self.at += 1
            is_open = counts and not (sign == "||" and left != 0 or sign == "&&" and left == 0)
            right = self.level(number + 1, is_open)
            left = self.result(sign, left, right, begin, counts)
        return left

    def result(self, sign: str, left: int, right: int, begin: int, counts: bool) -> int:
        if not counts:
            return 0
        if sign in ("/", "%") and right == 0:
            raise Fault("divide-by-zero", self.part(begin))
        made = {"||": lambda: int(left != 0 or right != 0), "&&": lambda: int(left != 0 and right != 0), "==": lambda: int(left == right),
                "!=": lambda: int(left != right),
                "<": lambda: int(left < right), "<=": lambda: int(left <= right), ">": lambda: int(left > right), ">=": lambda: int(left >= right),
                "+": lambda: left + right,
                "-": lambda: left - right, "*": lambda: left * right, "/": lambda: quotient(left, right),
                "%": lambda: left - quotient(left, right) * right}[sign]()
        return self.within(made, begin)

    def within(self, value: int, begin: int) -> int:
        if not LEAST <= value <= MOST:
            raise Fault("overflow", self.part(begin))
        return value

    def part(self, begin: int) -> str:
        return "".join(self.words[begin:self.at])

    def prefix(self, counts: bool) -> int:
        begin, word = self.at, self.peek()
        if word in ("-", "!"):
            self.at += 1
            value = self.prefix(counts)
            return self.within(-value if word == "-" else int(value == 0), begin)
        return self.power(counts)

    def power(self, counts: bool) -> int:
        begin, base = self.at, self.atom(counts)
        if self.peek() != "^":
            return base
        self.at += 1
        exponent = self.prefix(counts)
        if not counts:
            return 0
        if exponent < 0:
            raise Fault("negative-power", self.part(begin))
        if abs(base) > 1 and exponent > 64:
            raise Fault("overflow", self.part(begin))
        return self.within(base ** (exponent if abs(base) > 1 else min(exponent, exponent % 2 + 2)) if exponent else 1, begin)

    def atom(self, counts: bool) -> int:
        word = self.peek()
        self.at += 1
        if word == "(":
            value = self.level(0, counts)
            self.at += 1
            return value
        if word.isdigit():
            return int(word)
        if word in self.known:
            return self.known[word]
        if not counts:
            return 0
        raise Unknown


def quotient(left: int, right: int) -> int:
    """Cut off toward 0."""
    made = abs(left) // abs(right)
    return made if (left < 0) == (right < 0) else -made


def parameters_of(successor: str) -> Iterator[str]:
    """The expressions of the parameters of what a rule puts, one after another."""
    at = 0
    while True:
        begin = successor.find("(", at)
        if begin < 0:
            return
        depth, at, first = 1, begin + 1, begin + 1
        while at < len(successor) and depth:
            sign = successor[at]
            depth += (sign == "(") - (sign == ")")
            if depth == 0 or depth == 1 and sign == ",":
                yield successor[first:at]
                first = at + 1
            at += 1


def fault_in(rule: Rule, values: Sequence[int]) -> tuple[Fault | None, bool]:
    """The fault of a rule for these parameters, or None; whether the rule applies then."""
    known = dict(zip(rule.formals, values))
    if rule.condition and Expression(rule.condition, known).value() == 0:
        return None, False
    if rule.weight and Expression(rule.weight, known).value() < 0:
        return Fault("negative-weight", rule.weight), True
    for text in parameters_of(rule.successor):
        Expression(text, known).value()
    return None, True


def culprit(rules: Iterable[Rule], values: Sequence[int], kind: str) -> tuple[Rule, Fault] | None:
    """The first rule that has such a fault, with it; or None where none has, as far as can be told."""
    for rule in rules:
        try:
            fault, applies = fault_in(rule, values)
        except Fault as found:
            fault, applies = found, True
        except Unknown:
            fault, applies = None, False
        if fault and fault.kind == kind:
            return rule, fault
        if applies and not rule.weight and not rule.has_contexts():
            return None
    return None


def modules_of(string: str) -> list[tuple[str, str]]:
    return [(match.group(1), match.group(2) or "") for match in SYMBOL.finditer(string)]


def sent_for(taken: list[bytes], line: bytes, level: int | None) -> list[bytes] | None:
    """The lines whose last reply is the level's string, in the system that the refused line would have made."""
    word = line.split()[0] if line.split() else b""
    if word in (b"undo", b"redo", b"version"):
        return None
    more = [b"depth %d" % level] if level is not None else []
    return taken + more + ([line] if word not in (b"depth", b"svg", b"segments", b"bounds", b"at") else []) + [b"string"]


def told_of_fault(words: Sequence[str], taken: list[bytes], line: bytes, reply: str) -> str | None:
    """What is told of a fault: the module with its parameters, the part of the rule that had it and the rule; or None where that isn't
    found. `words` begin the program, `taken` are the edits before the line."""
    found = re.fullmatch(r"refused fault (\S+) (?:level (\d+) module (\d+)|image (\d+))", reply)
    if found is None:
        return None
    level, number = (int(found.group(2)), int(found.group(3))) if found.group(2) else (None, int(found.group(4)))
    sent = sent_for(taken, line, level)
    if sent is None:
        return None
    try:
        ran = subprocess.run(words, input=b"\n".join(sent) + b"\n", stdout=subprocess.PIPE, stderr=subprocess.DEVNULL, timeout=SECONDS)
    except (OSError, subprocess.TimeoutExpired):
        return None
    modules = modules_of((ran.stdout.decode("latin-1").splitlines() or [""])[-1])
    if number > len(modules):
        return None
    known = Known(sent)
    name, text = modules[number - 1]
    values = [int(value) for value in text.strip("()").split(",")] if text else []
    where = "module %d of the last level: %s" % (number, name + text)
    if level is not None:
        where = "level %d, module %d: %s" % (level, number, name + text)
    rules = known.rules_for(name, len(values), known.table_at(level) if level is not None else None)
    guilty = culprit(rules, values, found.group(1))
    if guilty and found.group(1) in SAYS:
        return "%s: %s in the rule `%s`" % (where, SAYS[found.group(1)] % guilty[1].part, guilty[0].label)
    labels = ", ".join("`%s`" % rule.label for rule in rules[:4])
    return where + (", by one of the rules %s" % labels if len(rules) > 1 else ", by the rule %s" % labels if rules else "")
