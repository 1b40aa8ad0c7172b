"""How a line is read: its tokens, and the machine of the definitions that takes them one after another (tools/line_machine.json).

A value is a tuple of a constructor's name and its arguments, a number, a text, or a truth; a kind of token likewise, as ("Word", "depth"),
("Name", "F"), ("Number", 3) or ("Arrow",).
"""

from __future__ import annotations

import json
import os
import re
from collections.abc import Callable, Sequence
from typing import Any

Kind = tuple[Any, ...]
HERE = os.path.dirname(os.path.realpath(__file__))
MARKS = {b"=>": "Arrow", b"==": "Equal", b"!=": "Unequal", b"<=": "AtMost", b">=": "AtLeast", b"(": "LeftParen", b")": "RightParen",
         b"[": "LeftBracket",
         b"]": "RightBracket", b",": "Comma", b":": "Colon", b"@": "At", b"+": "Plus", b"-": "Minus", b"*": "Times", b"/": "Slash",
         b"\\": "Backslash",
         b"%": "Percent", b"&": "Ampersand", b"|": "Bar", b"^": "Caret", b"!": "Bang", b"<": "Less", b">": "Greater", b"=": "Assign"}
SIGNS = {kind: mark.decode() for mark, kind in MARKS.items()}
WORD, NAME, DIGITS = re.compile(rb"[A-Za-z][A-Za-z0-9_]*"), re.compile(rb"[A-Za-z](?:_[A-Za-z0-9]{1,6})?"), re.compile(rb"[0-9]+")
MARK = re.compile(rb"=>|==|!=|<=|>=|[()\[\],:@+\-*/\\%&|^!<>=]")
MOST_WORD, NUMBER_BOUND = 16, 2 ** 64
NAMES_AT_ONCE, NAMES_AFTER_COLON = (b"axiom", b"ignore"), (b"production", b"hom", b"ignoring", b"consider")
# A longer line isn't followed; its reply is told alone.
MOST_TOKENS = 400


class Token:
    """A token: its kind, and the bytes of its line from `start` to `stop`."""

    def __init__(self, kind: Kind, start: int, stop: int) -> None:
        self.kind, self.start, self.stop = kind, start, stop


def mode_after(mode: str, text: bytes, is_first: bool) -> str:
    """How letters are read after a token: as words, as words until a colon, or as names."""
    if is_first:
        return "names" if text in NAMES_AT_ONCE else "until colon" if text in NAMES_AFTER_COLON else "words"
    return "names" if mode == "until colon" and text == b":" else mode


def token_at(line: bytes, place: int, mode: str) -> Token | None:
    """The token at a place that is no blank, or None."""
    digits = DIGITS.match(line, place)
    if digits:
        shown = digits.group().lstrip(b"0") or b"0"
        value = int(shown) if len(shown) < 30 else NUMBER_BOUND
        return Token(("Number", value) if value < NUMBER_BOUND else ("BigNumber",), place, digits.end())
    letters = (NAME if mode == "names" else WORD).match(line, place)
    if letters:
        text = letters.group().decode()
        kind = ("Name", text) if mode == "names" else ("Word", text) if len(text) <= MOST_WORD else ("LongWord",)
        return Token(kind, place, letters.end())
    mark = MARK.match(line, place)
    return Token((MARKS[mark.group()],), place, mark.end()) if mark else None


def tokens_of(line: bytes) -> tuple[list[Token], int | None]:
    """A line's tokens, and the place of its first byte that is in none, or None."""
    found: list[Token] = []
    place, mode = 0, "words"
    while place < len(line):
        if line[place:place + 1] in (b" ", b"\t"):
            place += 1
            continue
        token = token_at(line, place, mode)
        if token is None:
            return found, place
        mode = mode_after(mode, line[place:token.stop], not found)
        found.append(token)
        place = token.stop
    return found, None


class Machine:
    """Works out the functions of the definitions."""

    def __init__(self, kept: dict[str, Any]) -> None:
        self.functions, self.constructors = kept["functions"], set(kept["constructors"])
        self.built_in: dict[str, tuple[int, Callable[..., Any]]] = {"nat_lt": (2, lambda a, b: a < b), "nat_le": (2, lambda a, b: a <= b),
                                                                    "bytes_eq": (2, lambda a, b: a == b), "codes": (1, lambda text: text),
                         "option_map": (2, lambda f, o: o if o == ("None",) else ("Some", self.apply(f, [o[1]]))), "+": (2, lambda a, b: a + b),
                         "-": (2, lambda a, b: max(0, a - b)), "^": (2, lambda a, b: a ** b)}

    def value(self, tree: Any, known: dict[str, Any]) -> Any:
        if isinstance(tree, (int, str)):
            return tree
        if isinstance(tree, dict):
            return self.value_of_form(tree, known)
        head, rest = tree[0], [self.value(part, known) for part in tree[1:]]
        if isinstance(head, str):
            if head in known:
                return self.apply(known[head], rest)
            if head in self.functions or head in self.built_in:
                return self.apply(("function", head), rest)
            return {"true": True, "false": False, "zero": 0}.get(head) if head in ("true", "false", "zero") else (head, *rest)
        return self.apply(self.value(head, known), rest)

    def value_of_form(self, tree: Any, known: dict[str, Any]) -> Any:
        if "text" in tree:
            return tree["text"]
        if "if" in tree:
            return self.value(tree["then"] if self.value(tree["if"], known) else tree["else"], known)
        if "record" in tree:
            return {name: self.value(part, known) for name, part in tree["record"].items()}
        if "of" in tree:
            found = known[tree["of"]]
            for name in tree["parts"]:
                found = found[name]
            return found
        return ("by", tree, known)

    def apply(self, function: Any, arguments: Sequence[Any]) -> Any:
        """A function, or a constructor that still lacks arguments, with more of them."""
        if not isinstance(function, tuple):
            return function
        if function[0] == "by" and arguments:
            form, known = function[1:]
            return self.apply(self.value(form["is"], {**known, form["by"]: arguments[0]}), arguments[1:])
        if function[0] != "function":
            return function + tuple(arguments)
        name, given = function[1], list(function[2:]) + list(arguments)
        wanted = self.built_in[name][0] if name in self.built_in else len(self.functions[name][0][0])
        if len(given) < wanted:
            return ("function", name, *given)
        found = self.built_in[name][1](*given[:wanted]) if name in self.built_in else self.called(name, given[:wanted])
        return self.apply(found, given[wanted:]) if given[wanted:] else found

    def called(self, name: str, given: Sequence[Any]) -> Any:
        for patterns, tree in self.functions[name]:
            known: dict[str, Any] = {}
            if all(self.fits(pattern, value, known) for pattern, value in zip(patterns, given)):
                return self.value(tree, known)
        raise ValueError("no clause of %s fits" % name)

    def fits(self, pattern: Any, value: Any, known: dict[str, Any]) -> bool:
        """Whether a value has the form of a pattern, whose variables are known then."""
        head = pattern[0]
        if head not in self.constructors and head not in ("∷", "[]"):
            known[head] = value
            return True
        if head in ("zero", "suc"):
            return value == 0 if head == "zero" else value > 0 and self.fits(pattern[1], value - 1, known)
        if head in ("true", "false"):
            return value is (head == "true")
        return isinstance(value, tuple) and value[0] == head and len(value) == len(pattern) and all(
            self.fits(part, inner, known) for part, inner in zip(pattern[1:], value[1:]))

    def step(self, state: Any, kind: Kind) -> Any:
        """The state after a token."""
        return self.called("line_step", [state, kind])

    def may_end(self, state: Any) -> bool:
        return self.called("finish", [state]) != ("None",)

    def words(self) -> list[str]:
        """All words that the definitions name."""
        found = set()

        def look(tree: Any) -> None:
            if isinstance(tree, dict):
                found.update([tree["text"]] if "text" in tree else [])
                tree = list(tree.values())
            for part in tree if isinstance(tree, list) else []:
                look(part)
        for name in ("first_word", "lattice_named", "numbering_named"):
            look(self.functions[name])
        return sorted(found)


with open(os.path.join(HERE, "line_machine.json"), encoding="utf-8") as kept_machine:
    MACHINE = Machine(json.load(kept_machine))
COMMANDS = [word for word in MACHINE.words() if MACHINE.step(("Fresh",), ("Word", word)) != ("Stop",)]
ANY_WORD, ANY_NAME = "any\0", "A"


class Stop:
    """Where a line stops to be one: the state before, the number of the token that can't follow (that after the last one where the line
    ends too early), and the tokens."""

    def __init__(self, line: bytes) -> None:
        self.line = line
        self.tokens, self.bad = tokens_of(line)
        self.state: Kind = ("Fresh",)
        self.number, self.is_followed = 0, len(self.tokens) <= MOST_TOKENS
        self.states = [self.state]
        if self.is_followed:
            self.follow()

    def follow(self) -> None:
        for token in self.tokens:
            following = MACHINE.step(self.state, token.kind)
            if following == ("Stop",):
                return
            self.state, self.number = following, self.number + 1
            self.states.append(following)

    def is_sentence(self) -> bool:
        return self.is_followed and self.bad is None and self.number == len(self.tokens) and MACHINE.may_end(self.state)

    def place(self) -> int:
        """The place in the line, from 0."""
        return self.tokens[self.number].start if self.number < len(self.tokens) else len(self.line)

    def token(self, after: int = 0) -> Token | None:
        """The token that can't follow or another one near it, or None."""
        at = self.number + after
        return self.tokens[at] if 0 <= at < len(self.tokens) else None

    def text(self, token: Token | None) -> str:
        return self.line[token.start:token.stop].decode("latin-1") if token else ""

    def expected(self) -> tuple[set[str], list[str], bool]:
        """What could follow: kinds of tokens, words that the language names, and whether the line may end."""
        candidates = [("Word", ANY_WORD), ("Name", ANY_NAME), ("Number", 1)] + [(kind,) for kind in MARKS.values()]
        kinds = {kind[0] for kind in candidates if MACHINE.step(self.state, kind) != ("Stop",)}
        words = [] if "Word" in kinds else [word for word in MACHINE.words() if MACHINE.step(self.state, ("Word", word)) != ("Stop",)]
        return kinds, words, MACHINE.may_end(self.state)


def is_line(text: bytes) -> bool:
    """Whether a text is a command, as far as the tokens tell. Lines of the desk are commands of their own."""
    return Stop(text).is_sentence()
