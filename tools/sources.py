"""The crates' files as tools read them: their parts, their clauses, the names that they define and use, and the functions in them."""

from __future__ import annotations

import os
import re
from collections import Counter, defaultdict
from collections.abc import Iterator
from dataclasses import dataclass

from programs import TOP

CRATES = os.path.join(TOP, "crates")
PARTS = (("src", ".rt"), ("specs", ".antt"), ("proofs", ".antt"))
CLAUSE = re.compile(r"^[ \t]*(?:requires|ensures)\b[^{\n]*(?=\{)", re.M)
DEFINED = re.compile(r"^[ \t]*(?:(?:abbrev|unfoldable) pub|pub (?:record|data)|(?:record|data) pub) ([^\s:(){}]+)", re.M)
TYPE = re.compile(r"^[ \t]*(?:pub(?:\([a-z]+\))? )?(?:struct|enum|trait|type|union) ([A-Za-z]\w*)", re.M)
FUNCTION = re.compile(r"^( *)(?:pub(?:\([a-z]+\))? )?(?:const |unsafe |ghost )*fn ([A-Za-z_]\w*)", re.M)
COMMENT = re.compile(r"(?m)(?:--|//).*$")
USE = re.compile(r"(?m)^(?:ghost )?use .*$")
WORD = re.compile(r"[^\s(){}\[\],;.\"λ→]+")
# A sign in a name that stands for an argument.
ARGUMENT = "◌"


@dataclass
class Clause:
    """A `requires` or an `ensures`: where it stands, its name, and its text on one line."""
    path: str
    line: int
    name: str
    text: str


@dataclass
class Function:
    """A function: where it begins, its name, how many parameters it has, `self` among them, and the lines of its body."""
    path: str
    line: int
    name: str
    parameters: int
    lines: int


def crates() -> list[str]:
    """The crates' names, in the order of crates.txt."""
    with open(os.path.join(TOP, "crates.txt"), encoding="utf-8") as file:
        return [line.split(":")[0].split()[0] for line in file if ":" in line and not line.startswith("#")]


def near(path: str) -> str:
    """A path as it is below the repository's folder."""
    return os.path.relpath(path, TOP)


def texts(crate: str, part: str, end: str) -> Iterator[tuple[str, str]]:
    """The path and the text of each file of a part of a crate."""
    for folder, _, names in sorted(os.walk(os.path.join(CRATES, crate, part))):
        for name in sorted(names):
            if name.endswith(end):
                path = os.path.join(folder, name)
                with open(path, encoding="utf-8") as file:
                    yield path, file.read()


def line_of(text: str, place: int) -> int:
    """The number of the line, from 1, in which a place of a text is."""
    return text.count("\n", 0, place) + 1


def closed(text: str, place: int) -> int:
    """The place after the brace that closes the one at this place."""
    depth = 0
    for at in range(place, len(text)):
        depth += (text[at] == "{") - (text[at] == "}")
        if not depth:
            return at + 1
    return len(text)


def clauses_in(path: str, text: str) -> Iterator[Clause]:
    """The clauses of the functions of a text."""
    for found in CLAUSE.finditer(text):
        whole = " ".join(text[found.start():closed(text, found.end())].split())
        words = whole.partition("{")[0].split()
        yield Clause(path, line_of(text, found.start()), words[-1], whole)


def past_generics(text: str, place: int) -> int:
    """The place of the parameters' parenthesis after a function's name."""
    depth = 0
    while text[place] != "(" or depth:
        depth += (text[place] == "<") - (text[place] == ">" and text[place - 1] not in "-=")
        place += 1
    return place


def parameters_at(text: str, place: int) -> int:
    """How many parameters stand in the parentheses that open at a place."""
    depth, angles, count, is_begun = 0, 0, 0, False
    for at in range(place, len(text)):
        sign = text[at]
        depth += (sign in "([{") - (sign in ")]}")
        angles += (sign == "<") - (sign == ">" and text[at - 1] not in "-=")
        if not depth:
            return count + is_begun
        if sign == "," and depth == 1 and not angles:
            count, is_begun = count + 1, False
        elif not sign.isspace() and at > place:
            is_begun = True
    return count


def body_lines(lines: list[str], first: int, indent: str) -> int:
    """How many lines the body of a function has that begins at a line, from the one with its brace to the one that closes it; 0 where it
    has none."""
    for number in range(first, len(lines)):
        line = lines[number]
        is_clause = line.strip().startswith(("requires ", "ensures "))
        if line == indent + "{" or line.endswith("{") and not is_clause:
            return next((end + 1 - number for end in range(number + 1, len(lines)) if lines[end] == indent + "}"), 1)
        if line.endswith((";", "{}")) and not is_clause:
            return 0
    return 0


def functions_in(path: str, text: str) -> Iterator[Function]:
    """The functions of a text of Rust."""
    lines = text.split("\n")
    for found in FUNCTION.finditer(text):
        first = line_of(text, found.start())
        many = parameters_at(text, past_generics(text, found.end()))
        yield Function(path, first, found.group(2), many, body_lines(lines, first - 1, found.group(1)))


def names_in(pattern: re.Pattern[str], path: str, text: str) -> Iterator[tuple[str, tuple[str, int]]]:
    """The names that a pattern finds in a text, each with its path and line."""
    for found in pattern.finditer(text):
        yield found.group(1), (path, line_of(text, found.start(1)))


def defined(part: str = "specs") -> dict[str, list[tuple[str, int]]]:
    """Each exported name of the definitions, or each type of the sources, with the places where it is defined."""
    pattern, end = (DEFINED, ".antt") if part == "specs" else (TYPE, ".rt")
    places: dict[str, list[tuple[str, int]]] = defaultdict(list)
    for crate in crates():
        for path, text in texts(crate, part, end):
            for name, place in names_in(pattern, path, text):
                places[name].append(place)
    return places


def stem_of(name: str) -> str:
    """The word by which a name is seen where it is used: of one that stands between its arguments the first part."""
    return next((part for part in name.split(ARGUMENT) if part), name)


def words_used(text: str) -> Iterator[str]:
    """The words of a text outside of comments and `use` lines, where a paragraph's own definitions are left out."""
    for paragraph in re.split(r"\n\s*\n", COMMENT.sub("", USE.sub("", text))):
        own: set[str] = {stem_of(name) for name in DEFINED.findall(paragraph)}
        yield from (word for word in WORD.findall(paragraph) if word not in own)


def uses() -> Counter[str]:
    """How often each word is used in the crates' files."""
    found: Counter[str] = Counter()
    for crate in crates():
        for part, end in PARTS:
            for _, text in texts(crate, part, end):
                found.update(words_used(text))
    return found


def lines_of(crate: str) -> list[int]:
    """How many lines its source, its definitions and its proofs have."""
    return [sum(text.count("\n") for _, text in texts(crate, part, end)) for part, end in PARTS]


def crate_of(path: str) -> str | None:
    """The crate of a file, or None."""
    parts = near(path).split(os.sep)
    return parts[1] if parts[0] == "crates" else None
