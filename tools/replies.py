"""The replies of the program, one by one, the lines of a script that they answer, and what a person is told of a refusal."""

from __future__ import annotations

import re
from collections.abc import Callable, Iterator
from typing import Optional

Caret = Callable[[bytes, Optional[int]], list[str]]
LONGEST_LINE = 65536
# The replies that name a column, and hold it as their last word.
AT_COLUMN = re.compile(rb"refused (?:syntax (?:byte|token|deep)|name|duplicate|mixed|label|table|level|many|place) (\d+)$")
# The first words of replies of many lines, and the beginnings of their last ones.
LAST_LINES = [((b"<svg ",), b"</svg>"), ((b"lattice ", b"version "), b"depth ")]
# After the first line of a growth as many letters are counted as stand there; no other reply begins like these lines.
COUNT = re.compile(rb"(?:[A-Za-z](?:_[A-Za-z0-9]{1,6})?|[-+&^\\/|!]) \d+$")
WIDEST_SHOWN = 100


def lines_of(script: bytes) -> list[bytes]:
    """A script's lines, as the program reads them."""
    return [without_return(line) for line in script.split(b"\n")]


def without_return(line: bytes) -> bytes:
    return line[:-1] if line.endswith(b"\r") else line


def is_command(line: bytes) -> bool:
    """Whether a line has a reply, or is `quit`."""
    return len(line) > LONGEST_LINE or not line.startswith(b";") and line.strip(b" \t") != b""


def commands_of(script: bytes) -> Iterator[tuple[int, bytes]]:
    """The lines of a script that have a reply, each with its number from 1."""
    for number, whole in enumerate(script.split(b"\n"), 1):
        line = without_return(whole)
        if len(whole) > LONGEST_LINE:
            yield number, line
        elif line.strip(b" \t") == b"quit":
            return
        elif is_command(line):
            yield number, line


class Lines:
    """The lines that a program writes, as `next_line` gives them, of which the next one can be looked at before it is taken."""

    def __init__(self, next_line: Callable[[], bytes]) -> None:
        self.next_line = next_line
        self.ahead: bytes | None = None

    def peek(self) -> bytes:
        if self.ahead is None:
            self.ahead = self.next_line()
        return self.ahead

    def next(self) -> bytes:
        line = self.peek()
        self.ahead = None
        return line


def reply_from(lines: Lines) -> Iterator[bytes]:
    """The lines of the next reply. The end of a growth is told by the line after it alone: who waits for a reply asks something more."""
    first = lines.next()
    yield first
    if first.startswith(b"segments "):
        for _ in range(int(first.split()[1])):
            yield lines.next()
    if first.startswith(b"growth "):
        while COUNT.match(lines.peek()):
            yield lines.next()
    for words, last in LAST_LINES:
        if first.startswith(words):
            line = first
            while line and not line.startswith(last):
                line = lines.next()
                yield line


def column_of(reply: bytes) -> int | None:
    """The column that a refusal names, or None."""
    found = AT_COLUMN.match(reply.rstrip(b"\n"))
    return int(found.group(1)) if found else None


def as_shown(line: bytes) -> str:
    """A line with a sign for each byte, so that a column of bytes is one of signs."""
    return "".join(chr(byte) if 32 <= byte < 127 else " " if byte == 9 else "?" for byte in line)


def part_around(text: str, place: int) -> tuple[int, str]:
    """The begin of what is shown of a text, which is cut around a place where it is long, and that part, dots where it was cut."""
    begin = max(0, min(place - WIDEST_SHOWN // 2, len(text) - WIDEST_SHOWN)) if len(text) > WIDEST_SHOWN else 0
    front, rest = ".. " if begin else "", " .." if begin + WIDEST_SHOWN < len(text) else ""
    return begin - len(front), front + text[begin:begin + WIDEST_SHOWN] + rest


def caret_below(line: bytes, column: int | None) -> list[str]:
    """A line, and a second one with a caret under its column where there is one."""
    begin, shown = part_around(as_shown(line), (column or 1) - 1)
    return [shown] + ([" " * (column - 1 - begin) + "^"] if column else [])


def caret_inside(line: bytes, column: int | None) -> list[str]:
    """A line with a caret before its column where there is one, for letters that aren't all of one width."""
    begin, shown = part_around(as_shown(line), (column or 1) - 1)
    place = column - 1 - begin if column else len(shown)
    return [shown[:place] + "\N{CARET}" * bool(column) + shown[place:]]


def refusal(number: int, line: bytes, reply: bytes, with_caret: Caret = caret_below, meaning: str = "") -> str:
    """What is told of a refusal: the number of its line, the reply and what it means, the line and a caret at the column."""
    told = ["line %d: %s" % (number, as_shown(reply.rstrip(b"\n"))) + (": " + meaning if meaning else "")]
    return "\n".join(told + ["    " + text for text in with_caret(line, column_of(reply))])
