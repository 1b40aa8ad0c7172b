"""Pages of docs/ of which tools write parts: tables that stand between two marks. What stands outside of the marks stays."""

from __future__ import annotations

import os
import re
from collections.abc import Sequence

from programs import TOP
from telling import give_up


def mark(part: str, tool: str) -> str:
    return "<!-- %s: written by %s -->" % (part, tool)


END = "<!-- end -->"


def with_part(text: str, part: str, tool: str, new: str) -> str | None:
    """A page's text with a new part in place of the one between its marks; None where it has no such marks."""
    found = re.search(re.escape(mark(part, tool)) + r"\n.*?" + re.escape(END), text, re.S)
    if not found:
        return None
    return text[:found.start()] + "%s\n\n%s\n\n%s" % (mark(part, tool), new.strip("\n"), END) + text[found.end():]


def put_part(page: str, part: str, tool: str, new: str) -> None:
    """Writes a part of a page of docs/ anew."""
    path = os.path.join(TOP, "docs", page)
    with open(path, encoding="utf-8") as file:
        text = with_part(file.read(), part, tool, new)
    if text is None:
        give_up("docs/%s has no place for %s: it is told by the mark %s" % (page, part, mark(part, tool)))
    with open(path, "w", encoding="utf-8") as file:
        file.write(text)


def table(head: Sequence[str], rows: Sequence[Sequence[object]]) -> str:
    """The lines of a table, as text."""
    lines = [head, ["---"] * len(head), *rows]
    return "\n".join("| " + " | ".join(str(cell) for cell in line) + " |" for line in lines)
