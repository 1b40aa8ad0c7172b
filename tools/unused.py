"""Says which lines of crates.txt name a library for whose changes the crate is proved anew without need.

usage: tools/unused

A library is used where a file of the crate's src/, specs/ or proofs/ names it. One that isn't, but on which a used one stands, may be
named: it is read with that one, and its changes reach the crate in any case. A line names each library once, and crates that are there.
The headings and crates of crates.txt are also those of the table of docs/DESIGN.md, in the same order.
"""

from __future__ import annotations

import os
import re
import sys
from collections.abc import Iterable, Iterator, Mapping

from programs import TOP


def lines() -> Iterator[tuple[int, str, list[str]]]:
    """Each line's number, crate and libraries."""
    with open(os.path.join(TOP, "crates.txt")) as file:
        for number, line in enumerate(file, 1):
            name, colon, below = line.partition("#")[0].partition(":")
            if colon:
                yield number, name.split()[0], below.split()


def words_of(crate: str) -> set[str]:
    """All names in a crate's own files, comments left out."""
    words: set[str] = set()
    for part, comment in (("src", "//"), ("specs", "-- "), ("proofs", "-- ")):
        for folder, _, files in os.walk(os.path.join(TOP, "crates", crate, part)):
            for file in files:
                with open(os.path.join(folder, file), encoding="utf-8") as text:
                    words.update(word for line in text for word in re.findall(r"\w+", line.partition(comment)[0]))
    return words


def stood_on(needs: Mapping[str, list[str]], names: Iterable[str]) -> set[str]:
    """These libraries and all that they stand on."""
    found, rest = set(), list(names)
    while rest:
        name = rest.pop()
        if name not in found:
            found.add(name)
            rest += needs.get(name, [])
    return found


def findings() -> Iterator[str]:
    """What is wrong, in a line each."""
    needs = {crate: below for _, crate, below in lines()}
    for number, crate, below in lines():
        words = words_of(crate)
        if not words:
            yield "crates.txt:%d: there is no crate %s" % (number, crate)
            continue
        reached = stood_on(needs, words.intersection(below))
        for name in sorted(set(below)):
            if below.count(name) > 1:
                yield "crates.txt:%d: %s names %s %d times" % (number, crate, name, below.count(name))
            if name not in reached:
                yield "crates.txt:%d: %s doesn't use %s, nor does what it uses" % (number, crate, name)


def headings_and_crates() -> list[str]:
    """What crates.txt lists in order, after its first line: headings, and names of crates."""
    with open(os.path.join(TOP, "crates.txt")) as file:
        texts = [line.strip() for line in file][1:]
    return [text[1:].strip().lower() if text.startswith("#") else text.partition(":")[0].split()[0] for text in texts if text]


def headings_and_rows() -> list[str]:
    """The same of the table of docs/DESIGN.md."""
    with open(os.path.join(TOP, "docs", "DESIGN.md"), encoding="utf-8") as file:
        tables = re.findall(r"^\| Crate \|.*\n\|.*\n((?:\|.*\n)+)", file.read(), re.M)
    return [re.sub(r"[*`]", "", line.split("|")[1]).strip().lower() for line in tables[0].splitlines()]


def disorder() -> Iterator[str]:
    """Where the two orders part."""
    listed, rows = headings_and_crates(), headings_and_rows()
    for place, pair in enumerate(zip(listed + ["the end"], rows + ["the end"])):
        if pair[0] != pair[1]:
            yield "crates.txt has %s where the table of docs/DESIGN.md has %s (entry %d)" % (pair + (place + 1,))
            return


def main() -> int:
    if sys.argv[1:]:
        print(__doc__)
        return 0 if set(sys.argv[1:]) & {"-h", "--help"} else 2
    found = list(findings()) + list(disorder())
    for line in found:
        print(line)
    return 1 if found else 0
