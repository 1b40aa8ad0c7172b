"""What an edit costs beside deriving anew the system that it leaves: instructions by callgrind of the edit, of its undo and of its redo, in
what a first derivation costs of the system that stands then. A row of `conformance/curves` bounds them; `conformance/costs anew` writes the
table."""

from __future__ import annotations

import shutil
import subprocess
from collections.abc import Iterator
from typing import NamedTuple

from squares import instructions

# What an edit may cost, in what it costs to derive anew what it leaves.
MOST_OF_ANEW = 1.2
LARGE = "more is let go than is left, or several times as much: letting go a node costs a third to a half of making one, or more"
ALL = "each node has another number, so all are made anew beside those that are let go"
OTHER = "old nodes get other symbols or other children, which are matched with those that they had: to make one costs less"
FIRST = ALL + "; and as the first edit after a derivation it lists who read what, which that left out"
KEYS = "each node gets another key and is asked again, and what it becomes is matched with what it was: to make one costs less"


class Dear(NamedTuple):
    """What an edit may cost that is dearer than the others, and why it is."""
    most: float
    why: str


# Edits that may cost more, by system and kind. Where a first derivation gets cheaper, a bound is set so that it allows no more instructions than before.
DEARER = {
    ("koch", "the production of all lines"): Dear(5.0, LARGE),
    ("koch", "depth down by one"): Dear(3.9, LARGE),
    ("koch", "axiom: a symbol in front, by places"): Dear(1.65, ALL),
    ("plant", "the production of the buds"): Dear(3.4, LARGE),
    ("plant", "depth down by one"): Dear(1.6, LARGE),
    ("plant", "axiom: a symbol in front, by places"): Dear(2.1, ALL),
    ("row by names", "lineage by places"): Dear(1.85, ALL),
    ("row", "lineage by names"): Dear(1.8, ALL),
    ("row", "axiom: a symbol in front, by places"): Dear(1.5, ALL),
    ("left context", "axiom: a symbol in front, by places"): Dear(1.8, FIRST),
    ("row", "axiom: all others"): Dear(1.45, OTHER),
    ("row", "a production of half of all symbols"): Dear(1.5, OTHER),
    ("parameters and weights", "axiom: a module in front, by places"): Dear(1.3, ALL),
    ("parameters and weights", "a production of all of a letter"): Dear(1.4, OTHER),
    ("parameters and weights", "seed, with weights"): Dear(1.4, KEYS),
}

LIMIT = b"--limit=1000000"


class System(NamedTuple):
    """A system by its lines, the last of which derives it."""
    name: str
    lines: list[bytes]


class Edit(NamedTuple):
    """A kind of edit, and its line."""
    kind: str
    line: bytes


ROW = b"AB" * 200
KOCH = b"F-F-F-F"
PLANT = b"X"
LEFT = b"ABC" * 130
WEIGHTED = b"A(1)B(2)" * 200

SYSTEMS = [
    (System("row", [b"version 2", b"axiom " + ROW, b"production a: A => A", b"production b: B => B", b"depth 24"]),
     [Edit("a production of half of all symbols", b"production a: A => B"),
      Edit("the same where it adds symbols", b"production a: A @ 1 => A"),
      Edit("a production that asks nothing new", b"production z: Z => Z"),
      Edit("axiom: a symbol in front, by places", b"axiom A" + ROW),
      Edit("axiom: one in the middle", b"axiom " + b"AB" * 100 + b"A" + b"AB" * 100),
      Edit("axiom: all others", b"axiom " + b"BA" * 200),
      Edit("another table", b"production t: A => B"),
      Edit("schedule", b"schedule main main"),
      Edit("seed, no weights", b"seed 5"),
      Edit("ignore", b"ignore A"),
      Edit("depth down by one", b"depth 23"),
      Edit("depth up by one", b"depth 25"),
      Edit("lineage by names", b"lineage names")]),
    (System("row by names", [b"version 2", b"lineage names", b"axiom " + ROW, b"production a: A => A", b"production b: B => B", b"depth 24"]),
     [Edit("axiom: a symbol in front that stands there too", b"axiom A" + ROW),
      Edit("axiom: a symbol in front that stands nowhere else", b"axiom C" + ROW),
      Edit("lineage by places", b"lineage places")]),
    (System("koch", [b"axiom " + KOCH, b"production f: F => F-F+F+FF-F-F+F", b"depth 4"]),
     [Edit("the production of all lines", b"production f: F => F-F+F+F-F"),
      Edit("a production of the turns", b"production m: - => +"),
      Edit("axiom: a symbol in front, by places", b"axiom F" + KOCH),
      Edit("depth down by one", b"depth 3"),
      Edit("seed, no weights", b"seed 5")]),
    (System("plant", [b"axiom " + PLANT, b"production x: X => F-[[X]+X]+F[+FX]-X", b"production f: F => FF", b"depth 6"]),
     [Edit("the production of the buds", b"production x: X => F[+X]F[-X]+X"),
      Edit("the production of the stems", b"production f: F => F"),
      Edit("axiom: a symbol in front, by places", b"axiom F" + PLANT),
      Edit("depth down by one", b"depth 5")]),
    (System("left context", [b"version 2", b"axiom " + LEFT, b"production a: C < A => A", b"production b: A < B => B", b"depth 24"]),
     [Edit("a production of a third of all symbols", b"production a: B < A => A"),
      Edit("a production without its context", b"production a: A => A"),
      Edit("axiom: a symbol in front, by places", b"axiom A" + LEFT),
      Edit("axiom: one in the middle", b"axiom " + b"ABC" * 65 + b"B" + b"ABC" * 65),
      Edit("ignore", b"ignore B"),
      Edit("an own list", b"ignoring main: B")]),
    (System("parameters and weights", [b"version 2", b"axiom " + WEIGHTED, b"production a: A(x) @ 1 => A(x)", b"production c: A(x) @ 2 => B(x)",
                                       b"production b: B(x) : x < 9 => A(x)", b"depth 24"]),
     [Edit("a production of all of a letter", b"production b: B(x) : x < 9 => B(x)"),
      Edit("axiom: a module in front, by places", b"axiom A(1)" + WEIGHTED),
      Edit("seed, with weights", b"seed 5"),
      Edit("depth up by one", b"depth 25")]),
]


class Ratio(NamedTuple):
    """What was done with an edit, and its instructions in those of a first derivation of what stands then."""
    system: str
    kind: str
    done: str
    cost: int
    anew: int

    @property
    def of_anew(self) -> float:
        return self.cost / self.anew

    @property
    def may(self) -> bool:
        dear = DEARER.get((self.system, self.kind))
        return self.of_anew <= (dear.most if dear else MOST_OF_ANEW)


def shown(program: str, lines: list[bytes]) -> list[bytes]:
    """The lines of the system that a script leaves, its depth last."""
    ran = subprocess.run([program, LIMIT], input=b"\n".join(lines + [b"show"]) + b"\n", stdout=subprocess.PIPE)
    told = ran.stdout.split(b"\n")
    first = max(n for n, line in enumerate(told) if line.startswith(b"ok ")) + 1
    return [line for line in told[first:] if line]


def anew(program: str, lines: list[bytes]) -> int:
    """The instructions of a first derivation of the system that a script leaves."""
    *system, depth = shown(program, lines)
    return instructions(program, system + [depth]) - instructions(program, system)


def ratios(program: str) -> Iterator[Ratio]:
    """Each edit, its undo and its redo."""
    for system, edits in SYSTEMS:
        first = anew(program, system.lines)
        before = instructions(program, system.lines)
        for edit in edits:
            after = anew(program, system.lines + [edit.line])
            costs = [before]
            for count in range(1, 4):
                costs.append(instructions(program, system.lines + [edit.line, b"undo", b"redo"][:count]))
            for done, stands, cost in zip(("edit", "undo", "redo"), (after, first, after),
                                          (later - earlier for earlier, later in zip(costs, costs[1:]))):
                yield Ratio(system.name, edit.kind, done, cost, stands)


def dear_edits(program: str) -> int:
    """How many edits cost more than they may; those are told, and how many were tried."""
    if not shutil.which("valgrind"):
        print("what edits cost beside deriving anew isn't counted: there is no valgrind in PATH")
        return 0
    tried = list(ratios(program))
    dear = [ratio for ratio in tried if not ratio.may]
    for ratio in dear:
        print("%s, %s, %s: DIFFERS: %.2f times what it costs to derive anew" % (ratio.system, ratio.kind, ratio.done, ratio.of_anew))
    print("%d edits, undos and redos beside deriving anew: %d cost more than they may" % (len(tried), len(dear)))
    return len(dear)
