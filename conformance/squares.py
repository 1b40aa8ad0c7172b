"""Rows of `conformance/curves` on cost: no derivation costs the square of a line, its nesting, its depth, its branches or its rules, and none
takes more memory than is promised. Of a row on steps two scripts are run, the second twice as large; what counts is the machine instructions,
by callgrind, for each of what it has: symbols of its levels, steps past a branch, rules."""

from __future__ import annotations

import os
import re
import shutil
import subprocess
from collections.abc import Callable
from typing import NamedTuple

# What one of the larger script may cost, in what it costs in the smaller one. A square would have 2, or nearly.
MOST_GROWTH = 1.2
# What a derivation may cost that was let go and is made again, in what it cost at first.
MOST_AGAIN = 1.3
# The most resident megabytes at the limits of both versions, and how many modules the axiom has then.
MOST_RESIDENT = [(180, 790, 200_000), (900, 3_900, 1_000_000)]


class Script(NamedTuple):
    """The lines of a script, those whose cost counts, and how many symbols, steps or rules these have."""
    lines: list[bytes]
    last: list[bytes]
    many: int


class Row(NamedTuple):
    """What a row is about, its scripts by their size, the smaller size, of what it counts instructions, and how many there may be."""
    name: str
    script: Callable[[int], Script]
    size: int
    unit: str = "symbol"
    most: int = 5_000


def nested(size: int) -> Script:
    """An axiom that is nested so deep, on nine levels."""
    return Script([b"production a: A => A", b"depth 8"], [b"axiom " + b"[" * size + b"A" + b"]" * size], 9 * (2 * size + 1))


def nesting(size: int) -> Script:
    """A rule that puts its module into a branch, step by step."""
    return Script([b"version 2", b"axiom A", b"production a: A => [A]"], [b"depth %d" % size], (size + 1) ** 2)


def deep_row(size: int) -> Script:
    """A row of modules that stay, under so many levels."""
    return Script([b"version 2", b"axiom " + b"A" * 100, b"production a: A => A"], [b"depth %d" % size], 100 * (size + 1))


def contexts(size: int) -> Script:
    """Right contexts of which each goes past what is nested after its module."""
    return Script([b"production a: A > B => A", b"depth 8"], [b"axiom " + b"A[" * size + b"]B" * size], 9 * 4 * size)


def branches(size: int) -> Script:
    """A row of branches, of which each looks left past all others on three levels."""
    return Script([b"axiom " + b"[A]" * size, b"production a: B < A => A"], [b"depth 3"], 3 * size * (size - 1) // 2)


def rules(size: int) -> Script:
    """Rules that are put one by one after a derivation of some of their letters."""
    letters = b"ABCDEFGHIJKLMNOPQRSTUVWXYZabcdefghijklmnopqrstuvwxyz"
    formals = [b"x", b"x,y", b"x,y,z", b"x,y,z,u", b"x,y,z,u,v"]

    def rule(number: int) -> bytes:
        letter, rest = letters[number % 52:number % 52 + 1], formals[number // 52]
        return b"production r%d: %s(%s) => %s(%s)" % (number, letter, rest, letter, rest)
    return Script([b"axiom " + b"".join(b"%c(1)" % letter for letter in letters[:20]), b"depth 5"], [rule(number) for number in range(size)], size)


ROWS = [
    Row("brackets nested in brackets", nested, 150),
    Row("a rule that nests", nesting, 60),
    Row("a row under many levels", deep_row, 60),
    Row("contexts past nested branches", contexts, 150),
    Row("contexts past a row of branches", branches, 150, "step past a branch", 320),
    Row("rules put one by one", rules, 125, "rule", 300_000),
]


def instructions(program: str, lines: list[bytes]) -> int:
    """The instructions of a run over these lines."""
    ran = subprocess.run(["valgrind", "--tool=callgrind", "--callgrind-out-file=/dev/null", program, "--limit=1000000"],
                         input=b"\n".join(lines) + b"\n", stdout=subprocess.DEVNULL, stderr=subprocess.PIPE)
    return int(re.findall(rb"Collected : (\d+)", ran.stderr)[0])


def for_each(program: str, script: Script) -> int:
    """What the last lines of a script cost for each of what they have."""
    return (instructions(program, script.lines + script.last) - instructions(program, script.lines)) // script.many


def fails_row(program: str, row: Row) -> bool:
    """Whether a row fails; it is told."""
    small, large = (for_each(program, row.script(size)) for size in (row.size, 2 * row.size))
    fails = large > MOST_GROWTH * small or max(small, large) > row.most
    print("%-31s %s: %d instructions a %s at %d, %d at %d"
          % (row.name, "DIFFERS" if fails else "agrees", small, row.unit, row.size, large, 2 * row.size))
    return fails


def fails_again(program: str) -> bool:
    """Whether to let a derivation go and to make it again costs too much; it is told."""
    system = [b"axiom AAAAAAAAAA", b"production a: A => AB", b"production b: B => BA"]
    ways: list[list[bytes]] = [[], [b"depth 10"], [b"depth 10", b"depth 0", b"depth 10"]]
    none, first, again = (instructions(program, system + lines) for lines in ways)
    ratio = (again - first) / (first - none)
    print("%-31s %s: %.2f times what it cost at first" % ("let go and made again", "DIFFERS" if ratio > MOST_AGAIN else "agrees", ratio))
    return ratio > MOST_AGAIN


def ten_read(axiom: int) -> bytes:
    """A derivation to the limit whose matches read ten symbols with a parameter each."""
    return b"\n".join([b"version 2", b"production z: Z(x) => " + b"A(x)" * 10,
                       b"production a: A(a)A(b)A(c)A(d)A(e) < A(x) > A(f)A(g)A(h)A(i)A(j) => A(x)",
                       b"axiom " + b"Z(1)" * axiom, b"depth 25", b""])


def fails_bytes(program: str, most: int, axiom: int, limit: int) -> bool:
    """Whether a derivation to the limit has more resident megabytes than it may; it is told."""
    read, write = os.pipe()
    ran = subprocess.Popen([program, "--limit=%d" % limit], stdin=read, stdout=subprocess.DEVNULL)
    os.close(read)
    with os.fdopen(write, "wb") as script:
        script.write(ten_read(axiom))
    _, status, usage = os.wait4(ran.pid, 0)
    ran.returncode = os.waitstatus_to_exitcode(status)
    resident = usage.ru_maxrss / 1000
    fails = resident >= most or ran.returncode != 0
    print("%-31s %s: %.1f resident MB, below %d" % ("memory at %d symbols" % limit, "DIFFERS" if fails else "agrees", resident, most))
    return fails


def squares(program: str) -> int:
    """How many rows fail; each is told."""
    failed = sum(fails_bytes(program, *bound) for bound in MOST_RESIDENT)
    if not shutil.which("valgrind"):
        print("what steps, nesting and depth cost isn't counted: there is no valgrind in PATH")
        return failed
    return failed + sum(fails_row(program, row) for row in ROWS) + fails_again(program)
