"""Counts what the program costs: machine instructions by callgrind, and memory.

usage: conformance/costs [PART ..] [--program PATH] [--sizes 1000,10000,100000] [--write]

The parts are derive, aims, edits, anew, pictures, motions, lines and memory; without one all are measured. The program is bin/lsys by default, and
can't be one with the address sanitizer, with which callgrind does not go. Each figure of instructions is the difference between two runs
that differ by one line, so what every run costs is taken off. With --write each table is put into docs/COSTS.md too, in place of the one
of its part. It is no part of the gate, and takes some minutes.
"""

from __future__ import annotations

import os
import re
import shutil
import subprocess
import tempfile
from collections.abc import Callable, Iterator, Sequence
from typing import NamedTuple

from anew import ratios
from pages import put_part
from programs import PROVED, TOP, checked
from telling import Words, give_up

# A change in words, how the system is made ready for it, and the line of an axiom that changes it.
Change = tuple[str, Callable[[list[bytes], bytes], list[bytes]], Callable[[bytes], bytes]]
LEVELS = 25  # a depth of 24: a derivation of 100,000 symbols then has an axiom of 4,000, near the most that are allowed

# What a level is made of, again and again, and the productions. No level is longer than the one before.
SYSTEMS = [
    ("no contexts", b"AB", [b"production a: A => B", b"production b: B => A"]),
    ("a parameter and a condition", b"A(1)B(1)", [b"production a: A(x) : x < 9 => B(x)", b"production b: B(x) => A(x)"]),
    ("weights", b"AB", [b"production a: A @ 1 => B", b"production c: A @ 1 => A", b"production b: B => A"]),
    ("a left context", b"AB", [b"production a: B < A => A", b"production b: A < B => B"]),
    ("a right context over branches", b"A[B]C", [b"production a: A > [B]C => A", b"production b: B => B", b"production c: C > A => C"]),
]


def symbols_of(unit: bytes) -> int:
    return len(re.findall(rb"[A-Z]|[\[\]]", unit))


def lines_of(unit: bytes, productions: list[bytes], size: int) -> tuple[list[bytes], int]:
    """The lines that make the axiom and the rules of a system of about so many symbols, and its exact number of symbols."""
    units = size // LEVELS // symbols_of(unit)
    return [b"axiom " + unit * units] + productions, units * symbols_of(unit) * LEVELS


class Costs:
    """Counts by one program, and the lines of the table that is being told."""

    def __init__(self, program: str) -> None:
        self.program = program
        self.told: list[str] = []

    def tell(self, line: str) -> None:
        print(line, flush=True)
        self.told.append(line)

    def row(self, *cells: str | int) -> None:
        self.tell("| " + " | ".join("{:,}".format(cell) if isinstance(cell, int) else cell for cell in cells) + " |")

    def head(self, title: str, *cells: str | int) -> None:
        by = "the proved program" if os.path.realpath(self.program) in PROVED else "an unproved build"
        self.told = []
        self.tell("%s By %s." % (title, by))
        self.tell("")
        self.row(*cells)
        self.row(*["---"] * len(cells))

    def instructions(self, lines: list[bytes], words: Sequence[str] = ()) -> int:
        """The instructions of a run over these lines."""
        ran = subprocess.run(["valgrind", "--tool=callgrind", "--callgrind-out-file=/dev/null", self.program] + list(words),
                             input=b"\n".join(lines) + b"\n", stdout=subprocess.DEVNULL, stderr=subprocess.PIPE)
        return int(re.findall(rb"Collected : (\d+)", ran.stderr)[0])

    def more(self, lines: list[bytes], last: list[bytes], words: Sequence[str] = ()) -> int:
        """The instructions that the last lines cost."""
        return self.instructions(lines + last, words) - self.instructions(lines, words)

    def peak_heap(self, lines: list[bytes], words: Sequence[str]) -> int:
        """The most bytes that the heap held, with what the allocator adds, by massif."""
        with tempfile.TemporaryDirectory() as folder:
            kept = os.path.join(folder, "massif")
            subprocess.run(["valgrind", "--tool=massif", "--massif-out-file=" + kept, self.program] + list(words),
                           input=b"\n".join(lines) + b"\n", stdout=subprocess.DEVNULL, stderr=subprocess.DEVNULL)
            with open(kept) as file:
                snapshots = re.findall(r"mem_heap_B=(\d+)\nmem_heap_extra_B=(\d+)", file.read())
            return max(int(held) + int(extra) for held, extra in snapshots)

    def resident(self, lines: list[bytes], words: Sequence[str]) -> tuple[int, float]:
        """The most bytes that the run had resident, and its seconds of processor time."""
        with tempfile.TemporaryFile() as script:
            script.write(b"\n".join(lines) + b"\n")
            script.seek(0)
            run = subprocess.Popen([self.program] + list(words), stdin=script, stdout=subprocess.DEVNULL)
            _, _, used = os.wait4(run.pid, 0)
        return used.ru_maxrss * 1024, used.ru_utime + used.ru_stime


def derive(costs: Costs, sizes: list[int]) -> None:
    costs.head("Instructions for each symbol of a first derivation.", "system", *["{:,} symbols".format(size) for size in sizes])
    for name, unit, productions in SYSTEMS:
        figures = []
        for size in sizes:
            lines, symbols = lines_of(unit, productions, size)
            figures.append(costs.more(lines, [b"depth %d" % (LEVELS - 1)]) // symbols)
        costs.row(name, *figures)


# Systems whose levels grow, the lines that make them, the last one, that derives them, and the symbols of all their levels.
GROWN = [
    ("algae", [b"axiom B", b"production a: A => AB", b"production b: B => A"], b"depth 20", 28656),
    ("a Koch curve", [b"axiom F", b"production f: F => F+F-F-F+F"], b"depth 5", 7806),
    ("a Koch island", [b"axiom F-F-F-F", b"production f: F => F-F+F+FF-F-F+F"], b"depth 4", 34771),
    ("a plant", [b"axiom X", b"production x: X => F-[[X]+X]+F[+FX]-X", b"production f: F => FF"], b"depth 6", 33460),
]
AIMED = 20000  # symbols, of the systems whose levels don't grow

# What a plain deriver takes that keeps no answers, in Rust, in instructions a symbol of the same derivations; and the aim, in what it takes.
PLAIN = {
    "no contexts": (856, 1.5),
    "a parameter and a condition": (1033, 2.0),
    "weights": (1221, 2.0),
    "a left context": (959, 2.0),
    "a right context over branches": (719, 2.0),
    "algae": (601, 1.5),
    "a Koch curve": (246, 1.5),
    "a Koch island": (186, 1.5),
    "a plant": (233, 1.5),
}


class Derived(NamedTuple):
    """What a first derivation took, in instructions a symbol, beside a plain deriver."""
    name: str
    cost: int
    plain: int
    aim: float

    @property
    def times(self) -> float:
        return self.cost / self.plain

    @property
    def missed_by(self) -> float:
        return self.times / self.aim


def derived(costs: Costs) -> Iterator[Derived]:
    """A first derivation of each system that has an aim."""
    for name, unit, productions in SYSTEMS:
        lines, symbols = lines_of(unit, productions, AIMED)
        yield Derived(name, costs.more(lines, [b"depth %d" % (LEVELS - 1)]) // symbols, *PLAIN[name])
    for name, lines, last, symbols in GROWN:
        yield Derived(name, costs.more(lines, [last]) // symbols, *PLAIN[name])


def aims(costs: Costs, sizes: list[int]) -> None:
    costs.head("Instructions for each symbol of a first derivation, beside a plain deriver that keeps no answers; what misses its aim by most first.",
               "system", "instructions", "plain deriver", "times", "aim")
    for one in sorted(derived(costs), key=lambda one: -one.missed_by):
        costs.row(one.name, one.cost, one.plain, "%.2f" % one.times, "%.1f" % one.aim)


def changes_of(unit: bytes, productions: list[bytes]) -> list[Change]:
    """What is changed of a system: in words, how the system is made ready for it, and the line of an axiom that changes it."""
    return [
        ("the same production again", as_it_is, lambda axiom: productions[-1]),
        ("the same axiom again", as_it_is, lambda axiom: axiom),
        ("another symbol in the axiom's middle", as_it_is, other_in_the_middle),
        ("one symbol more at the axiom's front", as_it_is, lambda axiom: axiom[:6] + first_of(unit) + axiom[6:]),
        ("the production of a letter that stands once", with_a_letter_once,
         lambda axiom: b"production z: " + rule_of(b"Z", unit, b"A")),
        ("a production that has no module", as_it_is, lambda axiom: b"production z: Z => Z"),
    ]


def edits(costs: Costs, sizes: list[int]) -> None:
    costs.head("Instructions for each symbol of the derivation, of an edit: of the first one after the derivation, which lists who read what, and "
               "of others after it.", "system", "edit", *["{:,} symbols".format(size) for size in sizes])
    for name, unit, productions in SYSTEMS:
        changes = changes_of(unit, productions)
        for number, (change, prepared, last) in enumerate([first_of_all(changes[0])] + changes):
            before = productions[-1:] if number else []
            figures = []
            for size in sizes:
                lines, symbols = lines_of(unit, productions, size)
                derived = prepared(lines, unit) + [b"depth %d" % (LEVELS - 1)] + before
                figures.append(costs.more(derived, [last(lines[0])]) // symbols)
            costs.row(name, change, *figures)


def first_of_all(change: Change) -> Change:
    """A change, told as the first edit after a derivation."""
    told, prepared, last = change
    return told + ", as the first edit", prepared, last


def beside_anew(costs: Costs, sizes: list[int]) -> None:
    costs.head("Instructions of an edit, of its undo and of its redo, in those of a first derivation of the system that stands then; the dearest "
               "edits first. Beside them the undo in instructions of the edit.", "system", "edit", "edit", "undo", "redo", "undo beside edit")
    tried = list(ratios(costs.program))
    edits = [tried[at:at + 3] for at in range(0, len(tried), 3)]
    for three in sorted(edits, key=lambda three: -three[0].of_anew):
        costs.row(three[0].system, three[0].kind, *["%.2f" % one.of_anew for one in three], "%.2f" % (three[1].cost / three[0].cost))


def as_it_is(lines: list[bytes], unit: bytes) -> list[bytes]:
    return lines


def with_a_letter_once(lines: list[bytes], unit: bytes) -> list[bytes]:
    """The same with Z in the place of the A that is next after the axiom's middle, and with a production of Z."""
    return [other_in_the_middle(lines[0], b"Z")] + lines[1:] + [b"production z: " + rule_of(b"Z", unit, b"Z")]


def rule_of(letter: bytes, unit: bytes, other: bytes) -> bytes:
    """The rule by which a letter becomes another, with as many parameters as the first module of a unit."""
    formals = b"(x)" if b"(" in first_of(unit) else b""
    return letter + formals + b" => " + other + formals


def first_of(unit: bytes) -> bytes:
    """The first module of a unit."""
    return re.findall(rb"^[A-Z](?:\([^)]*\))?", unit)[0]


def other_in_the_middle(axiom: bytes, other: bytes = b"C") -> bytes:
    """The axiom with the A that is next after its middle written as another letter."""
    at = axiom.index(b"A", len(axiom) // 2)
    return axiom[:at] + other + axiom[at + 1:]


def pictures(costs: Costs, sizes: list[int]) -> None:
    costs.head("Instructions for each symbol of the image: of the first picture with lines, and of one more.",
               "image", "command", "first", "one more")
    small = [b"axiom " + b"A" * 1000]
    large = [b"axiom " + b"A" * 1000, b"production d: A => AA", b"depth 3"]
    for symbols, times, lines in ((1000, 1, small), (1000000, 125, large)):
        for name, letter in (("segments", b"F"), ("turns", b"+")):
            with_hom = lines + [b"hom h: A => " + letter * times]
            for command in (b"segments", b"svg"):
                once = costs.more(with_hom, [command])
                twice = costs.more(with_hom, [command] * 2)
                costs.row("{:,} {}".format(symbols, name), command.decode(), once // symbols, (twice - once) // symbols)


# A picture, the number of its image's symbols, and the lines that make it.
IMAGES = [
    ("8,000 modules of 125 symbols, from 1,000 in the axiom", 1000000,
     [b"axiom " + b"A" * 1000, b"production d: A => AA", b"hom h: A => " + b"F" * 125, b"depth 3"]),
    ("22 levels without a homomorphism", 28657, [b"axiom F", b"production a: F => FB", b"production b: B => F", b"depth 21"]),
    ("4,000 modules in the axiom", 4000, [b"axiom " + b"F" * 4000]),
]
PLACES = 16


def motions(costs: Costs, sizes: list[int]) -> None:
    costs.head("Instructions of a picture's motions: `bounds` first, for each symbol of the image, and once more; `at N` on the average, and "
               "at the end.", "image", "first `bounds`", "one more", "`at N`", "at the end")
    for name, symbols, lines in IMAGES:
        first = costs.more(lines, [b"bounds"])
        kept = lines + [b"bounds"]
        places = [b"at %d" % (symbols * (2 * n + 1) // (2 * PLACES)) for n in range(PLACES)]
        costs.row("{}, {:,} symbols".format(name, symbols), first // symbols, costs.more(kept, [b"bounds"]), costs.more(kept, places) // PLACES,
                  costs.more(kept, [b"at %d" % symbols]))


def lines(costs: Costs, sizes: list[int]) -> None:
    costs.head("Instructions of lines, at depth 0.", "line", "for each byte", "for each line")
    kinds = [
        ("a comment of 60,000 bytes", b";" + b"x" * 59999, 20),
        ("a comment of 40 bytes", b";" + b"x" * 39, 2000),
        ("an empty line", b"", 2000),
        ("a line of 70,000 bytes, which is too long", b";" + b"x" * 69999, 20),
        ("seed 7", b"seed 7", 500),
        ("a production of 60 bytes", b"production p: A(x) < B(y) : x + y * 2 > 3 => A(x-1)[B(y)]C ", 500),
        ("an axiom of 4,096 letters", b"axiom " + b"A" * 4096, 20),
        ("an axiom of 4,096 modules with a parameter", b"axiom " + b"A(12)" * 4096, 20),
        ("a line that is refused at its first token", b"nothing", 500),
        ("string, of 4,096 letters", b"string", 20),
    ]
    before = [b"axiom " + b"A" * 4096]
    for name, line, times in kinds:
        each = costs.more(before, [line] * times) / times
        costs.row(name, "%.1f" % (each / (len(line) + 1)), int(each))
    many = [b"production %s: %s(x) : x < %d => %s(x+1)" % (("p%d" % n).encode(), letter, n, letter)
            for n, letter in enumerate([bytes([65 + n % 26]) for n in range(255)])]
    costs.row("seed 7, where 255 rules stand", "", costs.more(many, [b"seed 7"] * 50) // 50)


def memory(costs: Costs, sizes: list[int]) -> None:
    costs.head("Memory at about 200,000 symbols, with --limit 200000: megabytes of heap by massif, resident megabytes, seconds.",
               "system", "lines", "heap", "resident", "seconds")
    words = ["--limit", "200000"]
    ten = (b"A(1)", [b"production p: A(a)A(b)A(c)A(d)A(e) < A(x) > A(f)A(g)A(h)A(i)A(j) => A(x)"])
    systems = [("ten symbols read, one parameter each",) + ten] + [(name, unit, productions) for name, unit, productions in SYSTEMS]
    for name, unit, productions in systems:
        units = 4080 // symbols_of(unit)
        first = [b"axiom " + unit * units] + productions + [b"depth 48"]
        another = productions[-1].replace(b" =>", b" : 1 > 0 =>")
        for what, script in (("first derivation", first), ("and one more edit, seed 1", first + [b"seed 1"]),
                             ("and another axiom", first + [first[0] + b"Z"]),
                             ("and another body of the last production", first + [another])):
            heap = costs.peak_heap(script, words)
            resident, seconds = costs.resident(script, words)
            costs.row("{}, {:,} symbols".format(name, units * symbols_of(unit) * 49), what,
                      "%.1f" % (heap / 1e6), "%.1f" % (resident / 1e6), "%.2f" % seconds)


PARTS = {"derive": derive, "aims": aims, "edits": edits, "anew": beside_anew, "pictures": pictures, "motions": motions, "lines": lines, "memory": memory}


def main() -> int:
    parser = Words(__doc__)
    parser.add_argument("parts", nargs="*", choices=[[]] + list(PARTS))
    parser.add_argument("--program", default=os.path.join(TOP, "bin", "lsys"))
    parser.add_argument("--sizes", default="1000,10000,100000")
    parser.add_argument("--write", action="store_true")
    options = parser.parse_args()
    if not shutil.which("valgrind"):
        give_up("there is no valgrind in PATH, which counts")
    costs = Costs(checked(options.program))
    for part in options.parts or PARTS:
        PARTS[part](costs, [int(size) for size in options.sizes.split(",")])
        print()
        if options.write:
            put_part("COSTS.md", part, "conformance/costs", "\n".join(costs.told))
    return 0
