"""Random scripts: most lines are commands that a small system accepts, some are broken, and some stand at an edge of the limits."""

from __future__ import annotations

import random
from collections.abc import Callable, Iterator, Sequence

Tokens = Callable[[], list[str]]
LETTERS = ["A", "B", "C", "F", "G", "X", "f", "a", "F_a", "F_b", "f_1", "B_z9", "F_abcdef", "A_00"]
MARKS = ["+", "-", "&", "^", "\\", "/", "|", "!"]
FORMALS = ["x", "y", "z", "n", "A", "F", "x_1", "k_abcdef", "u", "v", "w", "i", "j", "m", "p", "q"]
LABELS = ["p", "q", "r", "s", "P", "label_1", "axiom", "abcdefghijklmn_6"]
HOM_LABELS = ["h", "g", "h_1"]
TABLES = ["winter", "spring", "main", "t_1"]
# The operators of two operands from the loosest on, each level with the chance that an expression goes on with one.
LEVELS = [(["| |", "||"], 0.12), (["& &", "&&"], 0.14), (["==", "!=", "<", "<=", ">", ">="], 0.15), (["+", "-"], 0.35), (["*", "/", "%"], 0.25)]
COMPARISONS = 2
LARGE = [62, 63, 64, 1000, 1001, 2**31, 2**32, 10**9, 10**9 + 1, 3037000499, 3037000500, 2**62, 2**63 - 2, 2**63 - 1]
LEAST = ["(", "0", "-", str(2**63 - 1), "-", "1", ")"]
BYTES = list("_$.;:,()[]<>=!+-*/\\%&|^@ 019axAF\t\r") + ["\x00", "\x7f", "\x80", "\xc3", "\xff"]
JUNK = ["axiom F_aF_b", "axiom A()", "axiom A(9223372036854775808)", "axiom A(-9223372036854775809)", "axiom A(18446744073709551616)", "axiom [A",
        "axiom A]", "axiom [%]%", "depth", "depth -1", "depth 65", "depth 18446744073709551616", "production", "production p", "production p:",
        "production p: A", "production p: A = > B", "production p: !=>A", "production p: AB => C", "production main p: A => B",
        "production p: A < B < C => D", "production p: A > B > C => D", "production p: A < > B => C", "production p: A > [B => C",
        "production p: A : 1 : 1 => B", "production p: A @ 1 @ 1 => B", "production p: A @ 1 : 1 => B", "production p: % => B",
        "production p: [A] => B",
        "production p: A(x,x) => B", "production p: A(x) => B(y)", "production p: A(x) : 1<x<3 => B", "production a b c: A => B",
        "hom h: A < B => C", "hom h: A @ 1 => C", "hom h: A => B%", "hom main h: A => B", "hom h: A(x) => F(x%2)", "hom h", "hom h:",
        "undo x", "redo 1", "undo undo", "undo;", "Undo", "growth", "growth x", "growth 1 2", "growth -1", "growth 18446744073709551616",
        "bounds 1", "bounds x", "bounds bounds", "bounds;", "Bounds", "at", "at x", "at 1 2", "at -1", "at at", "at 18446744073709551616",
        "string 65", "string -1", "string string", "segments 1", "svg 2", "show all", "lattice", "lattice triangular", "lattice square cubic",
        "seed", "seed -1", "seed 18446744073709551616", "seed 18446744073709551615", "ignore [", "ignore A(1)", "ignore %", "schedule",
        "version", "version 0", "version 3", "version 1", "version 18446744073709551615", "version 2 2", "ignoring", "ignoring main",
        "ignoring main A",
        "ignoring main: A(1)", "ignoring main winter: A", "consider main: %", "consider :", "consider summer: A", "common", "common main main",
        "common main:",
        "common summer", "lineage", "lineage name", "lineage names places", "lineage: names", "depth 256", "depth 257", "schedule main,main",
        "schedule 1", "drop", "drop p q", "axioms A", "Axiom A", "quit now", "\xff", "_", "1", ": =>", " ; note"]


def sum_of(tokens: int) -> str:
    """An expression of so many tokens."""
    return "-" * (1 - tokens % 2) + "+".join(["1"] * ((tokens + 1) // 2))


class Writer:
    """Writes the lines of one script. Its few names have each a number of parameters that they mostly keep to."""

    def __init__(self, rng: random.Random) -> None:
        self.rng = rng
        self.names = rng.sample(LETTERS, rng.choice([2, 2, 3, 3, 4])) + rng.sample(MARKS, rng.choice([0, 1, 2, 3]))
        self.arity = {name: rng.choice([0, 0, 0, 1, 1, 2, 3]) for name in self.names}
        self.blanks = rng.choice([0, 0.02, 0.3])
        self.branches = rng.choice([0, 0.1, 0.2])
        self.contexts = rng.choice([0, 0.2, 0.6])
        self.cuts = rng.choice([0, 0, 0.05])
        self.tables = rng.choice([["main"], ["main"], TABLES])
        # The groups whose rules have weights: by table, name and number of formals, as they were met first.
        self.weighted: dict[tuple[str, str, int], bool] = {}
        self.weights = rng.choice([0, 0, 0.3, 0.8])
        self.places = {label: rng.choice(self.tables) for label in LABELS}

    def often(self, chance: float) -> bool:
        return self.rng.random() < chance

    def number(self) -> str:
        if self.often(0.03):
            return str(self.rng.choice(LARGE))
        return ("00" if self.often(0.04) else "") + str(self.rng.choice([0, 1, 1, 2, 2, 3, 4, 5, 7, 10, 100]))

    def signed(self) -> list[str]:
        if self.often(0.01):
            return ["-", str(2**63)]
        return (["-"] if self.often(0.25) else []) + [self.number()]

    # Each of the following gives a list of tokens.

    def expression(self, formals: list[str], level: int = 0, room: int = 3) -> list[str]:
        """A sentence of the grammar of expressions, built level by level; room bounds how deep it goes."""
        if level < len(LEVELS):
            tokens = self.expression(formals, level + 1, room)
            operators, chance = LEVELS[level]
            for _ in range(1 if level == COMPARISONS else 2):
                if room > 0 and self.often(chance):
                    tokens = tokens + self.rng.choice(operators).split() + self.expression(formals, level + 1, room - 1)
            return tokens
        if room > 0 and self.often(0.12):
            return [self.rng.choice("-!")] + self.expression(formals, level, room - 1)
        if room > 0 and self.often(0.12):
            tokens = ["("] + self.expression(formals, 0, room - 1) + [")"]
        elif self.often(0.03):
            tokens = LEAST
        else:
            tokens = [self.rng.choice(formals) if formals and self.often(0.65) else self.number()]
        if room > 0 and self.often(0.08):
            tokens = tokens + ["^"] + self.expression(formals, level, room - 1)
        return tokens

    def condition(self, formals: list[str]) -> list[str]:
        if formals and self.often(0.6):
            tokens = [self.rng.choice(formals)]
            for _ in range(1 if self.often(0.98) else 2):
                tokens += [self.rng.choice(LEVELS[COMPARISONS][0]), self.number()]
            return tokens
        return self.expression(formals)

    def parameter(self, formals: list[str]) -> list[str]:
        if not formals or self.often(0.3):
            return self.expression(formals)
        formal = self.rng.choice(formals)
        return self.rng.choice([[formal], [formal], [formal, "-", "1"], [formal, "-", "1"], [formal, "+", "1"], [formal, "*", "2"],
                                [formal, "*", formal],
                                ["6", "/", formal], ["7", "%", formal], ["2", "^", formal], [formal, "+", self.rng.choice(formals)]])

    def name_and_count(self) -> tuple[str, int]:
        name = self.rng.choice(self.names)
        return name, self.arity[name] if self.often(0.95) else self.rng.randrange(4)

    def module(self, parameter: Tokens) -> list[str]:
        name, count = self.name_and_count()
        return [name] + self.parenthesized([parameter() for _ in range(count)])

    def symbols(self, part: Tokens, lengths: Sequence[int], cuts: float = 0.0) -> list[str]:
        """A balanced list: parts, branches and cuts."""
        tokens, opened = [], 0
        for _ in range(self.rng.choice(lengths)):
            if self.often(self.branches):
                tokens.append("[")
                opened += 1
            tokens += ["%"] if self.often(cuts) else part()
            if opened and self.often(0.4):
                tokens.append("]")
                opened -= 1
        return tokens + ["]"] * opened

    def string(self, parameter: Tokens, lengths: Sequence[int], cuts: float = 0.0) -> list[str]:
        return self.symbols(lambda: self.module(parameter), lengths, cuts)

    @staticmethod
    def parenthesized(parts: list[list[str]]) -> list[str]:
        tokens: list[str] = []
        for part in parts:
            tokens += ["," if tokens else "("] + part
        return tokens + [")"] if parts else []

    def pattern(self, taken: list[str]) -> list[str]:
        """A pattern, whose formals are added to those that are taken."""
        name, count = self.name_and_count()
        free = [formal for formal in FORMALS if formal not in taken]
        formals = self.rng.sample(free, count) if len(free) >= count else []
        if formals and taken and self.often(0.01):
            formals[-1] = taken[0]
        taken += formals
        return [name] + self.parenthesized([[formal] for formal in formals])

    def patterns(self, taken: list[str], lengths: Sequence[int]) -> list[str]:
        return [token for _ in range(self.rng.choice(lengths)) for token in self.pattern(taken)]

    def right_context(self, taken: list[str]) -> list[str]:
        tokens = self.symbols(lambda: self.pattern(taken), [1, 1, 1, 2, 2, 3])
        return ["["] + tokens + ["]"] if self.often(self.branches) else tokens

    def weight(self, table: str, pattern: list[str], formals: list[str]) -> list[str]:
        """The weight of a rule, where the rules of its group have one."""
        group = table, pattern[0], pattern.count(",") + (len(pattern) > 1)
        if self.weighted.setdefault(group, self.often(self.weights)) == self.often(0.97):
            return ["@"] + (self.parameter(formals) if formals and self.often(0.3) else [self.rng.choice(["0", "1", "1", "2", "3", "33"])])
        return []

    def rule(self, table: str = "main") -> list[str]:
        formals: list[str] = []
        left = self.patterns(formals, [1, 1, 1, 2, 3]) + ["<"] if self.often(self.contexts) else []
        pattern = self.pattern(formals)
        right = [">"] + self.right_context(formals) if self.often(self.contexts) else []
        known = formals if self.often(0.98) else formals + ["unknown"]
        condition = [":"] + self.condition(known) if self.often(0.4 if formals else 0.1) else []
        weight = self.weight(table, pattern, known)
        return left + pattern + right + condition + weight + ["=>"] + self.string(lambda: self.parameter(known), [0, 1, 1, 2, 2, 2, 3, 3, 10],
                                                                                  self.cuts)

    # Each of the following gives a line.

    def text(self, head: str, tokens: list[str]) -> str:
        """The tokens after a head, with blanks where two would be read as one, and some more."""
        text, last = head, " "
        for token in tokens:
            joined = (last in list("!<>=") and token[0] in "=>") or ("_" in last and token[0].isalnum())
            text += (" " if joined and self.often(0.99) else "") + (self.rng.choice([" ", "  ", "\t"]) if self.often(self.blanks) else "") + token
            last = token
        return text

    def axiom(self) -> str:
        return self.text("axiom ", self.string(self.signed, [0, 1, 2, 2, 3, 3, 4, 6, 9], self.cuts))

    def production(self) -> str:
        label = self.rng.choice(LABELS[:5] if self.often(0.9) else LABELS)
        table = self.places[label] if self.often(0.97) else self.rng.choice(TABLES)
        word = "" if table == "main" and self.often(0.7) else table + " "
        return self.text("production %s%s: " % (word, label), self.rule(table))

    def hom(self) -> str:
        formals: list[str] = []
        pattern = self.pattern(formals)
        condition = [":"] + self.condition(formals) if self.often(0.3) else []
        letters = self.rng.choice([["F"], ["F", "+"], ["F", "-", "f"], ["[", "+", "F", "]"], ["F", "(", "2", ")", "|"],
                                   ["!", "(", "3", ")", "F", "&", "F", "\\"]])
        successor = letters if self.often(0.5) else self.string(lambda: self.parameter(formals), [0, 1, 1, 2, 3])
        label = self.rng.choice(HOM_LABELS if self.often(0.97) else LABELS)
        return self.text("hom %s: " % label, pattern + condition + ["=>"] + successor)

    def drop(self) -> str:
        return "drop " + self.rng.choice(LABELS[:4] + HOM_LABELS)

    def ignore(self) -> str:
        return self.text("ignore", self.rng.choices(self.names + MARKS[:2], k=self.rng.choice([0, 1, 2, 2, 3])))

    def own(self) -> str:
        return self.text("%s %s:" % (self.rng.choice(["ignoring", "consider"]), self.rng.choice(self.tables if self.often(0.9) else TABLES)),
                         self.rng.choices(self.names + MARKS[:2], k=self.rng.choice([0, 1, 2, 3])))

    def common(self) -> str:
        return "common " + self.rng.choice(self.tables)

    def lineage(self) -> str:
        return self.rng.choice(["lineage names", "lineage names", "lineage places"])

    def version(self) -> str:
        return "version " + self.rng.choice(["2", "2", "2", "1"])

    def schedule(self) -> str:
        return "schedule " + " ".join(self.rng.choices(self.tables if self.often(0.95) else TABLES, k=self.rng.choice([1, 2, 2, 3])))

    def seed(self) -> str:
        return "seed %d" % self.rng.choice([0, 1, 2, 3, self.rng.randrange(2**64), 2**64 - 1])

    def lattice(self) -> str:
        return "lattice " + self.rng.choice(["square", "hexagonal", "cubic"])

    def depth(self) -> str:
        return "depth %d" % self.rng.choice([0, 1, 1, 2, 2, 3, 3, 4, 5, 6, 8, 12] if self.often(0.93) else [16, 20, 40, 64, 65])

    def level(self) -> str:
        return "string %d" % self.rng.choice([0, 0, 1, 1, 2, 3, 4, 6])

    def growth(self) -> str:
        return "growth %d" % self.rng.choice([0, 1, 2, 3, 5, 8, 40, 100, 1000, 2**64 - 1])

    def at(self) -> str:
        return "at %d" % self.rng.choice([0, 1, 1, 2, 2, 3, 4, 5, 6, 8, 10, 13, 20, 40, 100, 1000, 10**6, 10**6 + 1, 2**32, 2**64 - 1])

    def broken(self) -> str:
        """A line with one byte more, less or other, or without its end."""
        line = self.rng.choice([self.axiom, self.production, self.production, self.hom, self.ignore, self.schedule, self.depth, self.level,
                                self.at])()
        place = self.rng.randrange(len(line))
        byte = self.rng.choice(BYTES)
        return self.rng.choice([line[:place] + byte + line[place:], line[:place] + line[place + 1:], line[:place] + byte + line[place + 1:],
                                line[:place]])

    def edge(self) -> str:
        """A line just inside or just outside a limit."""
        more = self.rng.randrange(2)
        opener, closer = self.rng.choice([("(", ")"), ("-", ""), ("!", ""), ("1^", "")])
        full = "B(%s)" % ",".join([sum_of(15)] * 8)
        return self.rng.choice([
            "production p: A(x) => A(%sx%s)" % (opener * (32 + more), closer * (32 + more)),
            "production p: A(x) : %s => A(x-1)" % sum_of(256 + more),
            "production p: A(x) => %sC(%s)" % (full * 15, sum_of(90 + more)),
            "production p: %s => %s" % (self.names[0], "+" * (128 + more)),
            "production p: %s < A => B" % ("+" * (8 + more)),
            "production p: A > %s => B" % ("+" * (16 + more)),
            "production p: A > %s => B" % ("[" * 8 + "+" * more + "]" * 8),
            "hom h: A => %s" % ("[F]" * 42 + "F" * (2 + more)),
            "axiom " + self.names[0].split("_")[0] * (4096 + more),
            "axiom A(%s)" % ",".join(["1"] * (8 + more)),
            "production p: A(%s) => B" % ",".join("abcdefghi"[:8 + more]),
            "production p: A(x) => B(%s)" % ",".join(["x"] * (8 + more)),
            "production %s: A => B" % ("abcdefghijklmnopq"[:16 + more]),
            "ignore " + "+" * (64 + more),
            "consider main: " + "+" * (64 + more),
            "schedule" + " main" * (64 + more),
            "axiom F(%d)" % (10**9 + more),
            ";" + "x" * (65535 + more)])

    KINDS = {"axiom": 12, "production": 30, "hom": 6, "drop": 2, "ignore": 4, "own": 3, "common": 1, "lineage": 2, "version": 1, "schedule": 3,
             "seed": 3, "lattice": 4, "depth": 10, "string": 14, "level": 6,
             "segments": 6, "svg": 4, "show": 3, "undo": 5, "redo": 3, "bounds": 3, "at": 5, "growth": 3, "broken": 8, "junk": 3, "edge": 1,
             "passed": 2, "quit": 0.5}

    def line(self) -> str:
        kind = self.rng.choices(list(self.KINDS), list(self.KINDS.values()))[0]
        if kind == "junk":
            return self.rng.choice(JUNK)
        if kind == "passed":
            return self.rng.choice(["", " ", "\t \t", ";", "; note", ";axiom B\xff"])
        return kind if kind in ("string", "segments", "svg", "show", "bounds", "undo", "redo", "quit") else getattr(self, kind)()

    def lines(self) -> Iterator[str]:
        if self.often(0.005):
            yield from ("production r%d: %s => %s" % (number, self.names[number % 2], self.names[0])
                        for number in range(self.rng.choice([255, 256, 257])))
        if self.often(0.6):
            yield "version 2"
        if self.often(0.4):
            yield "lineage names"
        yield self.axiom()
        if self.often(0.5):
            yield self.lattice()
        for _ in range(self.rng.randrange(1, 5)):
            yield self.production()
        if self.often(0.4):
            yield self.hom()
        yield self.depth()
        yield self.rng.choice(["string", "string", "segments", "svg"])
        for _ in range(self.rng.randrange(16)):
            yield self.line()


def script(seed: int, number: int) -> bytes:
    """The script of this number; those of a seed are always the same."""
    rng = random.Random("%d/%d" % (seed, number))
    lines = list(Writer(rng).lines())
    end = rng.choice(["\n", "\n", "\n", "\r\n"])
    return (end.join(lines) + rng.choice(["", end])).encode("latin-1")
