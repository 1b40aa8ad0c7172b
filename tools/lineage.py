"""Which module drew a segment, where it comes from and what becomes of it, as the program itself tells it.

No reply names the rule that rewrote a module. But a copy of a step's table whose rules put one mark each, in the place of what they put, is
asked for the same modules in the same order: the string after that step has the rule of each of them. So a second program is given such
copies, and the homomorphism as one more table. What each rule puts is read from `show`, and each level that follows is compared with the
program's own string; where one differs, or where there is no room for the copies, that is said and nothing is guessed.
"""

from __future__ import annotations

import re
from collections.abc import Sequence
from typing import Any

from session import Ended, Program

NAME = r"[A-Za-z](?:_[A-Za-z0-9]{1,6})?|[-+&^\\/|!]|[\[\]%]"
SYMBOL = re.compile(r"(" + NAME + r")(\([^()]*\))? ?")
RULE = re.compile(r"(production (\w+)|hom) (\w+): (.*?) =>(.*)$")
# A schedule has so many words, and one is wanted for each level and one for the marks.
MOST_WORDS = 64
MOST_LIMIT = 1000000
# So many of a module's children and ancestors are told.
MOST_TOLD = 100


class Untold(Exception):
    """What can't be told, in words for a person."""


class Rule:
    """A rule as `show` has it: its table, or None for one of the homomorphism, its label, what stands before the arrow, and the names that it
    puts."""

    def __init__(self, found: re.Match[str], line: str) -> None:
        self.table, self.label, self.front, self.line = found.group(2), found.group(3), found.group(4), line
        self.names = [name for name, _ in symbols(found.group(5).strip())]


def symbols(text: str) -> list[tuple[str, str]]:
    """The symbols of a string, each its name and its parameters in parentheses, which may be expressions."""
    found, place = [], 0
    name = re.compile(NAME)
    while place < len(text):
        match = name.match(text, place)
        if not match:
            place += 1
            continue
        place = end = match.end()
        if text[place:place + 1] == "(":
            depth = 0
            for end in range(place, len(text)):
                depth += {"(": 1, ")": -1}.get(text[end], 0)
                if depth == 0:
                    break
            end += 1
        found.append((match.group(), text[place:end]))
        place = end
    return found


def kept(names: list[str]) -> list[int]:
    """The places of the symbols that no cut takes away: a cut takes itself and what follows, up to the `]` that ends its branch."""
    places, depth, cut = [], 0, None
    for place, name in enumerate(names):
        depth += name == "["
        if name == "]" and cut == depth:
            cut = None
        if cut is None and name == "%":
            cut = depth
        if cut is None:
            places.append(place)
        depth -= name == "]"
    return places


class Level:
    """The symbols of a level: `names`, `values`, `parents` (places in the level before) and `numbers` (which child of its parent each is),
    and, once they are known, `rules` and `shown`: the rule that rewrites each, and the one by which it is drawn."""

    def __init__(self, text: str, parents: list[int | None], numbers: list[int | str], names: list[str]) -> None:
        found = SYMBOL.findall(text)
        self.names, self.values = [name for name, _ in found], [value for _, value in found]
        if self.names != names:
            raise Untold("the rules that `show` tells don't give this level, so nothing is told of it")
        self.parents, self.numbers, self.is_drawn = parents, numbers, False
        self.rules: list[int | None] = []
        self.drawn: list[int | None] = []
        self.begins: list[int] = []

    def text(self, place: int) -> str:
        return self.names[place] + self.values[place]


class Lineage:
    """All that is known of the levels of one system, worked out as far as it is asked for."""

    def __init__(self, words: Sequence[str], shown: Sequence[str]) -> None:
        self.shown = [line for line in shown if not line.startswith("depth ")]
        self.program = Program([words[0], "--limit", str(MOST_LIMIT)])
        self.rules: list[Rule] = []
        self.lists: dict[str, str] = {}
        self.schedule, self.axiom, self.by_names = ["main"], "", False
        for line in self.shown:
            self.read(line)
        self.mark = self.free("Z_%d")
        self.levels: list[Level] = []
        self.send(self.shown)
        self.put_copies()

    def read(self, line: str) -> None:
        found, word = RULE.match(line), line.partition(" ")[0]
        own = re.match(r"(ignoring|consider) (\w+):", line)
        if found:
            self.rules.append(Rule(found, line))
        elif own:
            self.lists[own.group(2)] = line
        elif word == "schedule":
            self.schedule = line.split()[1:]
        elif word == "axiom":
            self.axiom = line[len("axiom"):].strip()
        elif word == "lineage":
            self.by_names = line == "lineage names"

    def free(self, form: str) -> str:
        """A name of this form that stands nowhere in the system."""
        text = "\n".join(self.shown)
        return next(form % number for number in range(1000) if form % number not in text)

    def send(self, lines: Sequence[str]) -> None:
        for line in lines:
            reply = self.ask(line)
            if not reply.startswith("ok "):
                raise Untold("the program answers `%s` to `%s`, so the lineage can't be told" % (reply, line[:60]))

    def ask(self, line: str) -> str:
        try:
            return self.program.ask(line.encode("latin-1")).rstrip("\n")
        except Ended:
            raise Untold("the program that was asked for the lineage has ended") from None

    def put_copies(self) -> None:
        """A copy of each table, and one of the homomorphism, whose rules put their number."""
        stem, label = self.free("mark%d"), self.free("r%dm")
        self.copies: dict[str | None, str] = {}
        for number, rule in enumerate(self.rules):
            copy = self.copies.setdefault(rule.table, "%st%d" % (stem, len(self.copies)))
            self.send(["production %s %sx%d: %s => %s(%d)" % (copy, label, number, rule.front, self.mark, number)])
        for table, line in self.lists.items():
            if table in self.copies:
                self.send([line.replace(" %s:" % table, " %s:" % self.copies[table], 1)])

    def marks(self, level: int, table: str | None) -> list[int | None]:
        """The number of the rule of this table for each symbol of a level, or None where none is taken."""
        if table not in self.copies:
            return [None] * len(self.levels[level].names)
        words = [self.schedule[step % len(self.schedule)] for step in range(level)] + [self.copies[table]]
        if len(words) > MOST_WORDS:
            raise Untold("past level %d no schedule is long enough to ask for the rules" % (MOST_WORDS - 1))
        self.send(["depth %d" % level, "schedule " + " ".join(words), "depth %d" % (level + 1)])
        found = SYMBOL.findall(self.ask("string %d" % (level + 1)))
        return [int(value[1:-1]) if name == self.mark else None for name, value in found]

    def begin(self) -> None:
        """Level 0, which is what no cut takes from the axiom."""
        names = [name for name, _ in symbols(self.axiom)]
        places, numbers = kept(names), self.numbers(names)
        self.levels.append(Level(self.ask("string 0"), [None] * len(places), [numbers[place] for place in places],
                                 [names[place] for place in places]))

    def numbers(self, names: list[str]) -> list[int | str]:
        """Which child each of these is: its place, or its name and how many of its name stand before it."""
        if not self.by_names:
            return list(range(len(names)))
        seen: dict[str, int] = {}
        told: list[int | str] = []
        for name in names:
            told.append("%s%d" % (name, seen.get(name, 0)))
            seen[name] = seen.get(name, 0) + 1
        return told

    def level(self, number: int) -> Level:
        """A level, with those before it and their rules."""
        if not self.levels:
            self.begin()
        while len(self.levels) <= number:
            self.step()
        return self.levels[number]

    def step(self) -> None:
        """The level after the last one that is known."""
        last, number = self.levels[-1], len(self.levels) - 1
        last.rules = self.marks(number, self.schedule[number % len(self.schedule)])
        names, parents, numbers = [], [], []
        put = [(rule.names, self.numbers(rule.names)) for rule in self.rules]
        for place, (name, rule) in enumerate(zip(last.names, last.rules)):
            children, told = put[rule] if rule is not None else ([name], self.numbers([name]))
            names += children
            numbers += told
            parents += [place] * len(children)
        places = kept(names)
        self.send(["depth %d" % number, "schedule " + " ".join(self.schedule), "depth %d" % (number + 1)])
        text = self.ask("string %d" % (number + 1))
        self.levels.append(Level(text, [parents[place] for place in places], [numbers[place] for place in places],
                                 [names[place] for place in places]))

    def drawn(self, number: int) -> Level:
        """The level with the first segment of each of its symbols, and after the last one how many there are."""
        level = self.level(number)
        if not level.is_drawn:
            level.drawn, level.begins, level.is_drawn, count = self.marks(number, None), [], True, 0
            draws = [sum(name.startswith("F") for name in rule.names) for rule in self.rules]
            for name, rule in zip(level.names, level.drawn):
                level.begins.append(count)
                count += draws[rule] if rule is not None else name.startswith("F")
            level.begins.append(count)
        return level

    def close(self) -> None:
        self.program.close()

    def module_of(self, number: int, segment: int, count: int, depth: int) -> dict[str, Any]:
        """What is told of the module of level `number` that drew a segment of that level's picture, which has `count`."""
        level = self.drawn(number)
        if level.begins[-1] != count:
            raise Untold("the modules would draw %d lines and the picture has %d, so it can't be told which one drew this"
                         % (level.begins[-1], count))
        low, high = 0, len(level.names)
        while high - low > 1:
            middle = (low + high) // 2
            low, high = (middle, high) if level.begins[middle] <= segment else (low, middle)
        # The last symbol that begins here draws the segment; those before it with the same begin draw nothing.
        return self.told(number, low, depth)

    def told(self, number: int, place: int, depth: int) -> dict[str, Any]:
        level = self.levels[number]
        shown = level.drawn[place]
        told = {"level": number, "module": level.text(place), "number": sum(name not in "[]" for name in level.names[:place + 1]),
                "image": self.rules[shown].label if shown is not None else "", "segments": [level.begins[place], level.begins[place + 1]],
                "ancestors": self.ancestors(number, place), "came": self.came(number, place), "children": None, "child_segments": None}
        if number < depth:
            told.update(self.children(number, place))
        return told

    def came(self, number: int, place: int) -> str:
        """The rule that put a module, as a line of the script, or nothing where it is of the axiom or no rule was taken."""
        if number == 0:
            return ""
        parent = self.levels[number].parents[place]
        rule = self.levels[number - 1].rules[parent] if parent is not None else None
        return self.rules[rule].line if rule is not None else ""

    def ancestors(self, number: int, place: int | None) -> list[list[Any]]:
        """The way from the axiom's symbol down to a module: of each level the module, which child it is, and the label of the rule that put it."""
        way = []
        while place is not None:
            level = self.levels[number]
            came = RULE.match(self.came(number, place))
            way.append([level.text(place), level.numbers[place], came.group(3) if came else ""])
            number, place = number - 1, level.parents[place]
        return way[::-1][-MOST_TOLD:]

    def children(self, number: int, place: int) -> dict[str, Any]:
        """The modules of the next level that this one becomes, with the segments that they draw there."""
        following = self.drawn(number + 1)
        rule = self.levels[number].rules[place]
        of_it = [child for child, parent in enumerate(following.parents) if parent == place]
        segments = [following.begins[of_it[0]], following.begins[of_it[-1] + 1]] if of_it else [0, 0]
        texts = [following.text(child) for child in of_it[:MOST_TOLD]] + [".."] * (len(of_it) > MOST_TOLD)
        return {"children": texts, "child_segments": segments, "by": self.rules[rule].label if rule is not None else ""}
