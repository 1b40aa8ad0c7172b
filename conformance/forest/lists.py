#!/usr/bin/env python3
"""Compares the forest with a plain model of it, on random lists of calls.

usage: conformance/forest/run [LISTS] [--seed S] [--keep FOLDER]

The model is a table of nodes, and a copy of it from the last rest: `rollback` takes the copy back, `commit` drops what is
not reached from the root. After each call some nodes, the live runs of answers, and levels are read. The lists of a seed are
always the same. The program is `calls.rt.txt` over the crates of this checkout, built without proofs (half a minute and more).
Lists on which the two differ are kept in the folder, if one is named. It is no part of the gate.
"""

from __future__ import annotations

import argparse
import copy
import os
import random
import subprocess
import sys
import tempfile
from collections.abc import Iterator
from typing import Any

sys.dont_write_bytecode = True
sys.path.insert(0, os.path.dirname(os.path.abspath(__file__)))
from unproved import build

ROOT = 0
LETTERS = "ABCFGXa"


class Forest:
    """A plain forest: nodes by the places of their additions, the state of the last rest, and which runs are live."""

    def __init__(self) -> None:
        self.nodes: dict[int, dict[str, Any]] = {ROOT: {"parent": None, "name": None, "symbol": None, "key": None, "kids": [], "answer": None}}
        self.added = 1
        self.runs = 0
        self.live_runs: set[int] = set()
        self.rest = copy.deepcopy(self.nodes)

    def add(self, parent: int | None, name: Any, symbol: str, key: int) -> int:
        self.nodes[self.added] = {"parent": parent, "name": name, "symbol": symbol, "key": key, "kids": [], "answer": None}
        self.added += 1
        return self.added - 1

    def answer(self, node: int) -> None:
        self.nodes[node]["answer"] = self.runs
        self.live_runs.add(self.runs)
        self.runs += 1

    def settle(self, nodes: dict[int, dict[str, Any]]) -> None:
        """Takes these nodes as those of a rest. All runs are given back that no answer of theirs holds."""
        self.nodes = nodes
        self.rest = copy.deepcopy(nodes)
        self.live_runs &= {node["answer"] for node in nodes.values()}

    def rollback(self) -> None:
        self.settle(copy.deepcopy(self.rest))

    def reached(self) -> set[int]:
        found, left = set(), [ROOT]
        while left:
            node = left.pop()
            found.add(node)
            left += self.nodes[node]["kids"]
        return found

    def commit(self) -> None:
        reached = self.reached()
        self.settle({name: node for name, node in self.nodes.items() if name in reached})

    def levels(self) -> Iterator[tuple[list[int], dict[int, int]]]:
        """The complete levels, and the first that is empty."""
        level = self.nodes[ROOT]["kids"]
        while True:
            mates, opened = {}, []
            for at, name in enumerate(level):
                symbol = self.nodes[name]["symbol"]
                if symbol == "[":
                    opened.append(at)
                elif symbol == "]":
                    if not opened:
                        return
                    mates[at] = opened.pop()
                    mates[mates[at]] = at
            if opened:
                return
            yield level, mates
            if not level:
                return
            level = [kid for name in level for kid in self.nodes[name]["kids"]]


class Lists:
    """Makes a list of calls, with what the program is to print."""

    def __init__(self, rng: random.Random) -> None:
        self.rng = rng
        self.forest = Forest()
        self.calls: list[str] = []
        self.wanted: list[str] = []
        self.by_places = rng.random() < 0.5

    def call(self, *words: object) -> None:
        self.calls.append(" ".join(str(word) for word in words))

    def symbol(self) -> str:
        letter = self.rng.choice(LETTERS)
        return letter + "".join(",%d" % self.rng.choice([0, 1, -1, 7, 2**63 - 1, -(2**63)]) for _ in range(self.rng.choice([0, 0, 0, 1, 2, 8])))

    def row(self, size: int) -> list[str]:
        """Balanced symbols."""
        if size < 2 or self.rng.random() < 0.6:
            return [self.symbol()] * min(size, 1) + (self.row(size - 1) if size > 1 else [])
        inside = self.rng.randrange(size - 1)
        return ["["] + self.row(inside) + ["]"] + self.row(size - 2 - inside)

    def some_node(self, root: bool = True) -> Any:
        """A live node, or None; more often one that is reached."""
        names = list(self.forest.reached()) if self.rng.random() < 0.7 else list(self.forest.nodes)
        names = sorted(name for name in names if root or name != ROOT)
        return self.rng.choice(names) if names else None

    def new_name(self, parent: int | None, symbol: str) -> tuple[int, int]:
        """The name of a node to come under this parent: its place, or a code of its symbol and how many have that code."""
        names = [node["name"] for node in self.forest.nodes.values() if node["parent"] == parent]
        code = 0 if self.by_places else self.rng.choice([1, 2, ord(symbol[0]), 2**64 - 1])
        return code, max([count for other, count in names if other == code], default=-1) + self.rng.choice([1, 1, 1, 2, 50])

    def new_node(self, parent: int | None, symbol: str) -> int:
        key = self.rng.choice([0, 1, 2**64 - 1, self.rng.randrange(1000)])
        name = self.new_name(parent, symbol)
        self.call("add", parent, *name, symbol, key)
        return self.forest.add(parent, name, symbol, key)

    def set_kids(self, node: int, kids: list[int]) -> None:
        self.call("kids", node, *kids)
        self.forest.nodes[node]["kids"] = kids

    def family(self) -> None:
        """A node's children are all new, in the order of their additions or in another one."""
        parent = self.some_node()
        kids = [(at, symbol) for at, symbol in enumerate(self.row(self.rng.choice([0, 1, 1, 2, 3, 5, 8, 20])))]
        if self.rng.random() < 0.5:
            self.rng.shuffle(kids)
        added = [(at, self.new_node(parent, symbol)) for at, symbol in kids]
        self.set_kids(parent, [kid for _, kid in sorted(added)])

    def some_kids(self) -> None:
        """A node gets some of the nodes that were ever added under it, in any order; or its children in another one."""
        parent = self.some_node()
        if self.rng.random() < 0.3:
            kids = list(self.forest.nodes[parent]["kids"])
        else:
            under = [name for name, node in self.forest.nodes.items() if node["parent"] == parent]
            kids = [name for name in sorted(under) if self.rng.random() < 0.8]
        how = self.rng.choice(["as they are", "from the last", "shuffled", "one moved"])
        if how == "from the last":
            kids.reverse()
        elif how == "shuffled":
            self.rng.shuffle(kids)
        elif how == "one moved" and kids:
            kids.insert(self.rng.randrange(len(kids)), kids.pop(self.rng.randrange(len(kids))))
        self.set_kids(parent, kids)

    def change(self) -> None:
        kind = self.rng.choice(["family"] * 4 + ["kids"] * 3 + ["add", "symbol", "key", "answer", "answer", "no-answer"] + ["link"] * 3)
        if kind == "link":
            return self.call("link", self.rng.choice([0, 1, 1, 2, 3, 5, 2**32 - 1]))
        if kind == "family":
            return self.family()
        if kind == "kids":
            return self.some_kids()
        if kind == "add":
            self.new_node(self.some_node(), self.rng.choice(["[", "]", self.symbol(), self.symbol()]))
            return
        node = self.some_node(root=kind in ("answer", "no-answer"))
        if node is None:
            return
        if kind == "symbol":
            symbol = self.rng.choice([self.symbol(), self.symbol(), "[", "]"])
            self.call("symbol", node, symbol)
            self.forest.nodes[node]["symbol"] = symbol
        elif kind == "key":
            key = self.rng.randrange(100)
            self.call("key", node, key)
            self.forest.nodes[node]["key"] = key
        elif kind == "answer":
            self.call("answer", node)
            self.forest.answer(node)
        else:
            self.call("no-answer", node)
            self.forest.nodes[node]["answer"] = None

    def read_node(self, name: Any) -> None:
        node = self.forest.nodes[name]
        self.call("node", name)
        shown = ["-" if node["answer"] is None else node["answer"], "-" if node["name"] is None else "%d.%d" % node["name"]]
        self.wanted.append(" ".join(str(word) for word in shown + node["kids"]))

    def read(self, all_of_it: bool) -> None:
        names = sorted(self.forest.nodes)
        for name in names if all_of_it else self.rng.sample(names, min(2, len(names))):
            self.read_node(name)
        self.call("runs")
        self.wanted.append(" ".join(["runs"] + [str(run) for run in sorted(self.forest.live_runs)]))
        self.call("live")
        self.wanted.append(str(len(self.forest.nodes)))
        for number, (level, mates) in enumerate(self.forest.levels()):
            self.call("level", number)
            words = ["level"]
            for at, name in enumerate(level):
                node = self.forest.nodes[name]
                mate = str(level[mates[at]]) if at in mates else ""
                words.append("%d:%s%s:%d" % (name, node["symbol"], mate, node["key"]))
            self.wanted.append(" ".join(words + [str(name) for name in reversed(level)]))
            for at in self.rng.sample(range(len(level)), min(5, len(level))):
                self.read_spot(level, at)

    def read_spot(self, level: list[int], at: int) -> None:
        """What is below a part of a level, and how this node stands to another one."""
        below = [[kid for name in part for kid in self.forest.nodes[name]["kids"]] for part in (level[at:], level[:at + 1])]
        self.call("below", level[at])
        self.wanted.append(" %s %s" % (below[0][0] if below[0] else "-", below[1][-1] if below[1] else "-"))
        other = self.rng.randrange(len(level))
        self.call("before", level[at], level[other])
        self.wanted.append("true" if at < other else "false")

    def make(self) -> None:
        for _ in range(self.rng.choice([3, 6, 10])):
            for _ in range(self.rng.choice([0, 1, 3, 8, 20])):
                self.change()
                if self.rng.random() < 0.3:
                    self.read(False)
            end = self.rng.choice(["rollback", "commit", "commit"])
            self.read(False)
            self.call(end)
            self.forest.rollback() if end == "rollback" else self.forest.commit()
            self.read(True)


def main() -> int:
    parser = argparse.ArgumentParser(usage=__doc__)
    parser.add_argument("lists", nargs="?", type=int, default=200)
    parser.add_argument("--seed", type=int, default=1)
    parser.add_argument("--keep")
    asked = parser.parse_args()
    differing, calls = 0, 0
    with tempfile.TemporaryDirectory() as folder:
        program = build("calls", folder)
        for number in range(asked.lists):
            made = Lists(random.Random("%d %d" % (asked.seed, number)))
            made.make()
            calls += len(made.calls)
            ran = subprocess.run([program], input="\n".join(made.calls) + "\n", capture_output=True, text=True, timeout=60)
            if ran.returncode or ran.stdout.split("\n")[:-1] != made.wanted:
                differing += 1
                print("list %d of seed %d differs (status %d)" % (number, asked.seed, ran.returncode))
                if asked.keep:
                    for name, lines in (("calls", made.calls), ("wanted", made.wanted), ("got", ran.stdout.split("\n")[:-1])):
                        with open(os.path.join(asked.keep, "%d.%s" % (number, name)), "w") as file:
                            file.write("\n".join(lines) + "\n")
    print("%d lists of %d calls in all: %d differ" % (asked.lists, calls, differing))
    return 1 if differing else 0
