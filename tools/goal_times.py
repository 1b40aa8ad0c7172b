"""Tells the goals of a crate for which the prover should be given a written answer, since its own search comes late to one.

usage: tools/goal_times CRATE [--test] [--slow S] [--gain S] [--write]

At a goal without an answer the prover tries `search rules` to its limit, then `grind` with two sets of lemmas, and others. So a goal that
only a later one proves costs all those before it, again in the ground of the crate's edits and in each edit of its function; and an edit
that breaks a goal without an answer costs each of them, and what the prover then works out to say. This tool checks the crate over the
libraries that `rt ci` left (as tools/proof_times does), takes the functions whose search takes S seconds (1, or what --slow says), and
tries each of their goals by `search rules`, `grind (arith, common_steps)` and `grind (arith, elements)`, each in a module of its own. It
lists the goals at which one of these saves S seconds (0.35, or what --gain says), with the answer. It takes two to three times as long
as the crate's own check. --test takes the crate's tests too. --write writes the answers after those that are there: check the crate
then, and its edits, since an edit that renames a goal may be refused only for an answer's name, which says nothing of it.
"""

from __future__ import annotations

import os
import re
import shutil
import subprocess
import tempfile
import time
from collections.abc import Iterator, Mapping

from checking import checked, folder_of, modules, seconds
from telling import Words, give_up

# A function's path, a goal and a tactic.
Answer = tuple[str, str, str]
TACTICS = ("search rules", "grind (arith, common_steps)", "grind (arith, elements)")
SETS = "use Rattle.std.proofs.lemmas.Grind.{common_steps, elements}\n"
MARK = "use Rattle.std.proofs.Common.{ℕ}\npub mark : ℕ → ℕ\nmark n = n\n"


def copied(crate: str, to: str) -> str:
    """A copy of a crate's folder without what was made there."""
    shutil.copytree(folder_of(crate), to, ignore=shutil.ignore_patterns("out"))
    return to


def kept(seed: str, to: str) -> str:
    """A copy of what a check left, by links."""
    subprocess.run(["cp", "-al", seed, to], check=True)
    return to


def offered(told: str) -> dict[str, list[str]]:
    """The lines that the prover offers for each function's file of answers, by the function's path."""
    lines: dict[str, list[str]] = {}
    path = None
    for line in told.split("\n"):
        found = re.match(r"help: (?:write|add these lines to) \./proofs/(\S+)/Answers\.antt", line)
        if found:
            path = found[1]
            lines[path] = []
        elif path and (line.startswith("    ") or not line.strip()):
            lines[path].append(line[4:])
        else:
            path = None
    return lines


def all_goals(crate: str, seed: str, room: str, tests: bool) -> dict[str, list[str]]:
    """What the prover offers for each function where it tries no tactic."""
    copy = copied(crate, os.path.join(room, "none"))
    for at, _, names in os.walk(os.path.join(copy, "src")):
        for name in names:
            path = os.path.join(at, name)
            with open(path) as file:
                text = file.read()
            with open(path, "w") as file:
                file.write(re.sub(r"tactic\(auto[^\]]*\]", "tactic(none)]", text))
    return offered(checked(crate, kept(seed, os.path.join(room, "none-kept")), tests, at=copy)[1])


class Trial:
    """Modules that try the goals of functions, each by each tactic, with a mark after each."""

    def __init__(self, copy: str) -> None:
        self.copy = copy
        self.tries: list[tuple[str, str, str, str]] = []
        self.goals: dict[tuple[str, str], tuple[str, str]] = {}

    def add(self, path: str, lines: list[str]) -> None:
        """Adds the goals of a function."""
        head = "".join(line + "\n" for line in lines if line.startswith("use "))
        need = SETS if "arith" in re.findall(r"[^\s{},]+", head) else "use Rattle.std.proofs.Common.{arith}\n" + SETS
        goals = re.findall(r"^pub (\S+) :\s+(goal\.\S+)\n\S+((?: \S+)*) = \?", "\n".join(lines), re.M)
        below, names = os.path.join(self.copy, "proofs", path, "Answers"), []
        os.makedirs(below, exist_ok=True)
        for _, kind, _ in goals[:1]:
            names.append(self.write(below, "Z%dBase" % len(self.tries), head + need + "\npub base : %s → %s\nbase x = x\n" % (kind, kind)))
        for goal, kind, arguments in goals:
            self.goals[path, goal] = kind, arguments
            for tactic in TACTICS:
                name = "Z%d" % len(self.tries)
                body = head + need + "\npub answer : %s\nanswer%s = %s\n" % (kind, arguments, tactic)
                names += [self.write(below, name, body), self.write(below, name + "Mark", MARK)]
                self.tries.append((path, goal, tactic, name))
        self.open_file(below + ".antt", names, head, goals)

    def write(self, below: str, name: str, text: str) -> str:
        with open(os.path.join(below, name + ".antt"), "w") as file:
            file.write(text)
        return name

    def open_file(self, path: str, names: list[str], head: str, goals: list[tuple[str, str, str]]) -> None:
        """Declares the modules in the function's answers, with the goals open."""
        own = ""
        if os.path.exists(path):
            with open(path) as file:
                own = file.read()
        holes = "".join("\npub %s : %s\n%s%s = ?\n" % (goal, kind, goal, arguments) for goal, kind, arguments in goals)
        with open(path, "w") as file:
            file.write("".join("pub mod %s\n" % name for name in names) + (own or head) + holes)

    def run(self, crate: str, folder: str, tests: bool) -> dict[Answer, tuple[float, bool]]:
        """The seconds of each trial, and whether it proves its goal: by the function's path, the goal and the tactic."""
        begun = time.time()
        told = checked(crate, folder, tests, at=self.copy)[1]
        failed = set(re.findall(r"Answers/(Z\d+)\.antt:\d+:\d+: error", told))
        taken = {name.split(".")[-1]: time for name, time in seconds(modules(folder, begun)).items()}
        return {(path, goal, tactic): (taken.get(name, 0) or taken.get(name + "Mark", 0), name not in failed)
                for path, goal, tactic, name in self.tries}


def savings(found: Mapping[Answer, tuple[float, bool]]) -> Iterator[tuple[float, str, str, str]]:
    """What the best answer of each goal saves: seconds, the function's path, the goal and the tactic."""
    for path, goal in dict.fromkeys(key[:2] for key in found):
        now, best = 0.0, None
        for tactic in TACTICS:
            taken, proves = found[path, goal, tactic]
            now += 0 if best else taken
            if proves and (best is None or taken < best[0]):
                best = taken, tactic
        if best:
            yield now - best[0], path, goal, best[1]


def brought(text: str, module: str, words: list[str]) -> str:
    """A file of answers with what its `use` lines must bring from a module of the standard library."""
    have = set(re.findall(r"[^\s{},]+", "\n".join(line for line in text.split("\n") if line.startswith("use "))))
    lacks = [word for word in words if word not in have]
    line = "use Rattle.std.proofs.%s.{" % module
    if not lacks:
        return text
    if line in text:
        return text.replace(line, line + ", ".join(lacks) + ", ", 1)
    own = re.search(r"^use Rattle\.(?!std)", text, re.M)
    at = own.start() if own and module != "Common" else 0
    return text[:at] + line + ", ".join(lacks) + "}\n" + text[at:]


def write(crate: str, path: str, goal: str, tactic: str, kind: str, arguments: str) -> None:
    """Writes an answer after those of its function."""
    file = os.path.join(folder_of(crate), "proofs", path, "Answers.antt")
    os.makedirs(os.path.dirname(file), exist_ok=True)
    text = "use Rattle.%s.proofs.%s.Goals as goal\n" % (crate, path.replace("/", "."))
    if os.path.exists(file):
        with open(file) as opened:
            text = opened.read()
    text = brought(text, "lemmas.Grind", [word for word in ("common_steps", "elements") if word in tactic])
    text = brought(text, "Common", [word for word in ("arith", "rules") if word in tactic])
    with open(file, "w") as opened:
        opened.write("%s\n\npub %s : %s\n%s%s = %s\n" % (text.rstrip("\n"), goal, kind, goal, arguments, tactic))


def main() -> int:
    words = Words(__doc__)
    words.add_argument("crate")
    words.add_argument("--test", action="store_true")
    words.add_argument("--slow", type=float, default=1)
    words.add_argument("--gain", type=float, default=0.35)
    words.add_argument("--write", action="store_true")
    said = words.parse_args()
    with tempfile.TemporaryDirectory(prefix="goal-times-") as room:
        seed = os.path.join(room, "seed")
        status, told = checked(said.crate, seed, said.test)
        if status:
            give_up("%s is not proved: %s" % (said.crate, told.split("\n")[-1]))
        before = "Rattle-%s-proofs." % said.crate
        slow = {name[len(before):-6].replace(".", "/") for name, time in seconds(modules(seed)).items()
                if name.startswith(before) and name.endswith(".Proof") and time >= said.slow}
        trial = Trial(copied(said.crate, os.path.join(room, "trial")))
        for path, lines in all_goals(said.crate, seed, room, said.test).items():
            if path in slow:
                trial.add(path, lines)
        found = trial.run(said.crate, kept(seed, os.path.join(room, "trial-kept")), said.test)
    for gain, path, goal, tactic in sorted(savings(found), reverse=True):
        if gain >= said.gain:
            print("%6.1f s  %s  %s = %s" % (gain, path, goal, tactic))
            if said.write:
                write(said.crate, path, goal, tactic, *trial.goals[path, goal])
    return 0
