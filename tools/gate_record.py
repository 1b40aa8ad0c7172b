"""Records of what the gate took, as tools/gate_times writes them, and the part of docs/GATE.md that is made of one."""

from __future__ import annotations

import os
import re
from collections import Counter
from collections.abc import Mapping

from pages import table
from programs import TOP

# A crate, a kind and the name of an edit.
Step = tuple[str, str, str]
PROOF, TESTS, GROUND, EDIT = "proof", "tests", "ground of its edits", "must-fail edit"
KINDS = (PROOF, TESTS, GROUND, EDIT)
DEAR_EDIT = 30
# A crate is named that takes so many times what docs/GATE.md tells of it, and so many seconds more, since times are good to a second or two a step.
MOST_TIMES, MOST_MORE = 1.1, 30
LINE = re.compile(r"^times: +(\d+) s  (\w+): (%s)(?: (\S+))?" % "|".join(KINDS))


def taken_in(text: str) -> Counter[Step]:
    """The seconds of each step of a record."""
    taken: Counter[Step] = Counter()
    for line in text.split("\n"):
        found = LINE.match(line)
        if found:
            taken[found.group(2), found.group(3), found.group(4) or ""] += int(found.group(1))
    return taken


def crates() -> list[str]:
    """The crates' names, in the order of crates.txt."""
    with open(os.path.join(TOP, "crates.txt"), encoding="utf-8") as file:
        return [line.split(":")[0].strip() for line in file if ":" in line and not line.startswith("#")]


def edits_of(crate: str) -> list[str]:
    folder = os.path.join(TOP, "crates", crate, "must-fail")
    return [name[:-5] for name in sorted(os.listdir(folder)) if name.endswith(".edit")] if os.path.isdir(folder) else []


def lacking(taken: Mapping[Step, float]) -> list[Step]:
    """The steps of the whole gate that a record hasn't: a proof of each crate, and each edit."""
    steps = [(crate, PROOF, "") for crate in crates()] + [(crate, EDIT, edit) for crate in crates() for edit in edits_of(crate)]
    return [step for step in steps if step not in taken]


def minutes(seconds: float) -> str:
    return "%.1f" % (seconds / 60) if seconds else ""


def sum_of(taken: Mapping[Step, float], crate: str, kind: str) -> float:
    return sum(seconds for (name, one, _), seconds in taken.items() if name == crate and one == kind)


def row_of(taken: Mapping[Step, float], crate: str) -> list[str]:
    proof, tests, ground, edits = (sum_of(taken, crate, kind) for kind in KINDS)
    count = sum(1 for name, kind, _ in taken if name == crate and kind == EDIT)
    return ["`%s`" % crate, minutes(proof), minutes(tests), minutes(ground), "%s (%d)" % (minutes(edits), count) if count else "",
            minutes(proof + tests + ground + edits)]


def told_by(page: str) -> dict[str, float]:
    """The seconds of each crate by the table of docs/GATE.md."""
    return {name: 60 * float(together) for name, together in re.findall(r"^\| `(\w+)` \|.*\| ([\d.]+) \|$", page, re.M)}


def grown(taken: Mapping[Step, float], told: Mapping[str, float]) -> list[str]:
    """Of each crate all of whose steps are recorded, and that took more than a tenth more than is told of it, a line."""
    cut = {crate for crate, _, _ in lacking(taken)}
    lines = []
    for crate in crates():
        now, before = sum(sum_of(taken, crate, kind) for kind in KINDS), told.get(crate)
        if crate not in cut and before and now > max(MOST_TIMES * before, before + MOST_MORE):
            lines.append("times: %s grew: %s minutes, and docs/GATE.md tells %s" % (crate, minutes(now), minutes(before)))
    return lines


def part_of(taken: Mapping[Step, float]) -> str:
    """What docs/GATE.md says of a record."""
    sums = {kind: sum(seconds for (_, one, _), seconds in taken.items() if one == kind) for kind in KINDS}
    edits = [seconds for (_, kind, _), seconds in taken.items() if kind == EDIT]
    said = ("The prover's steps take %d minutes of processor time: proofs %d, tests %d, what must-fail edits stand on %d, the %d edits %d, of\n"
            "which %d took more than %d seconds. Minutes of each crate:" % (
                sum(sums.values()) / 60, sums[PROOF] / 60, sums[TESTS] / 60, sums[GROUND] / 60, len(edits), sums[EDIT] / 60,
                sum(1 for seconds in edits if seconds > DEAR_EDIT), DEAR_EDIT))
    rows = [row_of(taken, crate) for crate in crates() if any(name == crate for name, _, _ in taken)]
    return said + "\n\n" + table(["crate", "proof", "tests", "ground of its edits", "edits", "together"], rows)
