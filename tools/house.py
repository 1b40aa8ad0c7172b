"""Tells how the house stands, its crates and their lines, and fails where a bound is passed.

usage: tools/house [--long] [--twice] [--once]

The bounds: a clause (a `requires` or an `ensures` with its whole text on one line) has at most 100 columns; an exported name of the
definitions, and a type of the sources, is defined by one file; of each crate so many exported names are used in one place at most; a function
has at most six parameters, `self` among them, and less than 40 lines, a contract left out; a file has less than 600 lines; and the must-fail
edits that are named in tools/house_known.py are there. What passes one is told with its file, line and figure, and then the status is 1. That
file also has the exceptions, each with its figure and the reason: one that goes further fails, and one that nothing needs any more.

Lines are counted as they stand, without the tests' crates and, once more, without those that hold definitions and laws alone.
--long lists the long clauses, --twice the names that are defined twice, and --once those that are used in one place at most, all of them, with
where they stand.
"""

from __future__ import annotations

import sys

from bounds import Finding, all_findings, compared, used_once
from sources import clauses_in, crates, defined, lines_of, texts

OPTIONS = {"--long", "--twice", "--once"}
# The crates that hold definitions and laws alone.
LAWS = ("lsys_syntax", "lsys_spec", "lsys_laws")


def is_test(crate: str) -> bool:
    return crate.startswith("lsys_tests") or crate == "lsys_flat"


def shares(names: list[str]) -> str:
    """Of these crates: lines of source, definitions and proofs, and the last two by the first."""
    source, specs, proofs = (sum(counts) for counts in zip(*map(lines_of, names)))
    return "%6d source, %6d definitions (%.2f), %6d proofs (%.2f)" % (source, specs, specs / source, proofs, proofs / source)


def count_of_clauses(names: list[str]) -> int:
    return sum(1 for name in names for path, text in texts(name, "src", ".rt") for _ in clauses_in(path, text))


def tell_figures(findings: list[Finding]) -> None:
    """How many crates, lines, edits, clauses and names there are."""
    names = crates()
    program = [name for name in names if not is_test(name)]
    code = [name for name in program if name not in LAWS]
    print("%d crates, of which %d are the program's" % (len(names), len(program)))
    for title, some in (("all", names), ("the program's", program), ("without definitions and laws", code)):
        print("  %-30s %s" % (title, shares(some)))
    edits = [sum(1 for _ in texts(name, "must-fail", ".edit")) for name in names]
    print("%d must-fail edits, at most %d a crate" % (sum(edits), max(edits)))
    print("%d clauses, of the program's %d; %d exported names" % (count_of_clauses(names), count_of_clauses(program), len(defined())))
    for bound in sorted({finding.bound for finding in findings}):
        found = [finding for finding in findings if finding.bound == bound]
        print("  %-20s %4d past the bound, the greatest figure %d" % (bound, len(found), max(finding.figure for finding in found)))


def tell_lists(findings: list[Finding], options: list[str]) -> None:
    """The lists that are asked for."""
    for option, bounds in (("--long", ["columns"]), ("--twice", ["twice in specs", "twice in src"])):
        for finding in sorted(findings, key=lambda found: -found.figure) if option in options else []:
            if finding.bound in bounds:
                print(finding.shown())
    for names in used_once().values() if "--once" in options else []:
        for path, line, name in names:
            print("%s:%d: %s" % (path, line, name))


def main() -> int:
    options = sys.argv[1:]
    if set(options) - OPTIONS:
        print(__doc__)
        return 0 if set(options) & {"-h", "--help"} else 2
    findings = all_findings()
    tell_figures(findings)
    tell_lists(findings, options)
    wrong = list(compared(findings))
    for line in wrong:
        print(line)
    print("%d bounds are passed" % len(wrong) if wrong else "no bound is passed, but for what is known")
    return 1 if wrong else 0
