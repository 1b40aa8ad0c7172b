"""Compares the definitions of a desk's replies with replies that come from elsewhere.

usage: conformance/definitions [--batch N] [FILE ..]
       conformance/definitions --keep | --current

Each FILE has a case in each line, in JSON: {"name": .., "limit": .., "script": .., "replies": ..}. Each character of
a script is one byte; `limit` may be missing, and is 100,000 then; a case with `beyond` is more than the checker
computes in one theorem. For each case a theorem is written: the replies to the script, as
lsys_history/specs/Desks.antt defines them, are these replies. The proof is `refl`, so the checker computes the
definitions and nothing else. The theorems stand in a crate under the folder of temporary files, over
this repository's files of definitions that those of a desk stand on, without the laws above them, and are checked N
files at a time, 40 cases in each.

Prints the cases that differ, with what the checker says of them, the names of those that are more than the checker
computes in one theorem, and then `N agree, M differ, K not computed`. The exit status is 0 only where none differs.
Without a FILE the worked cases, those of version 2 and those of desks are taken.

--keep writes the theorems of these three files into the crate lsys_tests_definitions, which the gate proves as any other, but for those
that are beyond the checker; and --current tells whether they stand there as the files have them.
"""

from __future__ import annotations

import json
import pathlib
import re
import shutil
import subprocess
import sys
import tempfile
import time
from typing import Any

import programs
from telling import Words

TOP = pathlib.Path(programs.TOP)
PLAIN = {"\n": "\\n", "\t": "\\t", "\r": "\\r", "\\": "\\\\", '"': '\\"'}
HEAD = """-- Cases, which the checker computes.
use Rattle.std.specs.Prelude.{◌≡◌, ℕ, List, [], ◌∷◌, ◌++◌, codes, refl}
use Rattle.std.specs.Fmt.{digits}
use Rattle.lsys_spec.specs.Output.{none, output_text}
use Rattle.lsys_history.specs.Desks.{desk_out}

abbrev run : ℕ → List ℕ → List ℕ
run limit script = output_text (desk_out limit script none)
"""
GATE = ["worked.jsonl", "versions.jsonl", "desks.jsonl"]
KEPT = TOP / "crates" / "lsys_tests_definitions" / "specs"
KEPT_HEAD = "-- Replies to scripts, from conformance/definition_cases/%s. conformance/definitions --keep writes this file.\n"
LIBRARY = "//! Definitions.\n#![tactic(auto)]\n\npub fn nothing() {}\n"


def literal(text: str) -> str:
    """The bytes as a term: quoted where they can be, else one by one."""
    parts = []
    for quoted, other in re.findall(r"([\n\t\r -~]+)|([^\n\t\r -~])", text):
        if quoted:
            parts.append('codes "%s"' % "".join(PLAIN.get(c, c) for c in quoted))
        else:
            parts.append("(%d ∷ [])" % ord(other))
    return "(" + (" ++ ".join("(" + part + ")" for part in parts) or "[]") + ")"


def theorem(number: int, case: dict[str, Any]) -> str:
    return "\npub case_%d : run %d %s ≡ %s\nunfolding digits\ncase_%d = refl\n" % (
        number, case.get("limit", 100000), literal(case["script"]), literal(case["replies"]), number)


def write_crate(folder: pathlib.Path, name: str, files: dict[str, str]) -> pathlib.Path:
    """A crate with these files of definitions, each a text by its name, in place of what it had."""
    crate = folder / "crates" / name
    shutil.rmtree(crate / "specs", ignore_errors=True)
    for part in ("src", "specs"):
        (crate / part).mkdir(parents=True, exist_ok=True)
    (crate / "src" / "lib.rt").write_text(LIBRARY)
    for file, text in files.items():
        (crate / "specs" / (file + ".antt")).write_text(text)
    (crate / "specs" / "Lib.antt").write_text("".join("pub mod %s\n" % file for file in files))
    return crate


def write_cases(folder: pathlib.Path, cases: list[dict[str, Any]], first: int) -> pathlib.Path:
    """A crate with the theorems of these cases, which are numbered from `first` on."""
    return write_crate(folder, "cases", {
        "Cases%d" % (first + start): HEAD + "".join(theorem(first + start + k, c) for k, c in enumerate(cases[start:start + 40]))
        for start in range(0, len(cases), 40)})


def used(text: str) -> set[tuple[str, str]]:
    """The files of definitions that a text uses, each by its crate and its name."""
    return set(re.findall(r"^(?:pub )?use Rattle\.(lsys_\w+)\.specs\.(\w+)", text, re.M))


def write_definitions(folder: pathlib.Path) -> None:
    """Crates with what the theorems use of this repository, and their lines of crates.txt."""
    found: dict[str, dict[str, str]] = {}
    due = used(HEAD)
    while due:
        crate, file = due.pop()
        text = (TOP / "crates" / crate / "specs" / (file + ".antt")).read_text()
        found.setdefault(crate, {})[file] = text
        due |= {(c, f) for c, f in used(text) if f not in found.get(c, ())}
    below = {crate: {c for text in files.values() for c, _ in used(text)} - {crate} for crate, files in found.items()}
    for crate, files in found.items():
        write_crate(folder, crate, files)
    lines = ["%s: %s\n" % (crate, " ".join(sorted(ones))) for crate, ones in {**below, "cases": set(found)}.items()]
    (folder / "crates.txt").write_text("".join(lines))


def check(crate: pathlib.Path) -> dict[int, str]:
    """The numbers of the cases that differ, each with what the checker says."""
    run = subprocess.run(["rt", "check"], cwd=crate, capture_output=True, text=True)
    said, current, differing = run.stdout + run.stderr, None, {}
    for line in said.splitlines():
        found = re.match(r"\S*\.antt:\d+:\d+: error: `?case_(\d+)`?", line)
        if found:
            current = int(found.group(1))
            differing[current] = line[:400]
        elif re.match(r"\S*\.antt:\d+:\d+: error", line):
            sys.exit("the theorems can't be read:\n" + line)
        elif current is not None and line.startswith("  "):
            differing[current] += "\n" + line[:400]
        else:
            current = None
    if not differing and run.returncode != 0:
        sys.exit("the check failed:\n" + said[-3000:])
    return differing


def cases_of(file: pathlib.Path) -> list[dict[str, Any]]:
    return [json.loads(line) for line in open(file, encoding="utf-8") if line.strip()]


def kept_files() -> dict[str, str]:
    """The texts of the crate that the gate proves, each by its file's name, as `rt fmt` lays them out."""
    texts = {}
    for name in GATE:
        cases = cases_of(TOP / "conformance" / "definition_cases" / name)
        rows = ["\n-- %s%s" % (" ".join(case["name"].split()), theorem(number, case)) for number, case in enumerate(cases)
                if not case.get("beyond")]
        texts[name.split(".")[0].capitalize()] = KEPT_HEAD % name + HEAD.split("\n", 1)[1] + "".join(rows)
    return texts


def laid_out(texts: dict[str, str]) -> dict[str, str]:
    """The same texts, as `rt fmt` lays them out."""
    folder = pathlib.Path(tempfile.mkdtemp(prefix="definitions."))
    crate = write_crate(folder, "kept", texts)
    (folder / "crates.txt").write_text("kept:\n")
    subprocess.run(["rt", "fmt"], cwd=crate, stdout=subprocess.DEVNULL)
    found = {name: (crate / "specs" / (name + ".antt")).read_text() for name in texts}
    shutil.rmtree(folder)
    return found


def keep(is_written: bool) -> int:
    """Writes the files of the crate, or tells which of them aren't current."""
    stale = 0
    for name, text in laid_out(kept_files()).items():
        file = KEPT / (name + ".antt")
        if is_written:
            file.write_text(text)
        elif not file.exists() or file.read_text() != text:
            print("%s isn't what conformance/definitions --keep writes" % file.relative_to(TOP))
            stale = 1
    return stale


def main() -> int:
    parser = Words(__doc__)
    parser.add_argument("--batch", type=int, default=4)
    parser.add_argument("--keep", action="store_true")
    parser.add_argument("--current", action="store_true")
    parser.add_argument("files", nargs="*", default=[TOP / "conformance" / "definition_cases" / name for name in GATE])
    options = parser.parse_args()
    if options.keep or options.current:
        return keep(options.keep)
    batch = options.batch
    cases = [case for name in options.files for case in cases_of(name)]
    folder = pathlib.Path(tempfile.mkdtemp(prefix="definitions."))
    write_definitions(folder)
    differ, left_out, begun = 0, [], time.time()
    for start in range(0, len(cases), 40 * batch):
        crate = write_cases(folder, cases[start:start + 40 * batch], start)
        for number, why in sorted(check(crate).items()):
            case = cases[number]
            if "stopped at the step limit" in why or "deep recursion" in why:
                left_out.append(case["name"])
                continue
            differ += 1
            print("%s\n--- script\n%s\n--- replies\n%s\n--- the checker\n%s\n" % (
                case["name"], case["script"], case["replies"], why))
        print("%d of %d cases, %.0f s" % (min(start + 40 * batch, len(cases)), len(cases), time.time() - begun), file=sys.stderr)
    shutil.rmtree(folder)
    for name in left_out:
        print("not computed: %s" % name)
    print("%d agree, %d differ, %d not computed" % (len(cases) - differ - len(left_out), differ, len(left_out)))
    return 1 if differ else 0
