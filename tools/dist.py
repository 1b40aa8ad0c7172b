"""Packs a built program for people without the toolchain: lsys-VERSION-x86_64-linux.tar.gz and, where dpkg-deb is there, a .deb; or
installs the same.

usage: tools/dist [--program PATH] [--into FOLDER]
       tools/dist --install PREFIX [--program PATH] [--root FOLDER] [--inkscape FOLDER]

Both packages hold the program, its manual page, the tools that need no toolchain (run, repl, look, export, the extension for Inkscape), the
examples, their gallery page, README.md, CHANGELOG.md, the licences, docs/ and editors/. The version is the one of the file VERSION. A
program other than the one that `make` or the gate has proved of these sources gets `+unproved` after its version, and a package whose
texts claim nothing of proofs. The folder is build/ where none is given. What is installed goes below PREFIX, and the extension into the
folder of Inkscape's extensions, all of it below the folder of --root where one is given.
"""

from __future__ import annotations

import gzip
import os
import re
import shutil
import subprocess
import tarfile
import tempfile
from collections.abc import Iterator
from typing import Any

from programs import TOP, is_proved, program_of, shown
from telling import Words, give_up, say

TOOLS = ["run", "run.py", "repl", "repl.py", "look", "look.py", "export", "export.py", "desk.py", "faults.py", "figure.py", "film.py",
         "formats.py", "guard.py", "hints.py", "known.py", "line_machine.json", "lineage.py", "machine.py", "mending.py", "polylines.py",
         "replies.py", "serving.py", "session.py", "sheets.py",
         "texts.py", "tubes.py", "programs.py", "building.py", "processes.py", "telling.py", "watching.py"]
COMMANDS = ["run", "repl", "look", "export"]
INKSCAPE = ["lsys.inx", "lsys_inkscape.py"]
# What the extension stands on, beside it.
BELOW_INKSCAPE = ["figure.py", "replies.py"]
LICENSES = ["LICENSE-APACHE", "LICENSE-MIT"]
# The word of what is proved, and the texts of a package that speak of something else too.
CLAIM = re.compile("(?<!un)proved", re.I)
PLAIN_DOCS = ["LANGUAGE.md", "lsys.1"]
CONTROL = """Package: lsys
Version: %s
Architecture: amd64
Maintainer: the authors of lsys <lsys@localhost>
Depends: libc6 (>= %s)
Recommends: python3 (>= 3.9)
Suggests: inkscape, libjs-codemirror, librsvg2-bin, python3-ezdxf
Section: science
Priority: optional
Installed-Size: %d
Description: editor and deriver for L-systems%s
 A script edits an L-system, derives it level by level and draws it; what an
 edit doesn't touch isn't derived again.%s
 With a viewer for the browser and an extension for Inkscape.
"""
COPYRIGHT = """Format: https://www.debian.org/doc/packaging-manuals/copyright-format/1.0/
Upstream-Name: lsys

Files: *
Copyright: the authors of lsys
License: Apache-2.0 or MIT
 The texts of both licences are in this folder, LICENSE-APACHE and LICENSE-MIT.
"""
# A command of a package: where there is no Python it says so, and else it runs its tool.
FRONT = """#!/bin/sh
if ! command -v python3 >/dev/null; then
    echo "; there is no python3 in PATH: ${0##*/} needs Python 3.9 or newer (the program lsys needs none)" >&2
    exit 127
fi
here=$(readlink -f "$0" 2>/dev/null || echo "$0")
export LSYS_CALLED="$0"
exec "${here%%/*}/%s" "$@"
"""
UNPROVED_NOTE = "This package was made of a program whose proofs were not run: it is tested, and no more is claimed of it (version %s).\n\n"


def version(proved: bool) -> str:
    with open(os.path.join(TOP, "VERSION")) as file:
        return file.read().strip() + ("" if proved else "+unproved")


def blocks_of(text: str) -> list[str]:
    """The parts of a text that go together: rows of a table, items of a list, and else what stands between blank lines; of a manual page
    what a request begins."""
    return re.split(r"(?m)(?<=\n)(?=\n|\| |- |\.PP$|\.TP$|\.SH )", text)


def without_claims(text: str) -> str:
    """A text without the sections and parts that speak of what is proved."""
    sections = re.split(r"(?m)^(?=## )", text)
    kept = [section for section in sections if not CLAIM.search(section.split("\n", 1)[0])]
    return "".join(block for section in kept for block in blocks_of(section) if not CLAIM.search(block))


def put_text(source: str, folder: str, proved: bool) -> None:
    """Copies a text; that of an unproved program without claims."""
    put(source, folder)
    if not proved:
        path = os.path.join(folder, os.path.basename(source))
        with open(path, encoding="utf-8") as file:
            text = without_claims(file.read())
        with open(path, "w", encoding="utf-8") as file:
            file.write((UNPROVED_NOTE % version(False) if path.endswith("README.md") else "") + text)


def lay_out_texts(folder: str, docs: str, proved: bool) -> None:
    """What a package says of itself, the licences among it."""
    put_text(os.path.join(TOP, "README.md"), folder, proved)
    put_text(os.path.join(TOP, "CHANGELOG.md"), folder, proved)
    for name in LICENSES:
        put(os.path.join(TOP, name), folder)
    for name in sorted(os.listdir(os.path.join(TOP, "docs"))) if proved else PLAIN_DOCS:
        if name.endswith(".svg"):
            put(os.path.join(TOP, "docs", name), docs)
        else:
            put_text(os.path.join(TOP, "docs", name), docs, proved)
    if not proved:
        put(os.path.join(TOP, "docs", "gallery.svg"), docs)
    shutil.copytree(os.path.join(TOP, "editors"), os.path.join(folder, "editors"), dirs_exist_ok=True)


def claims_in(root: str) -> Iterator[str]:
    """The texts below a folder that claim something of proofs. Code is none."""
    for folder, _, names in os.walk(root):
        for name in names:
            if name.endswith((".md", ".1", ".html", ".txt", ".lsys", "control", "copyright")):
                with open(os.path.join(folder, name), encoding="utf-8") as file:
                    if CLAIM.search(file.read()):
                        yield os.path.relpath(os.path.join(folder, name), root)


def look_for_claims(root: str, proved: bool) -> None:
    found = [] if proved else list(claims_in(root))
    if found:
        give_up("these texts speak of what is proved, and the program isn't: %s" % ", ".join(found))


def put(source: str, folder: str, name: str | None = None, mode: int = 0o644) -> None:
    """Copies a file into a folder, which is made where it isn't there."""
    os.makedirs(folder, exist_ok=True)
    path = os.path.join(folder, name or os.path.basename(source))
    shutil.copyfile(source, path)
    os.chmod(path, mode)


def put_command(path: str, tool: str) -> None:
    """Writes a command that runs a tool, whose place is told from the command's own."""
    if os.path.lexists(path):
        os.unlink(path)
    with open(path, "w") as file:
        file.write(FRONT % tool)
    os.chmod(path, 0o755)


def put_all(folder: str, to: str) -> None:
    """Copies the plain files of a folder of the repository."""
    for name in sorted(os.listdir(os.path.join(TOP, folder))):
        path = os.path.join(TOP, folder, name)
        if os.path.isfile(path) and not name.endswith(".out"):
            put(path, to)


def lay_out_tools(root: str, proved: bool) -> None:
    """The tools that need no toolchain, with the examples and their gallery page, as the repository has them."""
    for name in TOOLS:
        put(os.path.join(TOP, "tools", name), os.path.join(root, "tools"), mode=0o755 if name in COMMANDS else 0o644)
    put_all(os.path.join("tools", "web"), os.path.join(root, "tools", "web"))
    with open(os.path.join(root, "VERSION"), "w") as file:
        file.write(version(proved) + "\n")
    put_all("examples", os.path.join(root, "examples"))
    # The page's help is read from it.
    put(os.path.join(TOP, "docs", "LANGUAGE.md"), os.path.join(root, "docs"))


def lay_out_inkscape(folder: str) -> None:
    for name in INKSCAPE:
        put(os.path.join(TOP, "tools", "inkscape", name), folder)
    for name in BELOW_INKSCAPE:
        put(os.path.join(TOP, "tools", name), folder)


def lay_out_gallery(program: str, root: str) -> None:
    ran = subprocess.run([os.path.join(TOP, "tools", "gallery"), "--program", program, "--into", os.path.join(root, "gallery")],
                         stdout=subprocess.DEVNULL)
    if ran.returncode:
        give_up("the gallery page can't be made by %s" % program)


def tarball(program: str, folder: str, name: str, proved: bool) -> str:
    """A folder that one unpacks anywhere: the program in bin/, and `run`, `repl`, `look` and `export` at its top."""
    with tempfile.TemporaryDirectory() as room:
        root = os.path.join(room, name)
        put(program, os.path.join(root, "bin"), "lsys", 0o755)
        lay_out_tools(root, proved)
        lay_out_gallery(program, root)
        lay_out_inkscape(os.path.join(root, "inkscape", "lsys"))
        lay_out_texts(root, os.path.join(root, "docs"), proved)
        for command in COMMANDS:
            put_command(os.path.join(root, command), os.path.join("tools", command))
        look_for_claims(root, proved)
        path = os.path.join(folder, name + ".tar.gz")
        with tarfile.open(path, "w:gz") as file:
            file.add(root, name, filter=by_nobody)
    return path


def by_nobody(member: tarfile.TarInfo) -> tarfile.TarInfo:
    member.uid = member.gid = 0
    member.uname = member.gname = "root"
    return member


def libc_of(program: str) -> str:
    """The least version of the C library that a program asks for."""
    with open(program, "rb") as file:
        found = re.findall(rb"GLIBC_(\d+)\.(\d+)", file.read())
    return "%d.%d" % max([(2, 28)] + [tuple(map(int, pair)) for pair in found])


def size_of(root: str) -> int:
    """The kilobytes of all files below a folder."""
    return sum(os.lstat(os.path.join(folder, name)).st_size for folder, _, names in os.walk(root) for name in names) // 1024 + 1


def lay_out_system(program: str, prefix: str, inkscape: str, proved: bool) -> None:
    """Each part where a system has it: commands in bin/, what they stand on in share/lsys, texts in share/doc/lsys, the manual page, and the
    extension in Inkscape's folder."""
    share = os.path.join(prefix, "share")
    doc, man = os.path.join(share, "doc", "lsys"), os.path.join(share, "man", "man1")
    put(program, os.path.join(prefix, "bin"), "lsys", 0o755)
    lay_out_tools(os.path.join(share, "lsys"), proved)
    lay_out_gallery(program, os.path.join(share, "lsys"))
    for command in COMMANDS:
        put_command(os.path.join(prefix, "bin", "lsys-" + command), os.path.join("..", "share", "lsys", "tools", command))
    lay_out_inkscape(os.path.join(inkscape, "lsys"))
    lay_out_texts(doc, os.path.join(doc, "docs"), proved)
    with open(os.path.join(doc, "copyright"), "w") as file:
        file.write(COPYRIGHT)
    os.makedirs(man, exist_ok=True)
    with open(os.path.join(doc, "docs", "lsys.1"), "rb") as page, gzip.open(os.path.join(man, "lsys.1.gz"), "wb") as packed:
        packed.write(page.read())


def debian(program: str, folder: str, name: str, proved: bool) -> str:
    """A package that puts each part where Debian has it."""
    with tempfile.TemporaryDirectory() as room:
        usr = os.path.join(room, "usr")
        lay_out_system(program, usr, os.path.join(usr, "share", "inkscape", "extensions"), proved)
        os.makedirs(os.path.join(room, "DEBIAN"))
        claims = (", proved", " Every function is proved\n to meet its contract.") if proved else ("", "")
        with open(os.path.join(room, "DEBIAN", "control"), "w") as file:
            file.write(CONTROL % ((version(proved), libc_of(program), size_of(room)) + claims))
        look_for_claims(room, proved)
        os.chmod(room, 0o755)
        path = os.path.join(folder, name + ".deb")
        ran = subprocess.run(["dpkg-deb", "--root-owner-group", "--build", room, path], stdout=subprocess.PIPE, stderr=subprocess.STDOUT, text=True)
        if ran.returncode:
            give_up("dpkg-deb packs nothing: %s" % ran.stdout.strip())
    return path


def below(root: str | None, path: str) -> str:
    """An absolute path as one below another root."""
    return os.path.join(root, os.path.abspath(path).lstrip("/")) if root else os.path.abspath(path)


def install(program: str, options: Any, proved: bool) -> int:
    prefix = below(options.root, options.install)
    inkscape = below(options.root, options.inkscape or os.path.join(options.install, "share", "inkscape", "extensions"))
    lay_out_system(program, prefix, inkscape, proved)
    print("lsys %s is installed below %s: %s" % (version(proved), prefix, ", ".join(["lsys"] + ["lsys-" + command for command in COMMANDS])))
    return 0


def main() -> int:
    parser = Words(__doc__)
    for word in ("--program", "--install", "--root", "--inkscape"):
        parser.add_argument(word)
    parser.add_argument("--into", default=os.path.join(TOP, "build"))
    options = parser.parse_args()
    program = os.path.abspath(program_of(options.program))
    proved = is_proved(program)
    name = "lsys-%s-x86_64-linux" % version(proved)
    os.umask(0o022)
    if options.install:
        return install(program, options, proved)
    os.makedirs(options.into, exist_ok=True)
    made = [tarball(program, options.into, name, proved)]
    if shutil.which("dpkg-deb"):
        made.append(debian(program, options.into, name, proved))
    else:
        say("there is no dpkg-deb here, and so no .deb is made")
    for path in made:
        print("%s, %d KB" % (shown(path), os.path.getsize(path) // 1024))
    return 0
