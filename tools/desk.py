"""What the pages of `tools/look` work on: a script, the program that follows it, and the file that it is kept in."""

from __future__ import annotations

import os
import re
import secrets
import subprocess
import tempfile
import threading
import time
from collections.abc import Callable, Mapping, Sequence
from typing import Any, Optional

from figure import Figure, joined
from formats import MissingProgram, Unfit, Written, titled, wish_of, written
from hints import LIMIT, MOST_LIMIT, hint
from programs import TOP
from replies import lines_of
from session import Ended, Session, as_reply, commands_before_end, is_query, key_of
from texts import MARK_TOLD, without_mark

# What a text belongs to: a path, a name, what the file had, and what was opened.
Belongs = tuple[Optional[str], str, Optional[bytes], Optional[bytes]]
EXAMPLES = os.path.join(TOP, "examples")
LONGEST_SCRIPT = 16777216
# Replies that are shown beside their lines; of a longer script the first ones, and the refusals.
MOST_REPLIES = 5000
MOST_PICTURES = 100
# So many refusals are explained, and so many explanations are kept for the next change.
MOST_HINTS, MOST_KEPT_HINTS = 100, 1000
LONGEST_LEVEL = 20000
# Texts of which it is known what they belonged to.
MOST_LEFT = 20
COUNTS = re.compile(r"ok (\d+)/(\d+)")
PICTURE = re.compile(r"^<svg .*?^</svg>\n", re.S | re.M)


class Wrong(Exception):
    """A request that can't be met, with a word for the page."""

    def __init__(self, word: str, status: int = 409) -> None:
        Exception.__init__(self, word)
        self.status = status


def as_text(data: bytes) -> str:
    """A script's bytes as text, from which `as_bytes` makes the same bytes."""
    return data.decode("utf-8", "surrogateescape")


def as_bytes(text: str) -> bytes:
    try:
        return text.encode("utf-8", "surrogateescape")
    except UnicodeEncodeError:
        return text.encode("utf-8", "replace")


def read(path: str) -> bytes | None:
    """A file's bytes, or None where it can't be read now."""
    try:
        with open(path, "rb") as file:
            return file.read(LONGEST_SCRIPT + 1)
    except OSError:
        return None


def save(path: str, data: bytes) -> None:
    """Puts a file in the place of another one in one step, so that each reader sees the one or the other."""
    path = os.path.realpath(path)
    folder = os.path.dirname(path)
    number, room = tempfile.mkstemp(prefix=".lsys-", dir=folder)
    try:
        with os.fdopen(number, "wb") as file:
            file.write(data)
            file.flush()
            os.fsync(file.fileno())
        mask = os.umask(0)
        os.umask(mask)
        os.chmod(room, os.stat(path).st_mode & 0o7777 if os.path.exists(path) else 0o666 & ~mask)
        os.replace(room, path)
    except OSError:
        os.unlink(room)
        raise


class Script:
    """The text that one works on, by its lines, and the file that it belongs to, where there is one. `number` rises with each change
    of the text. `on_disk` is what the file had when it was last read or written, `other` what another program put there since."""

    def __init__(self, path: str | None = None) -> None:
        self.path, self.name, self.number = path, os.path.basename(path) if path else "", 0
        self.on_disk: bytes | None = None
        self.other: bytes | None = None
        self.seen: tuple[int, int, int] | None = None
        self.opened: bytes | None = b""
        self.left: dict[bytes, Belongs] = {}
        self.ends, self.lines, self.had_mark = "\n", [""], False
        if path:
            self.seen = self.sign()
            self.on_disk = None if self.seen is None else self.read_file() or b""
            self.put(self.on_disk or b"")

    def read_file(self) -> bytes | None:
        """What the file has, but for a mark at its head; None where it can't be read now."""
        data = read(self.path) if self.path else None
        if data is None:
            return None
        data, self.had_mark = without_mark(data)
        return data

    def put(self, data: bytes) -> None:
        """Takes these bytes for the text. Line ends of two bytes are kept apart from it, since a page has one kind alone."""
        text = as_text(data)
        pairs = text.count("\r\n")
        self.ends = "\r\n" if pairs and pairs == text.count("\n") else "\n"
        self.lines = text.replace("\r\n", "\n").split("\n")
        self.number += 1

    def data(self) -> bytes:
        return as_bytes(self.ends.join(self.lines))

    def is_saved(self) -> bool:
        return self.path is not None and self.data() == self.on_disk

    def belongs(self) -> Belongs:
        """The file that the text belongs to, and what it had."""
        return self.path, self.name, self.on_disk, self.opened

    def belong(self, belongs: Belongs) -> None:
        self.path, self.name, self.on_disk, self.opened = belongs
        self.other, self.seen = None, None

    def is_kept(self) -> bool:
        """Whether nothing would be lost if the text were gone."""
        return self.is_saved() or self.data() in (self.opened, b"")

    def change(self, first: int, removed: int, lines: list[str]) -> None:
        """Puts lines in the place of some."""
        if not 0 <= first <= first + removed <= len(self.lines) or not all(isinstance(line, str) and "\n" not in line for line in lines):
            raise Wrong("no such lines", 400)
        changed = self.lines[:first] + lines + self.lines[first + removed:]
        if sum(map(len, changed)) + len(changed) > LONGEST_SCRIPT + 1:
            raise Wrong("a script has at most 16,777,216 bytes", 413)
        self.lines = changed or [""]
        self.number += 1
        # A text that comes back by an undo belongs to what it belonged to.
        belongs = self.left.get(self.data()) if self.left else None
        if belongs and belongs[0] != self.path:
            self.belong(belongs)

    def open(self, data: bytes, name: str) -> None:
        """Takes another text, which belongs to no file yet."""
        self.left[self.data()] = self.belongs()
        self.put(data)
        self.belong((None, name, None, self.data()))
        self.left.setdefault(self.data(), self.belongs())
        while len(self.left) > MOST_LEFT:
            del self.left[next(iter(self.left))]

    def sign(self) -> tuple[int, int, int] | None:
        """What changes where the file does."""
        try:
            told = os.stat(self.path or "")
            return told.st_mtime_ns, told.st_size, told.st_ino
        except OSError:
            return None

    def look_at_file(self) -> str | None:
        """Says whether another program has changed the file: "taken" where its text was taken over, "asked" where both have changed."""
        sign = self.sign() if self.path else None
        if sign is None or sign == self.seen:
            return None
        data = self.read_file()
        if data is None:
            return None
        self.seen = sign
        if data in (self.on_disk, self.other):
            return None
        if data == self.data():
            self.on_disk, self.other = data, None
            return "same"
        if self.is_saved() or self.on_disk is None and self.data() == b"":
            self.on_disk, self.other = data, None
            self.put(data)
            return "taken"
        self.other = data
        return "asked"

    def save(self, path: str) -> None:
        data = self.data()
        save(path, data)
        self.path, self.name, self.on_disk, self.other = path, os.path.basename(path), data, None
        self.seen = self.sign()


class Desk:
    """What all pages see, numbered by `turn` so that a page can wait for the next one."""

    def __init__(self, session: Session, path: str | None = None, begins: bool = True) -> None:
        self.session, self.script = session, Script(path)
        self.changed, self.writing = threading.Condition(), threading.Lock()
        self.stopped: list[Any] | None = None
        self.is_cancelled = False
        self.turn, self.stopping, self.sign, self.last_asked = 0, False, secrets.token_hex(8), b""
        self.how, self.notice = "", (0, "")
        self.places: list[int] = []
        self.counts: list[int] | None = None
        self.hinted: list[list[Any]] = []
        self.kept_hints: dict[tuple[bytes, str, int, int], tuple[str, str | None]] = {}
        if begins:
            self.begin()

    def begin(self) -> None:
        """Brings the program to the script for the first time."""
        with self.changed:
            self.follow()
            self.say_of_mark()

    def say(self, word: str) -> None:
        """A word that each page shows once."""
        self.notice = self.notice[0] + 1, word

    def say_of_mark(self) -> None:
        if self.script.had_mark:
            told = MARK_TOLD % self.script.name
            self.say(told[0].upper() + told[1:] + ".")

    def tell(self) -> None:
        self.turn += 1
        self.changed.notify_all()

    def follow(self) -> None:
        """Brings the program to the script, and lets the pages know."""
        found = commands_before_end(lines_of(as_bytes("\n".join(self.script.lines))))
        self.places = [place for place, _ in found]
        commands = [line for _, line in found]
        self.stopped = None
        for _ in range(2):
            try:
                self.how = self.session.follow(commands)
                break
            except Ended:
                asked = self.last_asked
                self.session.close()
                if self.stopping:
                    break
                if self.take_cancel():
                    self.stop_before(commands, asked)
                    break
                self.say("The program had ended. It was started again with the script.")
        else:
            place = self.places[min(len(self.session.replies), len(commands) - 1)] + 1 if commands else 1
            self.say("The program ended at line %d, and once more when it was started again. The next change tries it anew." % place)
        self.counts = counts(self.session.sent) or self.counts
        self.hinted = self.hints()
        self.tell()

    def take_cancel(self) -> bool:
        """Whether a person stopped what was being worked out; that is known once."""
        was, self.is_cancelled = self.is_cancelled, False
        return was

    def busy(self) -> dict[str, Any]:
        """What is being worked out, and for how long; asked without waiting for it."""
        asking = self.session.asking()
        return {"line": as_text(asking[0])[:200], "seconds": time.monotonic() - asking[1]} if asking else {"line": "", "seconds": 0}

    def cancel(self) -> dict[str, Any]:
        """Stops what is being worked out. Who waits for it goes on with what was answered before."""
        asking = self.session.asking()
        if asking:
            self.is_cancelled, self.last_asked = True, asking[0]
            self.session.interrupt()
        return {"line": as_text(asking[0])[:200] if asking else ""}

    def stop_before(self, commands: list[bytes], asked: bytes) -> None:
        """Leaves the session at the lines before the one that was stopped, of which a program is begun anew in the background."""
        answered, told = len(self.session.replies), self.session.told
        is_in_turn = self.session.commands == commands and commands[answered:answered + 1] == [asked]
        found = [answered] if is_in_turn else [number for number, line in enumerate(commands)
                                               if line == asked] or [max(0, min(answered, len(commands) - 1))]
        self.session.commands = commands[:found[-1]]
        self.session.replies = [told.get(key_of(line), "") if not is_query(line) else "" for line in self.session.commands]
        self.stopped = [self.places[found[-1]] if commands else 0, as_text(asked)[:200]]
        threading.Thread(target=self.begin_again, args=(self.script.number,), daemon=True).start()

    def begin_again(self, number: int) -> None:
        """Starts the program with the lines before the one that was stopped, unless the script is another one by now."""
        with self.changed:
            if self.stopped is None or number != self.script.number or self.stopping:
                return
            try:
                self.session.from_the_beginning(self.session.commands)
            except Ended:
                self.session.close()
                self.take_cancel()
            self.hinted = self.hints()
            self.tell()

    def hints(self) -> list[list[Any]]:
        """What helps where a line is refused: its place, the words, and the line that was meant or None."""
        taken: list[bytes] = []
        told: list[list[Any]] = []
        for place, line, reply in zip(self.places, self.session.commands, self.session.replies):
            if reply.startswith("ok "):
                taken.append(line)
            elif reply.startswith("refused ") and len(told) < MOST_HINTS:
                told.append([place, *self.hint(line, reply, taken)])
        return told

    def hint(self, line: bytes, reply: str, taken: list[bytes]) -> tuple[str, str | None]:
        key = line, reply, self.limit(), hash(tuple(taken))
        if key not in self.kept_hints:
            found = hint(line, reply, taken, self.limit(), "page", self.session.words)
            self.kept_hints[key] = found.told, found.meant
            while len(self.kept_hints) > MOST_KEPT_HINTS:
                del self.kept_hints[next(iter(self.kept_hints))]
        return self.kept_hints[key]

    def look_around(self) -> None:
        """Looks whether the file was changed, and whether the program is still there."""
        with self.changed:
            what = self.script.look_at_file()
            if what == "taken":
                self.say("Another program changed the file. Its text was taken over.")
                self.say_of_mark()
            if what == "taken" or self.session.program and self.session.program.has_ended() and not self.is_cancelled:
                self.follow()
            elif what:
                self.tell()

    def after(self, turn: int, text: int | None, seconds: float) -> dict[str, Any]:
        """The state once there is something newer than this turn, or after some seconds as it is."""
        with self.changed:
            self.changed.wait_for(lambda: self.turn > turn or self.stopping, seconds)
            return self.state(text)

    def state(self, text: int | None = None) -> dict[str, Any]:
        """All that a page shows but the picture, and the script where the page has another one than number `text`."""
        script, session = self.script, self.session
        replies: list[list[Any]] = [list(pair) for pair in zip(self.places, session.replies)]
        refused = [place for place, reply in replies if reply.startswith("refused ")]
        told = replies[:MOST_REPLIES] + [pair for pair in replies[MOST_REPLIES:] if pair[1].startswith("refused ")][:MOST_REPLIES]
        state = {"desk": self.sign, "turn": self.turn, "text": script.number, "name": script.name, "path": script.path, "saved": script.is_saved(),
                 "kept": script.is_kept(),
                 "asked": script.other is not None, "how": self.how, "sent": [[line[:200], reply] for line, reply in session.sent[-20:]],
                 "counts": self.counts, "replies": told, "hints": self.hinted, "left_out": len(replies) - len(told), "refused": len(refused),
                 "depth": session.depth(), "lattice": session.lattice(), "notice": self.notice, "running": session.program is not None,
                 "pictures": [self.places[place] for place in sorted(session.pictures)[-MOST_PICTURES:] if place < len(self.places)],
                 "size": sum(map(len, script.lines)) + len(script.lines) - 1, "limit": self.limit(), "stopped": self.stopped}
        if text != script.number:
            state["script"] = "\n".join(script.lines)
        return state

    def has_text(self, number: int | None) -> None:
        if number != self.script.number:
            raise Wrong("another page changed the script")

    def change(self, asked: dict[str, Any]) -> dict[str, Any]:
        """A page's change of some lines of the text that it has."""
        with self.changed:
            self.has_text(asked["base"])
            self.script.change(asked["first"], asked["removed"], asked["lines"])
            self.follow()
            return self.state(self.script.number)

    def open(self, asked: dict[str, Any]) -> dict[str, Any]:
        """Takes an example or a text for the script. The file that the old one belongs to stays as it is."""
        with self.changed:
            name = asked["name"]
            data = as_bytes(asked["script"]) if "script" in asked else read(example(name))
            if data is None or len(data) > LONGEST_SCRIPT:
                raise Wrong("there is no such script", 404)
            data, self.script.had_mark = without_mark(data)
            self.script.open(data, os.path.basename(name))
            self.follow()
            self.say_of_mark()
            return self.state()

    def limit(self) -> int:
        """How many symbols all levels may have together."""
        words = self.session.words
        found = [word.partition("=")[2] or words[place + 1] for place, word in enumerate(words) if re.match("--limit(=|$)", word)]
        return int(found[0]) if found else LIMIT

    def set_limit(self, asked: dict[str, Any]) -> dict[str, Any]:
        """Begins the program anew with another limit."""
        limit = asked["limit"]
        if not isinstance(limit, int) or isinstance(limit, bool) or not 1 <= limit <= MOST_LIMIT:
            raise Wrong("a limit is a whole number from 1 to {:,}".format(MOST_LIMIT), 400)
        with self.changed:
            self.session.words = [self.session.words[0], "--limit", str(limit)]
            self.session.close()
            self.follow()
            return self.state(self.script.number)

    def save(self, asked: dict[str, Any]) -> dict[str, Any]:
        """Writes the script into its file, or into another one of the folder in which the tool was started."""
        with self.changed:
            self.has_text(asked["text"])
            path = self.script.path
            if asked.get("name"):
                path = str(asked["name"] if asked["name"].endswith(".lsys") else asked["name"] + ".lsys")
                if os.path.basename(path) != path or path.startswith(".") or "\0" in path:
                    raise Wrong("a name without a folder is wanted", 400)
                path = os.path.abspath(path)
                if os.path.dirname(os.path.realpath(path)) != os.path.realpath(os.path.dirname(path)):
                    raise Wrong("%s leads to another folder" % os.path.basename(path), 400)
                if os.path.exists(path) and not asked.get("replace"):
                    raise Wrong("there is a file %s already" % os.path.basename(path))
            if path is None:
                raise Wrong("the script has no file yet", 400)
            if self.script.other is not None and not asked.get("name"):
                raise Wrong("another program changed the file")
            try:
                self.script.save(path)
            except OSError as error:
                raise Wrong("it can't be saved: %s" % error.strerror, 500) from None
            self.say("Saved as %s." % path)
            self.tell()
            return self.state(self.script.number)

    def settle(self, asked: dict[str, Any]) -> dict[str, Any]:
        """What becomes of two texts, this one and the one that another program put into the file."""
        with self.changed:
            script = self.script
            if script.other is not None:
                script.on_disk, script.other = script.other, None
                if asked["take"]:
                    script.put(script.on_disk)
                    self.follow()
                else:
                    self.tell()
            return self.state()

    def ask(self, asked: dict[str, Any]) -> dict[str, Any]:
        """The reply to a query that is no line of the script."""
        line = as_bytes(asked["line"])
        if b"\n" in line or key_of(line) is None or not is_query(line):
            raise Wrong("only queries are asked here: string, string N, segments, svg, show, bounds, at N, growth N", 400)
        with self.changed:
            def asked_of_all() -> str:
                self.session.stand_at()
                return self.session.answer(line)
            reply = self.from_program(asked_of_all)
            return {"reply": as_reply(reply) if reply.startswith("segments ") else reply[:LONGEST_LEVEL], "length": len(reply)}

    def from_program(self, asked: Callable[[], str]) -> str:
        """What the running program answers; it is started again where it has ended."""
        for _ in range(2):
            try:
                if self.session.program:
                    return asked()
            except Ended:
                self.session.close()
                if self.take_cancel():
                    self.stopped = [None, as_text(self.last_asked)]
                    threading.Thread(target=self.begin_again, args=(self.script.number,), daemon=True).start()
                    raise Wrong("this was stopped") from None
            if self.stopped:
                raise Wrong("what was asked before was stopped")
            self.follow()
        raise Wrong("the program doesn't run", 503)

    def segments(self, level: int | None = None, line: int | None = None) -> str:
        """The segments of a level, or of the picture that a line of the script asks for."""
        if line is not None:
            found = {self.places[place]: picture for place, picture in self.session.pictures.items() if place < len(self.places)}
            if line not in found:
                raise Wrong("this line asks for no picture", 404)
            return found[line]

        def asked() -> str:
            self.session.stand_at(level)
            return self.session.answer(b"segments")
        return self.from_program(asked)

    def picture(self, text: int | None, level: int | None, line: int | None, most: int) -> tuple[bytes, str, int]:
        """The segments for a page that has this text, or their number alone where they are more than `most`."""
        with self.changed:
            self.has_text(text)
            reply = self.segments(level, line)
            if reply.startswith("segments ") and int(reply.split("\n", 1)[0].split()[1]) > most:
                reply = reply.split("\n", 1)[0] + "\n"
            return reply.encode("latin-1"), self.session.lattice(), self.session.standing

    def level(self, text: int | None, number: int) -> dict[str, Any]:
        """A level's string, or its beginning, and how long it is."""
        with self.changed:
            self.has_text(text)

            def asked() -> str:
                if number > self.session.standing:
                    self.session.stand_at()
                return self.session.answer(b"string %d" % number)
            reply = self.from_program(asked).rstrip("\n")
            return {"level": number, "string": reply[:LONGEST_LEVEL], "length": len(reply)}

    def export(self, kind: str, level: int | None, line: int | None, words: Mapping[str, str]) -> Written:
        """The picture as a file of a kind, as the words say, and what a person should know of it; `segments` is the program's own reply."""
        with self.changed:
            reply, lattice = self.segments(level, line), self.session.lattice()
            title = titled(self.script.name, level) + ("" if line is None else ", line %d" % (line + 1))
            script = "\n".join(self.script.lines)
        if reply.startswith("refused "):
            raise Wrong("there is no picture: " + reply.rstrip("\n"))
        if kind == "segments":
            return Written(reply.encode("latin-1"))
        try:
            wish = wish_of(kind, words, title, script)
            rows = (tuple(map(int, row.split())) for row in reply.split("\n")[1:-1])
            # One at a time, so that what takes long doesn't take the whole machine.
            with self.writing:
                return written(kind, Figure(lattice, joined(rows)), wish)
        except MissingProgram as why:
            raise Wrong(str(why), 501) from None
        except Unfit as why:
            raise Wrong(str(why), 400) from None

    def stop(self) -> bool:
        """Ends the program and lets the pages go; says whether the text is kept elsewhere."""
        with self.changed:
            self.stopping = True
            self.changed.notify_all()
            self.session.close()
            return self.script.is_kept()


def counts(sent: Sequence[tuple[str, str]]) -> list[int] | None:
    """How many of all questions the edits of the last change asked, as [M, T], or None where none was accepted."""
    found = [(int(match.group(1)), int(match.group(2))) for match in (COUNTS.match(reply) for _, reply in sent) if match]
    return [min(sum(new for new, _ in found), found[-1][1]), found[-1][1]] if found else None


def example(name: str) -> str:
    """The path of an example; of a name that can be none, a path where nothing is."""
    return os.path.join(EXAMPLES, name + ".lsys" if re.fullmatch(r"\w+", name) else "none")


class Gallery:
    """The examples, in their order, each with what its comment says of it and its picture."""

    def __init__(self, words: list[str]) -> None:
        self.words, self.busy = words, threading.Lock()
        self.pictures: dict[str, str | None] = {}

    def entries(self) -> list[dict[str, Any]]:
        """Headings, and below each the examples."""
        entries: list[dict[str, Any]] = []
        for line in as_text(read(os.path.join(EXAMPLES, "gallery.txt")) or b"").splitlines():
            word = line.strip().rstrip("*").strip()
            if word.startswith("#"):
                entries.append({"heading": word.lstrip("# "), "examples": []})
            elif word and entries and os.path.exists(example(word)):
                entries[-1]["examples"].append({"name": word, "about": about(word)})
        return entries

    def picture(self, name: str) -> str | None:
        """The last picture of an example, or None where it has none."""
        with self.busy:
            if name not in self.pictures:
                script = read(example(name)) or b""
                ran = subprocess.run(self.words, input=script, stdout=subprocess.PIPE, stderr=subprocess.DEVNULL)
                found = PICTURE.findall(ran.stdout.decode("latin-1"))
                self.pictures[name] = found[-1] if found else None
            return self.pictures[name]


def about(name: str) -> str:
    """The comment at the head of an example, in one line."""
    lines = []
    for line in as_text(read(example(name)) or b"").splitlines():
        if not line.startswith(";"):
            break
        lines.append(line.lstrip("; "))
    return " ".join(lines)
