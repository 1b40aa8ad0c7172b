"""A running `lsys`, asked a line at a time, and how a session is brought to what a changed script says."""

from __future__ import annotations

import re
import subprocess
import time
from collections.abc import Iterable, Sequence
from typing import Any

from replies import LONGEST_LINE, Lines, is_command, reply_from

# What a line is about, as key_of tells it: a word, and a label, a table or the line where these are wanted.
Key = tuple[str, Any]
# What an edit of this word is worth again that a script no longer has. A version is never taken back.
OPENING = {"axiom": b"axiom", "ignore": b"ignore", "schedule": b"schedule main", "seed": b"seed 0", "depth": b"depth 0",
           "lattice": b"lattice square", "lineage": b"lineage places"}
QUERIES = ("string", "segments", "svg", "show", "bounds", "at", "growth")
STEPS = (b"undo", b"redo")
# So many systems are kept to go back or on to.
MOST_STEPS = 32
PICTURES = (b"segments", b"svg")
RULE = re.compile(rb"[ \t]*(production|hom)[ \t]+(?:\w+[ \t]+)?(\w+)[ \t]*:")
OWN_LIST = re.compile(rb"[ \t]*(?:(?:ignoring|consider)[ \t]+(\w+)[ \t]*:|common[ \t]+(\w+)[ \t]*$)")
# Refusals that a line has by itself, whatever the lines before it are.
BY_ITSELF = ("refused syntax ", "refused name ", "refused duplicate ")
LONGEST_SHOWN = 2000
# Of replies and pictures that may be asked for again, no more bytes are kept than this and one more reply.
MOST_KEPT = 64000000
# A line that is no command, and is refused as such.
NO_COMMAND = b"_\n"


class Ended(Exception):
    """The program has ended, or was ended."""


def key_of(line: bytes) -> Key | None:
    """What a line is about: ("production", label), ("hom", label), ("own", table), (word, None) for the other edits and the queries,
    None for what depends on its place among the lines, and ("wrong", line) for what is no command."""
    if len(line) > LONGEST_LINE:
        return ("wrong", line)
    rule, own = RULE.match(line), OWN_LIST.match(line)
    if rule:
        return rule.group(1).decode(), rule.group(2).decode("latin-1")
    if own:
        return "own", (own.group(1) or own.group(2)).decode("latin-1")
    word = (line.split() or [b""])[0].decode("latin-1")
    head = re.match(r"axiom|ignore", word)
    word = head.group() if head else word
    if word in OPENING or word in QUERIES or word == "version":
        return word, None
    return None if word == "drop" or is_step(line) else ("wrong", line)


def is_step(line: bytes) -> bool:
    """Whether a line is an undo or a redo."""
    return line.strip(b" \t") in STEPS


def is_growth(line: bytes) -> bool:
    return line.split()[:1] == [b"growth"]


def is_query(line: bytes) -> bool:
    return (key_of(line) or ("",))[0] in QUERIES


def as_reply(reply: str) -> str:
    """A reply as a person sees it beside its line."""
    if reply.startswith("segments ") or reply.startswith("<svg "):
        return reply.split("\n", 1)[0]
    if len(reply) > LONGEST_SHOWN:
        return "%s .. (%d bytes in all)" % (reply[:LONGEST_SHOWN], len(reply) - 1)
    return reply.rstrip("\n")


class Program:
    """One running program. A reply is told to its end by its first line, so none is waited for in vain."""

    def __init__(self, words: Sequence[str]) -> None:
        self.running = subprocess.Popen(words, stdin=subprocess.PIPE, stdout=subprocess.PIPE)
        assert self.running.stdin and self.running.stdout
        self.input, self.output = self.running.stdin, self.running.stdout
        self.lines = Lines(self.next_line)
        self.asking: tuple[bytes, float] | None = None

    def next_line(self) -> bytes:
        line = self.output.readline()
        if not line.endswith(b"\n"):
            raise Ended
        return line

    def ask(self, line: bytes) -> str:
        """Sends a command and gives its reply, with what is asked and since when told in `asking` meanwhile. After a growth one is sent whose
        reply is a refusal, by which the end is known."""
        self.asking = line, time.monotonic()
        try:
            return self.reply_to(line)
        finally:
            self.asking = None

    def reply_to(self, line: bytes) -> str:
        probe = NO_COMMAND if is_growth(line) else b""
        try:
            self.input.write(line + b"\n" + probe)
            self.input.flush()
        except OSError:
            raise Ended from None
        reply = b"".join(reply_from(self.lines)).decode("latin-1")
        if probe:
            self.lines.next()
        return reply

    def has_ended(self) -> bool:
        return self.running.poll() is not None

    def close(self) -> None:
        """Lets the program end by itself, and waits for it."""
        for pipe in (self.input, self.output):
            try:
                pipe.close()
            except OSError:
                pass
        self.running.wait()


class Session:
    """The program that follows a script. `replies` has a reply for each command of the script, as a person sees it, `sent` the edits
    that were sent for the last change with their replies, `pictures` those that queries within the script had, by the number of
    the command, and `held` each edit that was accepted last for what it is about, rules in the order in which they stand."""

    def __init__(self, words: Sequence[str]) -> None:
        self.words = words
        self.program: Program | None = None
        self.commands: list[bytes] = []
        self.replies: list[str] = []
        self.sent: list[tuple[str, str]] = []
        self.forget()
        self.forget_pictures()

    def forget(self) -> None:
        self.held: dict[Key, bytes] = {}
        self.told: dict[Key | None, str] = {}
        self.tried: dict[Key | None, bytes] = {}
        self.answers: dict[tuple[int, bytes], str] = {}
        self.standing, self.is_exact = 0, True
        self.past: list[dict[Key, bytes]] = []
        self.future: list[dict[Key, bytes]] = []

    def forget_pictures(self) -> None:
        self.pictures: dict[int, str] = {}
        self.kept_of_pictures = 0

    def start(self) -> None:
        self.close()
        self.program = Program(self.words)
        self.forget()

    def at_work(self) -> Program:
        """The program, which has to run."""
        if self.program is None:
            raise Ended
        return self.program

    def close(self) -> None:
        if self.program:
            self.program.close()
            self.program = None

    def interrupt(self) -> None:
        """Ends the program whatever it does; who waits for its reply is told so."""
        program = self.program
        if program:
            program.running.kill()

    def asking(self) -> tuple[bytes, float] | None:
        """The line that is being answered, and the moment from which on, or None."""
        program = self.program
        return program.asking if program else None

    def depth(self) -> int:
        """The depth of the system, whatever level is being looked at."""
        line = self.held.get(("depth", None))
        return int(line.split()[1]) if line else 0

    def lattice(self) -> str:
        line = self.held.get(("lattice", None))
        return line.split()[1].decode() if line else "square"

    def stand_at(self, level: int | None = None) -> None:
        """Lets the program derive no further than to this level, until it is asked for another one or an edit comes."""
        wanted = self.depth() if level is None else min(level, self.depth())
        if self.program and self.standing != wanted:
            self.program.ask(b"depth %d" % wanted)
            self.standing = wanted

    def answer(self, line: bytes) -> str:
        """The reply to a query, which is asked once between edits. A picture is told by its segments."""
        words = b" ".join(line.split())
        asked = b"segments" if words in PICTURES else line
        if (self.standing, asked) not in self.answers:
            if sum(map(len, self.answers.values())) > MOST_KEPT:
                self.answers = {}
            self.answers[self.standing, asked] = self.at_work().ask(asked)
        return self.answers[self.standing, asked]

    def ask(self, line: bytes) -> str:
        """Sends an edit, keeps what it changed, and gives the reply."""
        key = key_of(line)
        reply = self.at_work().ask(line).rstrip("\n")
        self.sent.append((line.decode("latin-1"), reply))
        self.told[key], self.tried[key] = reply, line
        if not reply.startswith("ok "):
            return reply
        self.answers = {}
        if is_step(line):
            self.step(line)
        else:
            self.past, self.future = (self.past + [self.held])[-MOST_STEPS:], []
            self.held = self.held_after(key, line)
        if key == ("depth", None) or is_step(line):
            self.standing = self.depth()
        return reply

    def held_after(self, key: Key | None, line: bytes) -> dict[Key, bytes]:
        """What is held after an accepted edit."""
        if key is not None:
            return {**self.held, key: line}
        label = line.split()[1].decode("latin-1")
        return {about: kept for about, kept in self.held.items() if about[0] not in ("production", "hom") or about[1] != label}

    def step(self, line: bytes) -> None:
        """Goes back or on to what was held."""
        left, gained = (self.past, self.future) if line.strip(b" \t") == b"undo" else (self.future, self.past)
        gained.append(self.held)
        self.held = left.pop()

    def ask_in_turn(self, line: bytes) -> None:
        """Sends a line of the script at its place among the others, and keeps its reply."""
        if is_query(line):
            reply = self.answer(line)
            if reply.startswith("segments ") and self.kept_of_pictures <= MOST_KEPT:
                self.kept_of_pictures += len(reply)
                self.pictures[len(self.replies)] = reply
        else:
            reply = self.ask(line)
        self.replies.append(as_reply(reply))

    def follow(self, commands: list[bytes]) -> str:
        """Brings the session to what the commands of a script say: by its changed lines where that is enough, and else from its
        beginning. Says in a word which of the two it was. Raises Ended where the program ends in between. An undo goes back over the
        edits of the program, so a script with one is always run from its beginning."""
        self.sent = []
        if self.program and not any(map(is_step, commands)):
            if self.program.has_ended():
                raise Ended
            self.stand_at()
            if self.goes_on(commands):
                return "edited"
            changes = self.changes(commands)
            if changes is not None and all(self.is_kept(line) for line in changes):
                self.replies_again(commands)
                return "edited"
        self.from_the_beginning(commands)
        return "begun anew"

    def goes_on(self, commands: list[bytes]) -> bool:
        """Asks the further ones of these commands where those before them have been asked already, and none after them changed anything.
        Says whether that was so."""
        common = 0
        while common < min(len(commands), len(self.commands)) and commands[common] == self.commands[common]:
            common += 1
        if not self.is_exact or not all(is_query(line) or reply.startswith("refused ") for line, reply in self.asked()[common:]):
            return False
        self.replies = self.replies[:common]
        self.pictures = {place: picture for place, picture in self.pictures.items() if place < common}
        for line in commands[common:]:
            self.ask_in_turn(line)
        self.commands = commands
        return True

    def asked(self) -> list[tuple[bytes, str]]:
        """The script's commands with their replies."""
        return list(zip(self.commands, self.replies))

    def depends_on_places(self) -> bool:
        """Whether a line of the script is refused for want of another one before it, or was taken for no command and is one: only the
        whole script is trusted then."""
        for line, reply in self.asked():
            if not is_query(line) and reply.startswith("refused ") and not reply.startswith(BY_ITSELF):
                return True
            if reply.startswith("ok ") and (key_of(line) or ("",))[0] == "wrong":
                return True
        return False

    def is_kept(self, line: bytes) -> bool:
        """Sends an edit. A refusal that the other edits may have caused says that it has to be tried from the beginning."""
        reply = self.ask(line)
        return reply.startswith(BY_ITSELF) or reply.startswith("ok ") and (key_of(line) or ("",))[0] != "wrong"

    def replies_again(self, commands: list[bytes]) -> None:
        """The replies to commands whose edits have all been sent."""
        self.commands, self.replies = commands, []
        self.forget_pictures()
        self.is_exact = True
        keys = set(map(key_of, commands))
        self.told = {key: reply for key, reply in self.told.items() if key and (key[0] != "wrong" or key in keys)}
        for line in commands:
            if is_query(line):
                self.ask_in_turn(line)
            else:
                self.is_exact &= self.told[key_of(line)].startswith("ok ")
                self.replies.append(self.told[key_of(line)])

    def from_the_beginning(self, commands: list[bytes]) -> None:
        self.start()
        self.commands, self.replies, self.sent = commands, [], []
        self.forget_pictures()
        for line in commands:
            self.ask_in_turn(line)

    def changes(self, commands: list[bytes]) -> list[bytes] | None:
        """The edits that make what is held to what these commands say, or None where only a new beginning does."""
        told = [(key_of(line), line) for line in commands]
        about = [(key, line) for key, line in told if key is not None]
        if self.depends_on_places() or len(about) < len(told) or not are_in_order([key for key, _ in about]):
            return None
        edits = {key: line for key, line in about if key[0] not in QUERIES}
        gone = [key for key, line in self.held.items() if key not in edits and line != opening_of(key)]
        if ("version", None) in gone or not self.rules_keep_their_order(edits):
            return None
        back = sorted((line for line in map(opening_of, gone) if line is not None), key=lambda line: line.startswith(b"drop"))
        return back + [line for key, line in edits.items() if not self.stands(key, line)]

    def stands(self, key: Key, line: bytes) -> bool:
        """Whether this line was sent last of all about its key, and is held or was refused by itself."""
        # Of a line that was wrong and left the script meanwhile the reply is no longer known.
        return self.tried.get(key) == line and (self.held.get(key) == line or not self.told.get(key, "ok ").startswith("ok "))

    def rules_keep_their_order(self, edits: Iterable[Key]) -> bool:
        """Whether rules that stay do so in their order, with those that are new after them."""
        for kind in ("production", "hom"):
            stays = [key for key in self.held if key[0] == kind and key in edits]
            wanted = [key for key in edits if key[0] == kind]
            if wanted[:len(stays)] != stays:
                return False
        return True


def opening_of(key: Key) -> bytes | None:
    """The edit that takes back what a key is about."""
    word, name = key
    if word == "own":
        return b"common " + name.encode("latin-1")
    return OPENING.get(word) if name is None else b"drop " + name.encode("latin-1")


def are_in_order(keys: Sequence[Key]) -> bool:
    """Whether commands about these keys mean the same by their last edit of each as one after another: no two are about the same, queries
    come last, and so do edits that need others."""
    found = [key for key in keys if key[0] != "wrong"]
    edits = [key for key in found if key[0] not in QUERIES]
    labels = [name for word, name in edits if word in ("production", "hom")]
    return edits == found[:len(edits)] and len(set(edits)) == len(edits) and len(set(labels)) == len(labels) and needs_come_first(edits)


def needs_come_first(edits: list[Key]) -> bool:
    """Whether the version is set first, tables are named after the rules, and the depth after all that levels come from: no line before
    `depth` derives anything then, and none is refused for want of a later one."""
    words = [word for word, _ in edits]
    rules = [place for place, word in enumerate(words) if word == "production"]
    named = [place for place, word in enumerate(words) if word in ("schedule", "own")]
    after_depth = words[words.index("depth") + 1:] if "depth" in words else []
    return "version" not in words[1:] and (not rules or not named or rules[-1] < named[0]) and set(after_depth) <= {"lattice", "hom"}


def commands_before_end(lines: Iterable[bytes]) -> list[tuple[int, bytes]]:
    """The commands of a script's lines with their places, up to `quit`, after which nothing is a command."""
    found = []
    for place, line in enumerate(lines):
        if line.strip(b" \t") == b"quit":
            break
        if is_command(line):
            found.append((place, line))
    return found
