"""What is told of a line that is no command: what was expected, what it looks like in other notations, and the line that was meant where
that is without doubt."""

from __future__ import annotations

import re
from collections.abc import Iterable, Sequence
from typing import Optional

from known import NAME, Known
from machine import COMMANDS, SIGNS, Kind, Stop, is_line

# What is told, and the line that was meant, if one was.
Told = tuple[str, Optional[str]]
QUERIES_OF_DESK = ["bounds", "at", "growth", "undo", "redo"]
WORDS = sorted(COMMANDS + QUERIES_OF_DESK)
# Arrows of other notations, and signs that look like those of the language.
ARROWS = ["-->", "==>", "->", "\u2192", "\u21d2", "\u27f6", "\u21a6", "\u279c", "\\to", ":="]
LOOKALIKES = {"\u2212": "-", "\u2013": "-", "\u2014": "-", "\u00a0": " ", "\uff0b": "+", "\uff08": "(", "\uff09": ")", "\uff3b": "[", "\uff3d": "]",
              "\uff1a": ":",
              "\u00d7": "*", "\u2264": "<=", "\u2265": ">=", "\u2260": "!="}
# Words of other tools: what is told, and the line that is meant.
LENGTHS = "lines are as long as a step of the lattice: F(2) draws one of two steps"
FOREIGN = {
    "angle": "angle", "delta": "angle", "degrees": "angle", "turn": "angle", "rotate": "angle",
    "start": "axiom", "init": "axiom", "initial": "axiom", "omega": "axiom", "w": "axiom", "seedstring": "axiom", "begin": "axiom",
    "iterations": "depth", "iteration": "depth", "iterate": "depth", "generations": "depth", "generation": "depth", "n": "depth", "order": "depth",
    "steps": "depth",
    "derivation": "depth", "recursion": "depth", "recursions": "depth", "level": "depth", "levels": "depth", "gen": "depth", "niter": "depth",
    "rule": "production", "rules": "production", "replace": "production", "rewrite": "production",
    "draw": "svg", "render": "svg", "picture": "svg", "plot": "svg", "paint": "svg", "image": "svg", "print": "string", "output": "string",
    "write": "string",
    "exit": "quit", "bye": "quit", "end": "quit", "stop": "quit", "delete": "drop", "remove": "drop", "homomorphism": "hom", "table": "schedule",
    "constants": "ignore",
    "random": "seed", "randomseed": "seed"}
NO_SUCH = {
    "color": "there are no colours: width is all that a line has, and !(3) sets it",
    "colour": "there are no colours: width is all that a line has, and !(3) sets it",
    "width": "the width is set in the string, by !(3)", "linewidth": "the width is set in the string, by !(3)",
    "thickness": "the width is set in the string, by !(3)",
    "length": LENGTHS, "step": LENGTHS, "scale": LENGTHS, "size": LENGTHS, "distance": LENGTHS,
    "tropism": "there is no tropism: a production or a homomorphism bends a branch",
    "gravity": "there is no gravity: a production or a homomorphism bends a branch",
    "define": "there are no constants: write the number itself, or give it as a parameter, as in F(3)",
    "let": "there are no constants: write the number itself, or give it as a parameter, as in F(3)",
    "var": "no letters are announced: each letter is one", "variables": "no letters are announced: each letter is one",
    "alphabet": "no letters are announced: each letter is one",
    "import": "a script is one file: put the other one's lines here", "include": "a script is one file: put the other one's lines here",
    "help": "the language is told in docs/LANGUAGE.md, in the page under Help, and by `lsys-run --help`",
    "if": "a condition stands in a production, as in production p: A(x) : x > 0 => B",
    "for": "a derivation repeats by itself: depth 5 makes five steps", "while": "a derivation repeats by itself: depth 5 makes five steps",
    "clear": "a script begins with nothing: take its lines out, or begin another one",
    "reset": "a script begins with nothing: take its lines out, or begin another one",
    "save": "the page and lsys-repl save a script; `svg` draws the picture", "open": "the page and lsys-repl open a script",
    "load": "the page and lsys-repl open a script"}
DECIMALS = "numbers are whole, and this has a part after its point"


def distance(first: str, second: str) -> int:
    """How many signs have to be put, taken, changed or exchanged with their neighbour."""
    rows = [list(range(len(second) + 1))]
    for i, one in enumerate(first, 1):
        row = [i]
        for j, other in enumerate(second, 1):
            found = min(rows[-1][j] + 1, row[-1] + 1, rows[-1][j - 1] + (one != other))
            if i > 1 and j > 1 and one == second[j - 2] and first[i - 2] == other:
                found = min(found, rows[-2][j - 2] + 1)
            row.append(found)
        rows.append(row)
    return rows[-1][-1]


def nearest(word: str, words: Sequence[str]) -> str | None:
    """The word that was meant, or None: the only one that few changes lead to, or that begins so."""
    if not word:
        return None
    lower = word.lower()
    ranked = sorted((distance(lower, each.lower()), each) for each in words)
    most = 1 if len(word) < 5 else 2 if len(word) < 9 else 3
    if ranked and ranked[0][0] <= most and (len(ranked) == 1 or ranked[1][0] > ranked[0][0]):
        return ranked[0][1]
    begun = [each for each in words if len(lower) > 2 and each.lower().startswith(lower)]
    return begun[0] if len(begun) == 1 else None


def quoted(words: Iterable[str], last: str = "or") -> str:
    words = ["`%s`" % word for word in words]
    return words[0] if len(words) == 1 else "%s %s %s" % (", ".join(words[:-1]), last, words[-1])


def listed(parts: Sequence[str]) -> str:
    """Parts of a sentence one after another, or between the last ones."""
    return parts[0] if len(parts) == 1 else ", ".join(parts[:-1]) + " or " + parts[-1]


def text_of(line: bytes) -> str:
    return line.decode("utf-8", "surrogateescape")


def is_meant(text: str) -> bool:
    """Whether a text is a command, and can be offered so."""
    word = text.split()[:1]
    return bool(word) and (word[0] in QUERIES_OF_DESK or is_line(text.encode("utf-8", "surrogateescape")))


def offered(told: str, text: str) -> Told:
    """What is told, with the line that is meant where it is one."""
    return told, text if is_meant(text) else None


def label_for(name: str, known: Known) -> str:
    """A label of its own for a rule of this name."""
    stem = re.sub(r"\W", "", name).lower() or "p"
    labels = [stem] + [stem + str(number) for number in range(2, 99)]
    return next(label for label in labels if label not in known.rules)


# A production in another notation: a label perhaps, a pattern, an arrow of some kind, and what becomes of it.
FOREIGN_RULE = re.compile(r"\s*(?:[pP]\d*\s*[:.)]\s*)?(%s(?:\([^()]*\))?)\s*"
                          r"(-->|->|==>|=>|:=|[\u2192\u21d2\u27f6\u21a6\u279c]|\\to\b|=|:)\s*(\S.*?)\s*;?\s*$" % NAME)


def foreign_rule(text: str, known: Known) -> str | None:
    """The production line that a rule in another notation is, or None: `F=F+F`, `F -> FF`, `F:F+F`."""
    found = FOREIGN_RULE.match(text)
    if not found:
        return None
    pattern, _, successor = found.groups()
    made = "production %s: %s => %s" % (label_for(pattern.partition("(")[0], known), pattern, successor)
    return made if is_meant(made) else None


# What is told of each state of the machine where no case below fits.
DUE = {"ProductionDue": "a label of your choice, as in `production p: A => AB`", "OneWord": "`:` after the label",
       "TwoWords": "`:` after the label",
       "LabelDue": "a label of your choice, as in `hom h: A => F`", "LabelRead": "`:` after the label", "DropDue": "the label of a rule",
       "ScheduleDue": "the names of tables",
       "InSchedule": "the name of a table, or the end of the line", "SeedDue": "a whole number",
       "DepthDue": "a whole number, of the steps that are made", "StringRead": "a level's number, or the end of the line",
       "VersionDue": "`1` or `2`", "TableDue": "the name of a table", "TableRead": "`:` and names", "CommonDue": "the name of a table",
       "InNames": "a name, a turtle's sign, or the end of the line"}
MODULE_SIGNS = {"Plus", "Minus", "Ampersand", "Caret", "Backslash", "Slash", "Bar", "Bang"}
MEANT = [("Arrow", "`=>`"), ("Colon", "`:` and a condition"), ("At", "`@` and a weight"), ("Name", "a module"), ("LeftParen", "`(` and parameters"),
         ("Less", "`<` after a left context"), ("Greater", "`>` and a right context"), ("LeftBracket", "`[`"), ("RightBracket", "`]`"),
         ("Percent", "`%`, a cut"),
         ("Comma", "`,` and one more"), ("RightParen", "`)`"), ("Number", "a whole number")]
OPERATORS = {"Plus", "Minus", "Times", "Slash", "Percent", "Caret", "Equal", "Unequal", "Less", "Greater", "AtMost", "AtLeast", "Ampersand", "Bar"}


def of_expression(kinds: set[str]) -> list[str]:
    """What may follow within an expression."""
    if "Number" in kinds:
        return ["a whole number", "a parameter's name", "`(`", "`-`", "`!`"]
    if kinds in ({"Ampersand"}, {"Bar"}):
        return ["a second `%s`" % SIGNS[next(iter(kinds))]]
    ends = [meant for kind, meant in MEANT if kind in kinds & {"At", "Arrow", "Comma", "RightParen"}]
    return ["an operator, as `+` or `<`"] + ends


def expected_at(stop: Stop) -> str:
    """What could follow, in words, by what the machine takes."""
    kinds, words, may_end = stop.expected()
    state = stop.state[0]
    if state == "Fresh":
        return "a command, as `axiom`, `production`, `depth` or `svg`"
    if state in DUE:
        return DUE[state]
    if state == "Whole":
        return "nothing more"
    if words:
        return quoted(words)
    rule = stop.state[-1] if state in ("InProduction", "InHomomorphism") else stop.state
    if rule[0] == "InExpr":
        return listed(of_expression(kinds))
    parts = [meant for kind, meant in MEANT if kind in kinds] + (["the end of the line"] if may_end else [])
    if rule[0] == "FormalDue":
        parts = ["a parameter's name"]
    if state == "InAxiom" and "Number" in kinds:
        parts = ["a whole number"]
    return listed(parts) if parts else "the end of the line"


class Case:
    """A line that is no command: its text, the place where it stops to be one, and what stands there."""

    def __init__(self, line: bytes, known: Known) -> None:
        self.line, self.text, self.known, self.stop = line, text_of(line), known, Stop(line)
        self.at = self.stop.bad if self.stop.bad is not None else self.stop.place()
        self.before, self.after = text_of(line[:self.at]), text_of(line[self.at:])
        self.here = self.after[:1]
        self.word = "".join(re.findall(r"^\s*([A-Za-z]\w*)", self.text))
        self.state = self.stop.state[0]
        self.rule: Kind = self.stop.state[-1] if self.state in ("InProduction", "InHomomorphism") else ("",)

    def kind(self) -> str:
        """The kind of the token that can't follow."""
        token = self.stop.token()
        return token.kind[0] if token else ""

    def with_here(self, old: str, new: str) -> str:
        """The line with something else in the place of what stands here."""
        return self.before + new + self.after[len(old):]


def other_arrow(case: Case) -> Told | None:
    """An arrow of another notation within a production."""
    if case.word not in ("production", "hom"):
        return None
    for arrow in ARROWS + ["="]:
        place = case.text.find(arrow, case.text.find(":") + 1) if ":" in case.text else -1
        is_other = arrow != "=" or case.text[place:place + 2] not in ("==", "=>") and case.rule[0] != "InExpr"
        if place >= 0 and len(case.before) in range(place, place + len(arrow)) and is_other:
            text = case.text[:place].rstrip() + " => " + case.text[place + len(arrow):].lstrip()
            return offered("the arrow of a rule is `=>`", text)
    return None


def desk_line(case: Case) -> Told | None:
    """The lines that the machine doesn't know: what goes back, and what is told of pictures and of growth."""
    if case.word not in QUERIES_OF_DESK:
        return None
    if case.word in ("at", "growth"):
        what = {"at": "the number of symbols after which the turtle stands", "growth": "the number of a level"}[case.word]
        return "`%s` is followed by %s, as in `%s 100`" % (case.word, what, case.word), None
    return offered("nothing follows `%s`" % case.word, case.word)


def equality(case: Case) -> Told | None:
    """One sign of equality for two."""
    if case.here == "=" and case.rule[0] == "InExpr":
        return offered("equality is told by `==`", case.with_here("=", "=="))
    return None


def alone(case: Case) -> Told | None:
    """Something after a word that stands alone."""
    if case.word not in ("svg", "segments", "show", "quit") or case.text.strip() == case.word:
        return None
    told = "nothing follows `%s`" % case.word
    if case.word in ("svg", "segments"):
        told = "`%s` takes no name: lsys-run puts a picture into a file beside the script, and Export does on the page" % case.word
    return offered(told, case.word)


def decimals(case: Case) -> Told | None:
    """A number with a part after its point."""
    number = "".join(re.findall(r"\d*$", case.before)[:1] + re.findall(r"^\.\d*", case.after))
    if case.here != "." or not re.search(r"\d", number) or case.word not in WORDS:
        return None
    if case.word in ("depth", "seed", "string", "version"):
        return "%s: `%s` wants a whole one, as in `%s 5`" % (DECIMALS, case.word, case.word), None
    if re.search(r"@\s*\d*$", case.before):
        return DECIMALS + ": weights are shares, so write 33 and 67 for .33 and .67", None
    if re.search(r"[-+&^/\\|]\(\d*$", case.before):
        return DECIMALS + ": turns are counted in those of the lattice, 90 degrees on `square` and `cubic`, 60 on `hexagonal`, so +(1) or +(2)", None
    return DECIMALS + ": take a smaller unit, as F(3) for 1.5 and F(2) for 1", None


def semicolon(case: Case) -> Told | None:
    if case.here != ";" or not case.before.strip():
        return None
    if not case.after[1:].strip():
        return offered("a line ends without `;`", case.before.rstrip())
    return "a comment stands on a line of its own, which begins with `;`: put it above", None


def comment(case: Case) -> Told | None:
    """A comment as other languages have it."""
    found = re.match(r"\s*(//|#+|--+|/\*+|%+|\"+|'+)\s?(.*?)(\*/)?$", case.text)
    if not found:
        return None
    return "a comment begins with `;`", "; " + found.group(2).rstrip()


def preprocessor(case: Case) -> Told | None:
    found = re.match(r"\s*#(\w+)\s*:?\s*(.*)", case.text)
    if not found or found.group(1).lower() not in ("define", "include", "ignore", "const", "import", "set"):
        return None
    if found.group(1) == "ignore":
        return offered("`ignore` stands without # and :", "ignore " + found.group(2))
    return "there are no constants and no other files: write the number itself in each line, or give it as a parameter, as in F(3)", None


def lookalike(case: Case) -> Told | None:
    """A sign that looks like one of the language."""
    if case.here not in LOOKALIKES:
        return None
    text = "".join(LOOKALIKES.get(sign, sign) for sign in case.text)
    return offered("this is another sign than `%s`, which was meant" % LOOKALIKES[case.here], text)


STRANGE = {"{": "there are no surfaces: `{` and `}` belong to another tool, and `[` `]` begin and end a branch",
           "}": "there are no surfaces: `{` and `}` belong to another tool, and `[` `]` begin and end a branch",
           "~": "`~` draws a surface elsewhere, and there are none here: a homomorphism says what a letter looks like, as in `hom h: L => F`",
           "$": "`$` turns upright elsewhere: here turns are `+ - & ^ \\ / |`",
           "\"": "texts stand without quotes", "'": "texts stand without quotes",
           ".": "a point belongs to no word of the language, and numbers are whole: take it out",
           "?": "queries are `string`, `svg`, `show`, `bounds`, `at N`",
           "#": "a comment begins with `;` and stands on a line of its own",
           "_": "a name is a letter, or a letter, `_` and up to six letters or digits"}


def strange_sign(case: Case) -> Told | None:
    """A sign that is in no token: of another tool, or of none."""
    if case.stop.bad is None:
        return None
    if case.here in "\"'" and is_meant(re.sub("[\"']", "", case.text)):
        return offered(STRANGE["\""], re.sub("[\"']", "", case.text))
    sign = case.here if case.here.isprintable() else "this"
    unknown = "`%s` belongs to no word of the language: letters, digits and + - & ^ \\ / | ! [ ] %% do" % sign
    return STRANGE.get(case.here, unknown), None


def setting(case: Case) -> Told | None:
    """A colon or an equals sign after a word that takes its value at once: `axiom: F`, `depth = 5`."""
    found = re.match(r"\s*(%s)\s*(:=|=|:)\s*(.*)" % "|".join(("axiom", "depth", "seed", "lattice", "string", "ignore", "schedule", "version", "drop",
                                                              "lineage")), case.text)
    if not found or len(case.before.strip()) > len(found.group(1)):
        return None
    return offered("`%s` takes what it sets at once, without `%s`" % found.group(1, 2), "%s %s" % found.group(1, 3))


def angle_told(case: Case) -> Told:
    """`angle 60`: turns are those of a lattice."""
    found = re.search(r"\d+(\.\d+)?", case.text)
    degrees = found.group() if found else ""
    told = "there is no angle: a turn is that of the lattice, 90 degrees on `square` and `cubic`, 60 on `hexagonal`"
    if degrees in ("60", "120"):
        return told + (", where +(2) turns by 120" if degrees == "120" else ""), "lattice hexagonal"
    if degrees in ("90", "180"):
        return told, "lattice square"
    return told + ("; %s degrees can't be turned by: take the one or the other lattice" % degrees if degrees else ""), None


def foreign_word(case: Case) -> Told | None:
    """A word by which another tool begins such a line."""
    word = case.word.lower()
    if case.state != "Fresh" or not word:
        return None
    rest = re.sub(r"^\s*\w+\s*(length)?\s*[:=]*\s*", "", case.text).rstrip("; ")
    meant = FOREIGN.get(word)
    if meant == "angle":
        return angle_told(case)
    if meant == "production":
        rule = foreign_rule(rest, case.known)
        return "a rule is a `production` with a label", rule
    if meant:
        text = meant if meant in ("svg", "quit") or meant == "string" and not rest.isdigit() else "%s %s" % (meant, rest)
        return offered("`%s` is called `%s` here" % (word, meant), text)
    return (NO_SUCH[word], None) if word in NO_SUCH else None


def bare_rule(case: Case) -> Told | None:
    """A rule without `production`."""
    if case.word in ("production", "hom") or case.state != "Fresh" and case.word not in WORDS:
        return None
    if case.word in WORDS and len(case.word) > 1:
        return None
    rule = foreign_rule(case.text, case.known)
    return ("a rule is a `production` with a label, and its arrow is `=>`", rule) if rule else None


def first_word(case: Case) -> Told | None:
    """A first word that is none of the language: misspelt, or another one."""
    if case.stop.number != 0:
        return None
    if not case.word:
        return "a line begins with a command, as `axiom`, `production`, `depth` or `svg`, and a comment with `;`", None
    near = nearest(case.word, WORDS)
    if near:
        text = re.sub(r"^(\s*)\w+", r"\g<1>" + near, case.text, count=1)
        return offered("did you mean `%s`?" % near, text)
    return "`%s` is no command: a line begins with one, as `axiom`, `production`, `depth` or `svg`" % case.word[:20], None


def label(case: Case) -> Told | None:
    """A label that is missing, or isn't one."""
    rest = case.text.partition(case.word)[2].strip()
    kind = case.kind()
    if kind == "LeftParen" and ":" in case.after.partition("=>")[0] and case.state in ("OneWord", "LabelRead"):
        return "a label is a word alone: parameters stand after the module, as in `production p: A(x) => B(x)`", None
    if case.state in ("OneWord", "ProductionDue", "LabelDue", "LabelRead") and kind in ("Arrow", "LeftParen", "Less", "Greater", "At", "Assign",
                                                                                        "Minus", "Colon", ""):
        body = re.sub(r"^:\s*", "", re.sub(r"\s*(->|\u2192|=(?![>=]))\s*", " => ", rest))
        found = re.match(r"(%s)" % NAME, body)
        if found and "=>" in body:
            return offered("a label is missing: each rule has one of your choice, with a `:` after it",
                           "%s %s: %s" % (case.word, label_for(found.group(1), case.known), body))
    if kind == "LongWord":
        return "a label or a table has at most 16 signs: take a shorter one", None
    if case.state in ("ProductionDue", "LabelDue") and kind == "Number":
        return offered("a label begins with a letter", re.sub(r"^(\s*\w+\s+)(\d+)", r"\1p\2", case.text))
    if case.state == "TwoWords" and kind in ("Word", "Number"):
        return "between `%s` and `:` stands a label, or a table and a label: one word or two" % case.word, None
    if case.state == "TwoWords" and "=>" in rest:
        words = rest.split(None, 1)
        return offered("a `:` is missing after the label", "%s %s: %s" % (case.word, words[0], words[1]))
    return None


def brackets(case: Case) -> Told | None:
    """A bracket that isn't closed, or that closes nothing."""
    if case.here == "]" and case.rule[0] != "InExpr":
        return "no `[` is open before this `]`: take it out, or put a `[` before", None
    if case.after.strip():
        return None
    opened = []
    begin = case.text.find("=>") if case.word in ("production", "hom") else 0
    for place, sign in enumerate(case.text):
        if place >= begin and sign in "[(":
            opened.append((place, sign))
        elif place >= begin and sign in "])" and opened:
            opened.pop()
    if not opened:
        return None
    place, sign = opened[-1]
    return "the `%s` at column %d isn't closed: a `%s` is missing after it" % (sign, len(case.text[:place].encode("utf-8", "surrogateescape")) + 1,
                                                                                {"[": "]", "(": ")"}[sign]), None


def second_arrow(case: Case) -> Told | None:
    if case.rule[0] == "Successor" and case.kind() == "Arrow":
        return "a rule has one `=>`: put what stands after the second one into a rule of its own", None
    return None


def after_arrow(case: Case) -> Told | None:
    """A condition or a weight after what is put."""
    kind = case.kind()
    if case.rule[0] == "Successor" and kind in ("Colon", "At"):
        what = {"Colon": "condition", "At": "weight"}[kind]
        found = re.match(r"(.*?)\s*=>\s*(.*?)\s*([:@])\s*(.*)$", case.text)
        text = "%s %s %s => %s" % (found.group(1), found.group(3), found.group(4), found.group(2)) if found else ""
        return offered("the %s stands before `=>`" % what, text)
    return None


def pattern(case: Case) -> Told | None:
    """Patterns that are none: several modules, numbers in them, contexts in another order."""
    kind = case.kind()
    if case.state == "InHomomorphism" and kind in ("Less", "Greater", "At", "Percent"):
        return "a rule of the homomorphism has no contexts, weights and cuts: those are for productions", None
    if case.rule[0] == "FormalDue" and kind == "Number":
        found = re.search(r"\((\d+)\)", case.text)
        if found and "=>" in case.text and ":" not in case.text.split(":", 1)[1].split("=>")[0]:
            front, arrow, rest = case.text.partition("=>")
            return offered("a pattern has names for parameters, and a condition tells their values",
                           front.replace("(%s)" % found.group(1), "(x)", 1).rstrip() + " : x == %s " % found.group(1) + arrow + rest)
        return "a pattern has names for parameters, as F(x), and a condition tells their values, as : x == 2", None
    if case.rule[0] == "Formals" and kind in ("Arrow", "Colon", "At") and case.rule[2] == ("[]",):
        return "the module that the rule is for is missing before `%s`" % SIGNS[kind], None
    if case.rule[0] == "Formals" and kind in ("Arrow", "Colon", "At"):
        return ("a rule is for one module: what stands before it is a left context with `<`, as in A < B, and what stands after it a right one "
                "with `>`", None)
    if case.rule[0] == "Formals" and kind == "Less":
        return "the left context stands first, then the module, then the right context: A < B > C", None
    return None


def axiom(case: Case) -> Told | None:
    """Parameters of an axiom are numbers."""
    if case.state != "InAxiom" or case.stop.state[1][0] == "Symbols":
        return None
    if case.here == ")":
        return offered("a module without parameters has no parentheses", re.sub(r"\(\s*\)", "", case.text))
    return "parameters of an axiom are whole numbers, each alone, as in F(3,-1): names and sums stand in productions", None


def empty_parens(case: Case) -> Told | None:
    if case.here == ")" and re.search(r"\(\s*$", case.before):
        return offered("a module without parameters has no parentheses", re.sub(r"\(\s*\)", "", case.text))
    return None


def number_due(case: Case) -> Told | None:
    """Another thing where a number or one of a few words is wanted."""
    kind = case.kind()
    if case.state in ("DepthDue", "SeedDue", "VersionDue", "StringRead"):
        number = {"one": 1, "two": 2, "three": 3, "four": 4, "five": 5, "six": 6, "seven": 7, "eight": 8, "nine": 9,
                  "ten": 10}.get(case.after.strip().lower())
        if number:
            return offered("numbers are written by digits", "%s %d" % (case.word, number))
        if kind == "Minus":
            return "this number has no sign: it is 0 or more", None
        return {"VersionDue": "`version 1` and `version 2` are the versions",
                "StringRead": "`string` is followed by the number of a level, as in `string 3`, or by nothing"}.get(
            case.state, "`%s` is followed by a whole number, as in `%s 5`" % (case.word, case.word)), None
    if case.state in ("LatticeDue", "NumberingDue"):
        words = case.stop.expected()[1]
        meant = {"triangular": "hexagonal", "triangle": "hexagonal", "60": "hexagonal", "90": "square", "rectangular": "square", "3d": "cubic",
                 "cube": "cubic"}.get(case.after.strip().lower())
        near = meant if meant in words else nearest(case.after.strip(), words)
        told = "here: %s" % quoted(words)
        return offered("did you mean `%s`? %s" % (near, told), "%s %s" % (case.word, near)) if near else (told, None)
    return None


def nothing_more(case: Case) -> Told | None:
    """Something after a command that is whole."""
    if case.state != "Whole":
        return None
    told = "nothing follows `%s`" % case.before.strip()
    return offered(told, case.before.rstrip()) if case.after.strip() else (told, None)


CASES = [desk_line, semicolon, lookalike, other_arrow, alone, equality, preprocessor, comment, bare_rule, foreign_word, decimals, strange_sign,
         setting, first_word, label, second_arrow, after_arrow, brackets,
         pattern, empty_parens, axiom, number_due, nothing_more]


def syntax_hint(line: bytes, known: Known) -> Told:
    """What is told of a line that is no command, and the line that is meant, or None."""
    case = Case(line, known)
    if not case.stop.is_followed:
        return "something is missing or too much here: make the line shorter to see what", None
    for each in CASES:
        found = each(case)
        if found:
            return found
    return "here: " + expected_at(case.stop), None
