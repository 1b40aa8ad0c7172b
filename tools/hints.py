"""What is told of a refusal: what it means here, what helps, and, where that is without doubt, the line that was meant. The page and the
terminal tell the same."""

from __future__ import annotations

import re
from collections.abc import Iterable, Sequence

from faults import told_of_fault
from known import MODULE, Known, rule_of
from mending import nearest, quoted, syntax_hint, text_of

# How many symbols all levels may have together: what holds without a word, and the most that can be asked for.
LIMIT, MOST_LIMIT = 100000, 1000000
RAISED_BY = {"terminal": "`--limit N` raises it, N from 1 to {:,}", "session": "`:limit N` raises it, N from 1 to {:,}",
             "page": "the field Limit raises it, from 1 to {:,}"}
PLAIN = {
    "syntax long": "this line has more than 65,536 bytes: make several of it",
    "syntax deep": "this is nested more than 32 deep: work a part out in a parameter of the rule before",
    "image": "the picture would have more than 1,000,000 symbols: take less depth, or shorter rules of the homomorphism",
    "far": "module {0} of the picture would move past 1,000,000,000 steps from the origin: take smaller parameters of F and f",
    "place": "the picture has fewer symbols than this: `bounds` tells its size, and `at 0` its begin",
    "undo": "nothing can be undone here: no edit was taken before this line, or 32 were undone already",
    "redo": "nothing was undone since the last edit, so there is nothing to go on to",
    "growth": "growth is told only where every module of a letter is rewritten alike: without contexts, conditions, parameters and weights that "
              "choose",
    "letters": "growth is told for at most 63 letters: use fewer",
    "overflow": "the level would have 2^128 symbols or more: ask for a smaller one",
    "memory": "there is no memory for it: take less depth, or end other programs",
}
FAULTS = {"overflow": "a number would have more than 64 bits", "divide-by-zero": "something is divided by 0",
          "negative-power": "a power has a negative exponent",
          "negative-weight": "a weight is negative", "weight-total": "the weights of the rules that apply sum to too much",
          "too-far": "the contexts read more than 1,024 modules"}
HELPS = {"overflow": "a condition that ends the growth helps, as : x < 1000", "divide-by-zero": "a condition helps, as : y != 0",
         "negative-power": "a condition helps, as : x >= 0",
         "negative-weight": "a condition helps, as : x >= 0", "weight-total": "smaller weights help",
         "too-far": "`ignore` fewer names, or a context that is nearer, helps"}


class Hint:
    """What is told, and the line that was meant, or None."""

    def __init__(self, told: str, meant: str | None = None) -> None:
        self.told, self.meant = told, meant


def of_limit(reply: str, limit: int, place: str) -> str:
    """What is told of levels past the limit."""
    level = "".join(re.findall(r"^refused limit level (\d+)$", reply))
    told = "levels 0 to {} have together more than {:,} symbols, which is the limit".format(level, limit)
    if limit >= MOST_LIMIT:
        return told + ", and the greatest one: a lower depth, or less that each rule puts, helps"
    return told + "; " + RAISED_BY[place].format(MOST_LIMIT)


def word_at(line: bytes, column: int) -> str:
    found = re.match(rb"\w+|.", line[column - 1:])
    return found.group().decode("latin-1") if found else ""


def with_word(line: bytes, column: int, word: str) -> str:
    """The line with another word at a column."""
    return text_of(line[:column - 1]) + re.sub(r"^\w+", word, text_of(line[column - 1:]))


def of_name(line: bytes, column: int, known: Known) -> Hint:
    name, rule = word_at(line, column), rule_of(text_of(line))
    found = re.match(r"[A-Za-z](?:_[A-Za-z0-9]{1,6})?", text_of(line[column - 1:]))
    name = found.group() if found else name
    names = re.findall(r"\(([^)]*)\)", rule.pattern) if rule else []
    formals = [word.strip() for part in names for word in part.split(",") if word.strip()]
    if not formals:
        return Hint("`%s` is no parameter: the pattern has none. Give it one, as in `%s(%s)`" % (name, rule.name if rule else "A", name))
    return Hint("`%s` is no parameter of this rule: its pattern has %s" % (name, quoted(formals, "and")))


def of_label(line: bytes, column: int, known: Known) -> Hint:
    label, word = word_at(line, column), text_of(line).split()[0]
    if word == "drop":
        near = nearest(label, list(known.rules))
        told = "no rule has the label `%s`: %s" % (label, "there are %s" % quoted(list(known.rules)[:20], "and") if known.rules
                                                   else "no rule was put yet")
        return Hint(told + ("; did you mean `%s`?" % near if near else ""), with_word(line, column, near) if near else None)
    other = known.rules.get(label)
    where = "in the homomorphism" if other and other.kind == "hom" else "in the table `%s`" % other.table if other else "elsewhere"
    return Hint("the label `%s` stands %s already: take another label, or `drop %s` before" % (label, where, label))


def of_table(line: bytes, column: int, known: Known) -> Hint:
    table, word = word_at(line, column), text_of(line).split()[0]
    if word == "drop":
        return Hint("the rule `%s` is the last one of its table, which `schedule` names or which has a list of its own: change that before" % table)
    near = nearest(table, known.tables())
    told = "no rule is in a table `%s`: put `production %s LABEL: ..` before; there %s %s" % (
        table, table, "is" if len(known.tables()) == 1 else "are", quoted(known.tables(), "and"))
    return Hint(told + ("; did you mean `%s`?" % near if near else ""), with_word(line, column, near) if near else None)


def of_mixed(line: bytes, column: int, known: Known) -> Hint:
    rule = rule_of(text_of(line))
    labels = [other.label for other in known.rules.values() if rule and other.group() == rule.group() and bool(other.weight) != bool(rule.weight)]
    name = rule.name if rule else "this module"
    others = quoted(labels[:5], "and") if labels else "another one"
    has = "this one has a weight, unlike %s" if rule and rule.weight else "this one has no weight, unlike %s"
    return Hint("the rules for %s have all a weight, as @ 1, or none: %s" % (name, has % others))


def of_level(line: bytes, column: int, known: Known) -> Hint:
    return Hint("there are the levels 0 to %d: `depth %s` makes more" % (known.depth(), word_at(line, column)))


def of_version(line: bytes, column: int, known: Known) -> Hint:
    word = text_of(line).split()[0]
    if word != "version":
        return Hint("`%s` belongs to version 2 of the language: put `version 2` at the head of the script" % word)
    return Hint("there are versions 1 and 2, and a script doesn't go back to a lower one: put one `version` line at its head")


def of_many(line: bytes, column: int, known: Known) -> Hint:
    """Which limit of the language is passed at a column."""
    text = text_of(line)
    word = text.split()[0]
    if word == "depth":
        return Hint("depth is at most 64, and in version 2 at most 256"
                    + ("" if known.version() > 1 else ": `version 2` at the head of the script allows more"))
    if word in ("ignore", "ignoring", "consider"):
        return Hint("at most 64 names are listed: leave those out that don't stand between others")
    if word == "schedule":
        return Hint("a schedule has at most 64 words: it begins anew after its last one")
    before = text[:column - 1]
    if word == "axiom":
        return Hint(PARAMETERS if before.count("(") > before.count(")")
                    else "an axiom has at most 4,096 symbols: let a production make more of fewer")
    if word == "production" and before.count(":") == 0:
        of_rules = len(known.rules) >= 256
        return Hint("there are at most 256 rules, and this is one more: drop some" if of_rules
                    else "there are at most 16 tables, and this is one more")
    successor = before.partition("=>")[2]
    if before.count("(") > before.count(")"):
        depth = len(re.findall(r"[\w]+|\S", before[before.rindex("("):]))
        return Hint(PARAMETERS if depth < 200 else "an expression has at most 256 tokens: work a part out in another parameter")
    if "=>" in before and len(MODULE.findall(successor)) >= 100:
        return Hint("a rule puts at most 128 symbols: let a letter stand for a part, and a second rule put it")
    return Hint("this rule is too long here: a left context has at most 8 modules, a right one 16 symbols, a rule 2,048 tokens, an expression 256")


PARAMETERS = "a module has at most 8 parameters: use fewer, or a second module for the others"
AT_COLUMN = {"name": of_name, "label": of_label, "table": of_table, "mixed": of_mixed, "level": of_level, "many": of_many, "version": of_version,
             "duplicate": lambda line, column, known: Hint(
                 "the parameter `%s` stands in this pattern already: each has a name of its own" % word_at(line, column))}
# Replies of which what is meant is read off the line and the column.
COLUMN = re.compile(r"refused (%s) (\d+)" % "|".join(AT_COLUMN))


def of_fault(line: bytes, reply: str, taken: list[bytes], words: Sequence[str] | None) -> Hint:
    """Which module, rule and values had a fault, and what helps."""
    kind = reply.split()[2]
    found = re.findall(r"\d+", reply)
    told = told_of_fault(words, taken, line, reply) if words else None
    if told is None:
        where = "level %s, module %s" % (found[0], found[1]) if len(found) == 2 else "module %s of the last level" % found[0]
        told = "%s: %s" % (where, FAULTS[kind])
    elif "in the rule" not in told:
        told += ": " + FAULTS[kind]
    return Hint("%s; %s" % (told, HELPS[kind]))


def hint(line: bytes, reply: str, taken: Iterable[bytes] = (), limit: int = LIMIT, place: str = "terminal",
         words: Sequence[str] | None = None) -> Hint:
    """What is told of a refusal of a line (its bytes). `taken` are the edits that were taken before, `place` is where the limit is set, and
    `words` begin a program that is asked of faults."""
    known = Known(taken)
    reply = reply.rstrip("\n")
    if reply.startswith(("refused syntax token", "refused syntax byte")):
        return Hint(*syntax_hint(line, known))
    found = COLUMN.fullmatch(reply)
    if found:
        return AT_COLUMN[found.group(1)](line, int(found.group(2)), known)
    if reply.startswith("refused limit "):
        return Hint(of_limit(reply, limit, place))
    if reply.startswith("refused fault "):
        return of_fault(line, reply, list(taken), words)
    numbers = re.findall(r"\d+", reply)
    return Hint(next((told.format(*numbers or [""]) for words, told in PLAIN.items() if re.match("refused %s( |$)" % words, reply)), ""))


def as_told(found: Hint) -> str:
    """The words of a hint, with the line that was meant."""
    return found.told + (": " + found.meant if found.meant else "")
