"""Whole runs: a module, a script, and what is written."""
import functools
import re

from . import (aliases, conversion, edits, everywhere, mixed, pattern_reasons, pattern_uses, patterns, reasons,
               rewrites, sampling, unproved)
from .analyses import ANALYSES, KINDS, is_about, rows_of, unreached_ops
from .culprits import about, about_text
from .module import ids_text, printing, read, read_attr, read_op, rules, text_of
from .objects import lines_from
from .parts import Bad, cut, cut_key, cut_place, need, number, op_of, value_of

WORDS = {20: "NoSuchOp", 21: "NoSuchValue", 22: "HasUses", 23: "NotVisible", 24: "TypeDiffers", 25: "NoSuchIndex",
         26: "NoSuchKey",
         27: "IntoItself", 28: "OtherTable", 29: "IsRoot", 30: "NotEmpty", 31: "Full", 32: "IdsExhausted",
         33: "TooDeepHere",
         34: "TooManyMarks", 35: "NoMark", 36: "Memory", 40: "Stale", 41: "NoSuchKind", 42: "KindTaken",
         50: "BadLimit",
         51: "NotLegalised", 52: "ChainTooDeep", 53: "Unreconciled",
         54: "BadTarget", 60: "BadCommand", 61: "NotProved"}
BOXES = tuple(KINDS.values())
KIND_WORDS = {KINDS.get(kind, f"kind{kind}") for kind in range(256)}
MOST_MARKS = 16
FIRST = {"report", "print", "set-operand", "move", "set-attr", "drop-attr", "resync", "detach"}
EDITS = FIRST | {"erase", "insert", "replace"}
ALL = EDITS | {"begin", "commit", "rollback", "sweep", "canon", "convert", "apply", "attach", "rewrite", "pattern",
               "pattern!", "patterns", "check", "forget", "why", "show"}
# The methods of commands whose words are no names of Python's.
METHODS = {"pattern!": "redefine"}
# These leave the module, and have no listing, but where they are refused as no command.
LOOKS = {"report", "print", "pattern", "pattern!", "patterns", "check", "forget", "why", "show"}
REFUSALS = {**rules.WORDS, **WORDS}
NUMBERS = {word: number for number, word in REFUSALS.items()}
MOST_LIMIT, LIMIT = 1000000, 1000
# The rules that `rewrite` may try; the others are conversion's.
MOST_TRIED = 24


def listed(text):
    """The kinds of a list, in the order of the kinds; none where an item of the list is no kind, `all` or `none`."""
    items = text.split(",")
    if not set(items) <= {"all", "none", *BOXES}:
        return None
    return tuple(kind for kind in BOXES if kind in items or "all" in items)


def rule_of(word):
    """The number of a rule, by its number or its word; none where no rule has the word."""
    if not re.match("[0-9]", word):
        return rewrites.WORDS.index(word) + 1 if word in rewrites.WORDS else None
    need(1 <= number(word) <= len(rewrites.WORDS))
    return number(word)


def applied(module, rule, number):
    """Applies a rule or a pattern at an operation of a module, and says whether it did."""
    if not isinstance(rule, int):
        return pattern_uses.apply(rule, module, number)
    found = rewrites.apply(module, rule, number)
    if found is not None:
        module.root, module.next = found.root, found.next
    return found is not None


@functools.lru_cache(maxsize=None)
def checked(text, most, is_sampled):
    """What a check says of a pattern, by its text, so that it is tried once in all runs of a script."""
    found = patterns.read(text.encode())
    verdict, rows = sampling.sample(found, most) if is_sampled else everywhere.check(found, most)
    return unproved.said(found, verdict), rows


class Run:
    """A module with its marks and the attached kinds, and a registry of user patterns by name, with the results of
    their checks, which no rollback changes. `reader` parses the texts in a line."""

    reader = rules.Reader
    # Whether each refusal ends with what it is about (`--explain`).
    explained = False
    # Whether a command isn't right if its reply names a pattern that no check proves.
    strict = False

    def __init__(self, module, boxes=BOXES, commands=ALL, limit=LIMIT):
        self.limit = limit
        self.module, self.boxes, self.commands, self.marks = module, list(boxes), commands, []
        # (neither is ever changed in its place)
        self.book, self.verdicts = {}, {}

    def edit(self, call, *args):
        """Makes an edit whole, or not at all."""
        tried = self.module.copy()
        call(tried, *args)
        self.module = tried

    def kind_of(self, word):
        need(word in KIND_WORDS)
        return word

    def is_attached(self, kind):
        edits.refuse(41, kind not in self.boxes)

    def is_fresh(self, kind):
        """Refuses where the analysis of a kind is stale. Here none is."""

    def subject_of(self, text):
        """The operation or the value after `of`, which is in the module."""
        word, rest = cut(text)
        need(word == "of")
        if rest.startswith("#"):
            thing = op_of(rest)
            edits.refuse(20, thing not in self.module.ops())
        else:
            thing = value_of(rest)
            edits.refuse(21, self.module.type_of(thing) is None)
        return thing

    def rows(self, kind):
        return "".join(row + "\n" for row in rows_of(kind, self.module, self.reader.is_opaque))

    # Each command takes its text, and returns its reply in place of `ok`, and the output below the reply.

    def report(self, text):
        word, behind = cut(text)
        kind = self.kind_of(word)
        thing = self.subject_of(behind) if behind else None
        self.is_attached(kind)
        self.is_fresh(kind)
        rows = self.rows(kind)
        if thing is not None:
            rows = "".join(row + "\n" for row in rows.split("\n")[:-1] if is_about(row, thing))
        return "", rows

    def print(self, text):
        need(text in ("", "ids"))
        return "", ids_text(self.module) if text else text_of(self.module)

    def set_operand(self, text):
        words = re.split("[ \t]+", text)
        need(len(words) == 3)
        self.edit(edits.set_operand, op_of(words[0]), number(words[1]), value_of(words[2]))

    def erase(self, text):
        self.edit(edits.erase, op_of(text))

    def replace(self, text):
        words = re.split("[ \t]+", text)
        need(len(words) == 2)
        self.edit(edits.replace_all, *map(value_of, words))

    def move(self, text):
        op, rest = cut(text)
        op = op_of(op)
        words, rest = cut_place(rest)
        need(rest == "")
        self.edit(edits.move, op, edits.resolved(self.module, words, op))

    def insert(self, text):
        words, rest = cut_place(text)
        need(rest != "")
        tree = read_op(rest.encode("latin-1"), self.module, self.reader)
        self.edit(edits.insert, edits.resolved(self.module, words), tree)
        return f"ok #{tree.id}", ""

    def set_attr(self, text):
        op, rest = cut(text)
        op = op_of(op)
        key, rest = cut_key(rest)
        need(rest != "")
        self.edit(edits.set_attr, op, key, read_attr(rest.encode("latin-1"), self.reader))

    def drop_attr(self, text):
        op, rest = cut(text)
        op = op_of(op)
        key, rest = cut_key(rest)
        need(rest == "")
        self.edit(edits.drop_attr, op, key)

    def resync(self, text):
        self.is_attached(self.kind_of(text))

    def detach(self, text):
        self.is_attached(self.kind_of(text))
        self.boxes.remove(text)

    def attach(self, text):
        kind = self.kind_of(text)
        edits.refuse(41, kind not in BOXES)
        edits.refuse(42, kind in self.boxes)
        self.boxes.append(kind)

    def begin(self, text):
        need(text == "")
        edits.refuse(34, len(self.marks) == MOST_MARKS)
        self.marks.append(self.module)

    def commit(self, text):
        need(text == "")
        edits.refuse(35, not self.marks)
        self.marks.pop()

    def rollback(self, text):
        need(text == "")
        edits.refuse(35, not self.marks)
        self.module = self.marks.pop()

    def limited(self, words):
        """The limit that words say, `limit N`, or that of the run, where there are none."""
        need(not words or len(words) == 2 and words[0] == "limit")
        return number(words[1]) if words else self.limit

    def form_of(self, words):
        """The word that says what is reported of each rewrite, if the first word is one."""
        return words[0] if words[:1] in (["trace"], ["fired"]) else ""

    def rewritten(self, asked, limit, form=""):
        """Rewrites by some rules and patterns, and reports each rewrite (`trace`), what fired before the limit
        (`fired`), or only their number."""
        edits.refuse(50, not 1 <= limit <= MOST_LIMIT)
        by = rewrites if all(isinstance(it, int) for it in asked) else mixed
        named = self.unproved(asked)
        self.module, lines, is_done = by.traced(self.module, asked, limit)
        shown = {"": [], "trace": lines, "fired": [] if is_done else rewrites.fired_lines(lines)}[form]
        told = "".join(line + "\n" for line in shown)
        return ("converged" if is_done else "limit") + f" {len(lines)}", named + told

    def unproved(self, asked):
        """A line for each pattern among rules and patterns that no check proves for the module."""
        return unproved.lines([it for it in asked if not isinstance(it, int)], self.verdicts, self.module)

    def canon(self, text):
        words = re.split("[ \t]+", text) if text else []
        if words[:1] == ["only"]:
            return self.rewrite(cut(text)[1])
        if words[:1] == ["at"]:
            return self.canon_at(words[1:])
        form = self.form_of(words)
        return self.rewritten(rewrites.CANONICAL, self.limited(words[bool(form):]), form)

    def canon_at(self, words):
        """Rewrites one operation by the rules of canonicalization, while it exists and a rule applies."""
        need(words)
        op, limit = op_of(words[0]), self.limited(words[1:])
        edits.refuse(50, not 1 <= limit <= MOST_LIMIT)
        edits.refuse(20, op not in self.module.ops())
        self.module, count, is_done = rewrites.canonical_at(self.module, op, limit)
        return ("converged" if is_done else "limit") + f" {count}", ""

    def why(self, text):
        """Why rules don't apply at an operation: one, or those that there may be at its name; or why a pattern
        doesn't."""
        words = re.split("[ \t]+", text)
        need(len(words) in (1, 2))
        if words[1:] and words[1] in self.book:
            op = op_of(words[0])
            edits.refuse(20, op not in self.module.ops())
            told = pattern_reasons.reason(self.book[words[1]], self.module, op) or "applies"
            return "", f"why #{op} {words[1]} {told}\n"
        op, rule = op_of(words[0]), rule_of(words[1]) if len(words) == 2 else None
        edits.refuse(26, len(words) == 2 and rule is None)
        edits.refuse(20, op not in self.module.ops())
        asked = reasons.listed(self.module.ops()[op]) if rule is None else [rule]
        told = [(it, rewrites.WORDS[it - 1], reasons.reason(self.module, it, op) or "applies") for it in asked]
        return "", "".join(f"why #{op} {it} {word} {verdict}\n" for it, word, verdict in told)

    def show(self, text):
        """Operations as JSON objects: all, or at most so many from one on; without a count, that one alone."""
        if text == "all":
            return "", lines_from(self.module)
        words = re.split("[ \t]+", text)
        need(len(words) in (1, 2))
        op, count = op_of(words[0]), number(words[1]) if len(words) == 2 else 1
        edits.refuse(20, op not in self.module.ops())
        return "", lines_from(self.module, op, count)

    def named(self, name):
        """The pattern that a word of a list names, or else the rule that is tried; none where it names neither."""
        need(not name[0].isdigit() or rule_of(name) <= MOST_TRIED)
        rule = rule_of(name)
        return self.book.get(name, None if rule is None or rule > MOST_TRIED else rule)

    def meant(self, item):
        """The rules and patterns of an item of a list: of a range of rule numbers, of `canon`, or of one name."""
        ends = re.fullmatch("([0-9]+)-([0-9]+)", item)
        if ends:
            first, last = map(number, ends.groups())
            need(1 <= first <= last <= MOST_TRIED)
            return range(first, last + 1)
        return range(1, MOST_TRIED + 1) if item == "canon" and item not in self.book else [self.named(item)]

    def rewrite(self, text):
        words = re.split("[ \t]+", text)
        items = words[0].split(",")
        need("" not in items)
        asked = [it for item in items for it in self.meant(item)]
        is_proved = words[1:2] == ["proved"]
        words = words[1 + is_proved:]
        form = self.form_of(words)
        limit = self.limited(words[bool(form):])
        edits.refuse(26, None in asked)
        named = self.unproved(asked)
        edits.refuse(61, is_proved and named != "", named)
        return self.rewritten(asked, limit, form)

    def convert(self, text):
        """Converts. With a leading `trace`, reports each applied rule, or why an operation stays."""
        words = re.split("[ \t]+", text)
        is_traced = words[0] == "trace"
        words = words[is_traced:] or [""]
        need(words[0] in ("partial", "full") and len(words) % 2 == 1)
        clauses = list(zip(words[1::2], words[2::2]))
        need(len(dict(clauses)) == len(clauses))
        target = {}
        for word, rest in clauses:
            need(word in ("legal", "illegal", "dynamic", "rules", "depth"))
            parts = rest.split(",")
            need("" not in parts)
            numbers = [number(part) for part in parts] if word in ("rules", "depth") else []
            need(word != "depth" or len(parts) == 1)
            target[word] = numbers[0] if word == "depth" else numbers or [part.encode("latin-1") for part in parts]
        self.module, lines = conversion.converted(self.module, conversion.Target(words[0] == "full", **target))
        return f"converted {len(lines)}", "".join(line + "\n" for line in lines) if is_traced else ""

    def sweep(self, text):
        need(text == "")
        numbers = unreached_ops(self.module)
        self.edit(edits.sweep, numbers)
        return f"swept {len(numbers)}", ""

    def apply(self, text):
        words = re.split("[ \t]+", text)
        need(len(words) == 2 and words[0])
        name, op = words[0], op_of(words[1])
        rule = self.book[name] if name in self.book else rule_of(name)
        edits.refuse(26, rule is None)
        edits.refuse(20, op not in self.module.ops())
        tried, named = self.module.copy(), self.unproved([rule])
        is_done = applied(tried, rule, op)
        self.module = tried if is_done else self.module
        return f"applied {int(is_done)}", named

    def pattern(self, text):
        need(text != "")
        found = patterns.read(text.encode("latin-1"), self.book)
        self.book = {**self.book, found.name: found}

    def redefine(self, text):
        """Defines a pattern in the place of the one of its name, whose verdict is forgotten."""
        need(text != "")
        found = patterns.read(text.encode("latin-1"), self.book, replaces=True)
        self.book = {**self.book, found.name: found}
        self.verdicts = {name: it for name, it in self.verdicts.items() if name != found.name}

    def patterns(self, text):
        need(text == "")
        rows = [f"{patterns.text_of(it)} // {self.verdicts.get(name, 'not checked')}\n" for name, it in
                self.book.items()]
        return "", "".join(rows)

    def forget(self, text):
        need(re.fullmatch("[^0-9 \t][^ \t]*", text))
        edits.refuse(26, text not in self.book)
        self.book, self.verdicts = ({name: it for name, it in held.items() if name != text}
                                    for held in (self.book, self.verdicts))

    def check(self, text):
        words = re.split("[ \t]+", text)
        need(len(words) in (1, 3, 4) and words[1:2] in ([], ["width"]) and words[3:] in ([], ["sampled"]))
        most = number(words[2]) if words[1:] else None
        need(words[0] and not words[0][0].isdigit())
        if words == ["all"] and "all" not in self.book:
            return self.check_all()
        edits.refuse(26, words[0] not in self.book)
        verdict, rows = checked(patterns.text_of(self.book[words[0]]), most, bool(words[3:]))
        self.verdicts = {**self.verdicts, words[0]: verdict}
        return verdict, "".join(row + "\n" for row in rows)

    def check_all(self):
        """Checks each pattern. The reply is the verdict on the first wrong one, or `ok`."""
        wrong, told = "", ""
        for name in self.book:
            try:
                verdict, rows = self.check(name)
            except edits.Refused as fault:
                verdict, rows = f"refused {fault.number} {WORDS[fault.number]}", ""
            wrong = wrong or (verdict if verdict.startswith("fails ") else "")
            told += f"checked {name} {verdict}\n{rows}"
        return wrong, told

    def reply(self, line):
        """The reply to a line that is no comment, and whether it has a listing."""
        word, rest = cut(line)
        try:
            need(word in self.commands)
            after, below = getattr(self, METHODS.get(word, word.replace("-", "_")))(rest) or ("", "")
            return f" {after or 'ok'}\n{below}", word not in LOOKS
        except Bad:
            return " refused 60 BadCommand\n", True
        except rules.Refused as fault:
            text = "32 IdsExhausted" if fault.number == 32 else printing.refusal(fault)
            return f" refused {text}{self.about(line, fault.number, fault.at)}\n", word not in LOOKS
        except conversion.Refused as fault:
            op = "" if fault.op is None else f" #{fault.op}"
            below = f"{fault.stays}\n" if fault.stays and cut(rest)[0] == "trace" else ""
            return f" refused {fault.number} {WORDS[fault.number]}{op}\n{below}", True
        except edits.Refused as fault:
            told = f" refused {fault.number} {WORDS[fault.number]}{self.about(line, fault.number)}\n"
            return told + fault.below, word not in LOOKS

    def about(self, line, number, offset=None):
        """What follows a refusal with `--explain`."""
        return about(self.module, line, number, offset) if self.explained else ""

    def listed(self, kind):
        return f"-- {kind}\n{self.rows(kind)}"

    def all_rows(self):
        return text_of(self.module) + "".join(map(self.listed, self.boxes))


def split(text):
    """The module and the script."""
    found = re.search(rb"(?:\A|(?<=\n))// -----(?:\n|\Z)", text)
    return (text[:found.start()], text[found.end():]) if found else (text, b"")


def lines_of(script):
    """The lines of a script that are no comment, each as Latin-1 text, or none where it isn't UTF-8."""
    for line in script.split(b"\n"):
        try:
            line.decode()
        except UnicodeDecodeError:
            yield None
            continue
        line = line.strip(b" \t\r")
        if line and not line.startswith(b"//"):
            yield line.decode("latin-1")


def expected(line):
    """The number of the refusal that a line expects, or none, and the command after it."""
    word, rest = cut(line)
    if word != "expect":
        return None, line
    name, command = cut(rest)
    # (a number may have any count of digits; `int` takes only so many)
    digits = re.fullmatch("0*([0-9]{1,9})", name)
    number = int(digits[1]) if digits else NUMBERS.get(name)
    return (number, command) if number in REFUSALS else (None, line)


def answer(here, count, line, brief):
    """Whether the reply to a line is right, and the output for the line, which is line number `count`."""
    wanted, command = expected(line) if line is not None else (None, None)
    reply, is_listed = here.reply(command) if line is not None else (" refused 60 BadCommand\n", True)
    # A failed check of a user pattern counts as wrong too.
    is_right = not reply.startswith((" refused", " fails")) and not (here.strict and unproved.is_named(reply))
    if wanted is not None:
        is_right = reply.startswith(f" refused {wanted} ")
        first, below = reply.split("\n", 1)
        told = "" if is_right else f"{count} expected {wanted} {REFUSALS[wanted]}\n"
        reply = f"{first}\n{told}{below}"
    listing = here.all_rows() if is_listed and not brief else ""
    return is_right, f"{count}{reply}{listing}"


def obey(here, script, brief):
    """The status of a run from a state on, over the lines of a script, and what it writes."""
    answers = [answer(here, count, line, brief) for count, line in enumerate(lines_of(script), 1)]
    return int(not all(is_accepted for is_accepted, _ in answers)), "".join(told for _, told in answers).encode()


def run(text, brief=True, boxes=BOXES, commands=ALL, limit=LIMIT, make=Run, reader=rules.Reader, explained=False,
        strict=False):
    """The status of a run over an input, and what it writes; `reader` reads the module and what a line has."""
    text, script = split(text)
    try:
        here = make(read(text, reader), boxes, commands, limit)
    except rules.Refused as fault:
        return 3, f"module refused {printing.refusal(fault)}{about_text(text, fault) if explained else ''}\n".encode()
    here.reader, here.explained, here.strict = reader, explained, strict
    return obey(here, script, brief)


def run_opaque(text, brief=True, limit=LIMIT, explained=False):
    """The same with opaque terms, in the module, where aliases and locations are read too, and in the script."""
    return run(text, brief, limit=limit, reader=aliases.Reader, explained=explained)
