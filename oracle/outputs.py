"""Whether what a run wrote is a possible output if memory was refused anywhere and any number of times, decided line by
line.

A command that isn't accepted leaves the module. A listener is stale only after an event, or after a `resync` that was
refused; else its rows are those of the module. A command that takes no memory is never refused with 36."""
import collections

from .analyses import ANALYSES
from .module import read, text_of
from .refused import FREE, NEVER, kind_in
from .script import ALL, BOXES, Run, lines_of, split

MEMORY = " refused 36 Memory\n"
# These tell a listener of events also where they are refused; the others of the edits only where they are accepted.
UNDONE = {"insert", "erase", "replace", "canon", "rewrite", "convert", "sweep", "apply"}
EDITS = UNDONE | {"set-operand", "set-attr", "drop-attr", "move", "rollback"}
QUIET = {"report", "print"}
State = collections.namedtuple("State", "module boxes marks book verdicts", defaults=({}, {}))


class NoOutput(Exception):
    """What was written is no output; says why."""


class Rules:
    """What the lines of a script are replied to, and what is shown, by the rules; each is worked out once."""

    def __init__(self, text, commands=ALL):
        self.module, self.commands = read(text), commands
        # The states of the answers are kept, so that a number is that of one module.
        self.answers, self.texts, self.rows = {}, {}, {}

    def answer(self, state, line):
        """The reply, whether a listing follows, and the state after it."""
        key = (id(state.module), state.boxes, tuple(map(id, state.marks)), id(state.book), id(state.verdicts), line)
        if key not in self.answers:
            run = Run(state.module, state.boxes, self.commands)
            run.marks, run.book, run.verdicts = list(state.marks), state.book, state.verdicts
            reply, is_listed = run.reply(line) if line is not None else (" refused 60 BadCommand\n", True)
            behind = State(run.module, tuple(run.boxes), tuple(run.marks), run.book, run.verdicts)
            self.answers[key] = reply, is_listed, behind, state
        return self.answers[key][:3]

    def text(self, module):
        if id(module) not in self.texts:
            self.texts[id(module)] = text_of(module), module
        return self.texts[id(module)][0]

    def report(self, module, kind):
        key = id(module), kind
        if key not in self.rows:
            self.rows[key] = "".join(row + "\n" for row in ANALYSES[kind](module)), module
        return self.rows[key][0]


class Follower:
    """Follows what a run wrote. `faults` counts what was refused. A stale listener is found when the output reports
    it."""

    def __init__(self, rules, out, brief, boxes):
        self.rules, self.rest, self.brief = rules, out, brief
        self.faults, self.stale, self.status = collections.Counter(), set(), 0
        # The kinds that may have turned stale since they were seen not to be.
        self.doubtful = set()
        self.state = State(rules.module, tuple(kind for kind in boxes if not self.is_barred(kind)), ())

    def takes(self, text):
        """Whether a text comes next, which is passed then."""
        if self.rest.startswith(text):
            self.rest = self.rest[len(text):]
            return True
        return False

    def fault(self, word):
        self.faults[word] += 1

    def wrong(self, what):
        raise NoOutput(f"{what}, but there stands {self.rest[:200]!r}")

    def is_barred(self, kind):
        if self.takes(f"attach {kind}{MEMORY}"):
            self.fault("attach")
            self.status = 1
            return True
        return False

    # What a line is replied to.

    def is_stale(self, kind):
        """Whether a listener that is reported as stale may be stale."""
        if kind in self.doubtful:
            self.doubtful.discard(kind)
            self.stale.add(kind)
            self.fault("stale")
        return kind in self.stale

    def may_lack(self, word, reply):
        """Whether a command with this expected reply may be refused when memory runs out."""
        is_free = word in NEVER or word in FREE and not self.state.marks
        return not is_free and not any(f" refused {number} " in reply for number in (41, 42, 60)) and not (
            word == "report" and reply.startswith(" refused "))

    def reply(self, count, line):
        """Passes the reply to a line; says whether a listing follows, and whether the listeners were notified."""
        word, kind = kind_in(line) if line else ("", "")
        due, is_listed, behind = self.rules.answer(self.state, line)
        accepts = not due.startswith(" refused ")
        if word == "report" and accepts and kind in self.state.boxes and self.takes(f"{count} refused 40 Stale\n"):
            self.status = 1
            if not self.is_stale(kind):
                self.wrong(f"line {count}: {kind} can't be stale")
            return is_listed, False
        if self.takes(f"{count}{MEMORY}"):
            self.status = 1
            if not self.may_lack(word, due) or word == "report" and kind in self.stale:
                self.wrong(f"line {count}: {line} takes no memory")
            self.fault(word)
            if word == "resync":
                self.stale.add(kind)
                self.doubtful.discard(kind)
            return is_listed, word in UNDONE
        if word == "report" and accepts and kind in self.stale or not self.takes(f"{count}{due}"):
            self.wrong(f"line {count}: {line} is due{due}")
        self.status = self.status if accepts and not due.startswith(" fails ") else 1
        self.state = behind
        if word in ("report", "resync", "detach", "attach") and accepts:
            self.doubtful.discard(kind)
            self.stale.discard(kind)
        return is_listed, word in EDITS and (accepts or word in UNDONE)

    def listing(self):
        if self.takes("-- module memory\n"):
            self.fault("module")
        elif not self.takes(self.rules.text(self.state.module)):
            self.wrong("the module is due\n" + self.rules.text(self.state.module))
        for kind in self.state.boxes:
            if self.takes(f"-- {kind} stale\n"):
                if not self.is_stale(kind):
                    self.wrong(f"{kind} can't be stale")
                continue
            if kind in self.stale:
                self.wrong(f"{kind} is stale")
            if self.takes(f"-- {kind} memory\n"):
                self.fault("rows")
            elif not self.takes(f"-- {kind}\n" + self.rules.report(self.state.module, kind)):
                self.wrong(f"{kind} is due\n" + self.rules.report(self.state.module, kind))
        # A listing says which are stale.
        self.doubtful = set()

    def follow(self, lines, calm):
        """Passes the expected output for lines; from a number on nothing may be refused."""
        for count, line in enumerate(lines, 1):
            before = sum(self.faults.values()) - self.faults["stale"]
            is_listed, is_told = self.reply(count, line)
            if is_told:
                self.doubtful |= set(self.state.boxes) - self.stale
            if is_listed and not self.brief:
                self.listing()
            if calm is not None and count >= calm and sum(self.faults.values()) - self.faults["stale"] > before:
                self.wrong(f"line {count}: there is memory again")
        if self.rest:
            self.wrong("no more is due")


def followed(rules, lines, brief, boxes, status, out, calm=None):
    """What was refused, and how often, where a status and what was written are an output of some lines; raises
    `NoOutput`."""
    if (status, out) in ((2, b""), (3, b"module refused 36 Memory\n")):
        return collections.Counter({"no memory in main" if status == 2 else "module": 1})
    it = Follower(rules, out.decode(), brief, boxes)
    it.follow(lines, calm)
    if status != it.status:
        raise NoOutput(f"the status is {status}, and not {it.status}")
    return it.faults


def parts(text):
    """The module of an input, and the lines of its script."""
    module, script = split(text)
    return module, list(lines_of(script))


__all__ = ["BOXES", "NoOutput", "Rules", "followed", "parts"]
