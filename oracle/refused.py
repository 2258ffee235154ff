"""Which outputs of a run one refused allocation explains, with a word for each."""
from .analyses import ANALYSES
from .module import read, text_of
from .script import ALL, BOXES, LOOKS, Run, lines_of, split

NEVER = {"commit", "rollback", "detach"}
# These take no memory in the module where no mark is open.
FREE = {"set-operand", "replace", "erase", "move"}
NO_BOX = {"report", "print"}
REFUSED = " refused 36 Memory\n"


def kind_in(line):
    """The first word of a line, and the kind that it names, where it is a line that names one."""
    words = line.split()
    return words[0], words[1] if words[0] == "report" and len(words) > 1 else words[-1]


class Once(Run):
    """A run in which one allocation is refused at a command: the command itself, a listener that is notified, or a part
    of the listing. `fault` is a word and perhaps a kind."""

    def __init__(self, module, boxes, commands):
        super().__init__(module, boxes, commands)
        self.stale = set()

    def state(self):
        return self.module, list(self.boxes), list(self.marks), set(self.stale), self.book, self.verdicts

    def back(self, state):
        """Goes back to a state, which may be gone back to again."""
        module, boxes, marks, stale, self.book, self.verdicts = state
        self.module, self.boxes, self.marks, self.stale = module, list(boxes), list(marks), set(stale)

    def answered(self, line, fault):
        """The reply to a line, what is shown, and whether a listing follows; none if the fault can't be there."""
        word, kind = kind_in(line)
        before = self.state()
        reply, is_listed = self.reply(line)
        if word == "report" and reply.startswith(" ok") and kind in self.stale:
            reply = " refused 40 Stale\n"
        if word in ("resync", "detach", "attach") and reply.startswith(" ok"):
            self.stale.discard(kind)
        if fault is None or fault[0] in ("module", "rows"):
            return reply, is_listed
        if " 60 " in reply:
            return None
        if fault[0] == "stale":
            is_told = word not in LOOKS | {"resync", "detach", "attach", "begin", "commit"}
            if not is_told or fault[1] not in self.boxes or fault[1] in self.stale:
                return None
            self.stale.add(fault[1])
            return reply, is_listed
        if word in NEVER or word in FREE and not before[2] or any(f" {it} " in reply for it in (40, 41, 42)) \
                or word == "report" and reply.startswith(" refused "):
            return None
        self.back(before)
        if word == "resync":
            self.stale.add(kind)
        return REFUSED, is_listed

    def listing(self, fault):
        out = ["-- module memory\n" if fault == ("module",) else text_of(self.module)]
        for kind in self.boxes:
            if kind in self.stale:
                out.append(f"-- {kind} stale\n")
            elif fault == ("rows", kind):
                out.append(f"-- {kind} memory\n")
            else:
                out.append(f"-- {kind}\n" + "".join(row + "\n" for row in ANALYSES[kind](self.module)))
        return "".join(out)

    def step(self, count, line, fault, brief):
        """What a line writes, with a fault or none; none if that can't be."""
        if line is None:
            reply, is_listed = " refused 60 BadCommand\n", True
            if fault and fault[0] not in ("module", "rows"):
                return None
        else:
            answered = self.answered(line, fault)
            if answered is None:
                return None
            reply, is_listed = answered
        is_listed = is_listed and not brief
        if fault and fault[0] in ("module", "rows"):
            if not is_listed or fault[0] == "rows" and (fault[1] not in self.boxes or fault[1] in self.stale):
                return None
        return f"{count}{reply}" + (self.listing(fault) if is_listed else "")


def runs(here, lines, brief, faults):
    """Each output from a state on, with one of some faults somewhere or, if there are none, without; with its
    fault."""
    fresh, out, found, first = here, [], {}, here.state()
    for place, line in enumerate(lines):
        out.append(fresh.step(place + 1, line, None, brief))
    found["".join(out)] = "whole", ""
    fresh.back(first)
    out = []
    for place, line in enumerate(lines):
        start = fresh.state()
        for fault in faults:
            text = fresh.step(place + 1, line, fault, brief)
            if text is not None:
                rest = [text]
                for later in range(place + 1, len(lines)):
                    rest.append(fresh.step(later + 1, lines[later], None, brief))
                found.setdefault("".join(out + rest), (fault[0], line))
            fresh.back(start)
        out.append(fresh.step(place + 1, line, None, brief))
    return found


def status_of(out):
    """1 where a reply or an attach refuses, or a check fails: no row and no line of a module has such a second or third
    word."""
    wrong = (["refused"], ["fails"])
    return int(any(line.split()[1:2] in wrong or line.startswith("attach ") for line in out.splitlines()))


def explained(text, brief, boxes=BOXES, commands=ALL):
    """The status and bytes of each run over an input that is a module, in which one allocation or none is refused."""
    module, lines = split(text)
    lines = list(lines_of(lines))
    found = {(3, b"module refused 36 Memory\n"): "module refused", (2, b""): "no memory in main"}

    def add(outputs, front, words):
        for out, fault in outputs.items():
            whole = front + out
            found.setdefault((status_of(whole), whole.encode()), words
                             or " at ".join(filter(None, (fault[0], fault[1].split(" ")[0]))))

    def made(kinds):
        return Once(read(module), kinds, commands)

    for kind in boxes:
        rest = [it for it in boxes if it != kind]
        add(runs(made(rest), lines, brief, []), f"attach {kind} refused 36 Memory\n", "box refused")
    faults = [("reply",), ("module",)] + [(word, kind) for word in ("stale", "rows") for kind in boxes]
    add(runs(made(boxes), lines, brief, faults), "", "")
    return found

