"""Computes the steps of a script: for each step, the module after it and the rows of the reports.

Each line of the script is a step, but a line with several rewrites is one step for each rewrite, and a traced
conversion is one step for each applied rule. One run of the program gives the replies. Further runs, over a few steps
each, give the modules and the reports."""
import itertools
import re

from ..reply import Reply
from ..rewrites import Rewrite, rewrite_of, stood_of
from ..script import is_counted, joined
from . import mistakes, table
from .forms import kinds, looks
from .listing import COMMAND, Listing
from .program import asked, explaining, ran
from .ways import REFUSED

# Commands that change neither the module nor a report, but must be run again.
KEEPS = {"begin", "commit", "pattern", "pattern!", "check"}
REWRITES = {"converged", "limit", "converted"}
# A command that rewrites, without its limit, `trace` and `fired`. One that names an operation can't be traced.
REWRITING = re.compile(r"rewrite[ \t]+[^ \t]+|canon(?:[ \t]+only[ \t]+[^ \t]+|[ \t]+(at)[ \t]+#\d+)?")
# The word that asks for proved patterns. The parts of an accepted rewrite leave it out.
PROVED = re.compile(r"((?:rewrite|canon[ \t]+only)[ \t]+[^ \t]+)[ \t]+proved(?![^ \t])")
TRACE = re.compile(r"[ \t]+(?:trace|fired)(?![^ \t])")
APPLY = re.compile(r"apply[ \t]+(\S+)[ \t]+#(\d+)")
# A traced conversion. After all its rules, RECONCILE reconciles the casts.
TOLD_CONVERSION = re.compile(r"convert[ \t]+trace[ \t]")
RECONCILE = "convert partial"
# The default limit of steps; a line has at most half as many.
MOST = 400
# How many operations one run lists, over all its steps.
AT_ONCE = 200000


class State:
    """The module after a step, as lines with a key each, and the rows of each report. If a report is refused, its reply
    replaces the rows."""

    def __init__(self, lines, rows):
        self.lines, self.rows = lines, rows


class Step:
    """A line of a script, or a part of it, such as rewrite 2 of 14 (`part`). `reply` is the reply, `notes` are the
    comments above the line, and `run` are the lines to run for it, if they change the module or a report. A refused
    line has the lines below its reply in `told`, and what its refusal is about in `about`. `unproved` are the lines
    that name patterns which no check proves. `rewrites` are the rewrites of the step, once it has a state."""

    def __init__(self, line, reply, notes=(), run=(), part=None, told=(), unproved=(), about=()):
        self.line, self.reply, self.notes, self.run, self.part = line, reply, list(notes), list(run), part
        self.state, self.told, self.unproved, self.about = None, told, list(unproved), about
        self.rewrites = []

    @property
    def is_same(self):
        """Whether the step changes neither the module nor a report."""
        return all(line.split()[0] in KEEPS for line in self.run)

    @property
    def is_refused(self):
        """Whether the line was refused."""
        return self.reply.startswith("refused")

    def says(self):
        """Returns why the line was refused, the byte at which it is wrong or None, and the operation that the refusal
        names or None."""
        reply = Reply(" about ".join([self.reply, " ".join(self.about)] if self.about else [self.reply]))
        fault = mistakes.explained(reply, self.line.encode("utf-8", "surrogateescape"))
        words = [fault.words.partition(": ")[2], *(it for it in self.told if it.startswith("stays "))]
        return "; ".join(words), fault.column, reply.refusal().operation


def conversion(reply, most):
    """Returns the lines for each rule of a traced conversion, the last ones with those that reconcile casts. All rules
    beyond `most` are one part."""
    rules = [[f"apply {it.rule} #{it.operation}"] for it in stood_of(reply)]
    parts = rules[:most] + [[line for part in rules[most:] for line in part]] * (len(rules) > most)
    return [*parts[:-1], [*parts[-1], RECONCILE]]


def rewrites(line, reply, most):
    """Returns lines that repeat a line in parts of one rewrite each. All rewrites beyond `most` are one part."""
    line = PROVED.sub(r"\1", line, count=1) if PROVED.match(line) else line
    by = REWRITING.match(line)
    is_told = reply.outcome in REWRITES and (by or TOLD_CONVERSION.match(line))
    count = reply.number if is_told else 0
    head = by.group() + " trace" * (not by[1]) if by else ""
    if count < 2:
        return [[head + TRACE.sub("", line[by.end():], count=1) if by else line]]
    if not by:
        return conversion(reply, most)
    return [[f"{head} limit 1"]] * min(count, most) + [[f"{head} limit {count - most}"]] * (count > most)


def of_line(line, reply, notes, most):
    """Returns the steps of a line of a script."""
    if reply.is_refused or line.split()[0] in looks():
        return [Step(line, reply.brief, notes, told=reply.lines, about=reply.about)]
    parts, unproved = rewrites(line, reply, most), [it for it in reply.lines if it.startswith("unproved ")]
    if len(parts) == 1:
        return [Step(line, reply.text, notes, parts[0], unproved=unproved)]
    whole = reply.number
    steps = [Step(line, f"rewrite {at} of {whole}", notes if at == 1 else (), part, (at, whole), (), unproved)
             for at, part in enumerate(parts, 1)]
    if len(parts) < whole:
        steps[-1].reply, steps[-1].part = f"rewrites {len(parts)} to {whole}", (len(parts), whole)
    steps[-1].reply += f": {reply.text}"
    return steps


def shortened(steps, most):
    """Returns the first steps, with one step in place of those that are too many."""
    kept, rest = steps[:most], steps[most:]
    if rest:
        kept.append(Step(f"// {len(rest)} more steps", "ok", (), [line for step in rest for line in step.run]))
    return kept


def read(module, script, most=MOST):
    """Returns the steps of a script, without states, and None. The first step is the module before the script. If the
    module is refused, returns no steps, and why."""
    done = ran(joined(module, script), *explaining())
    if done.refused:
        return [], done.refused
    told, steps, notes = done.replies(), [Step("", "the module before the script")], []
    for line in script.split(b"\n"):
        text = line.decode("utf-8", "surrogateescape").strip(" \t\r")
        if is_counted(line):
            steps += of_line(text, next(told, REFUSED), notes, max(most // 2, 1))
            notes = []
        elif text:
            notes.append(text.removeprefix("//").strip())
    return shortened(steps, max(most, 1)), None


def rewrites_of(line, reply):
    """Returns the rewrites that a line made: those of its trace, or that of an `apply`."""
    by = APPLY.match(line)
    if not by:
        return [rewrite_of(it) for it in reply.lines if it.startswith("rewrote ")]
    if reply.number != 1:
        return []
    known = {str(row["number"]): row["word"] for row in table.rows("rules")}
    word = known.get(by[1], by[1])
    number = next((int(it) for it, name in known.items() if name == word), None)
    return [Rewrite(number, word, int(by[2]))]


def states(module, before, steps):
    """Yields for each of some steps the module after it; the rows of each report, or the reply if the report is
    refused; and the rewrites of the step. `before` are the lines before the first step."""
    lines, wanted, own = list(before), [], []
    for _, run in steps:
        own.append((len(lines), run))
        lines += run
        asks = [*(f"report {kind}" for kind in kinds()), COMMAND]
        wanted += range(len(lines), len(lines) + len(asks))
        lines += asks
    replies = list(asked(module, lines).replies())
    found = iter([replies[place] if place < len(replies) else REFUSED for place in wanted])
    for begin, run in own:
        reports = list(itertools.islice(found, len(kinds())))
        rows = {kind: it.brief if it.text != "ok" else it.lines for kind, it in zip(kinds(), reports)}
        made = [it for line, reply in zip(run, replies[begin:]) for it in rewrites_of(line, reply)]
        yield Listing(next(found).shown), rows, made


def keyed(listing):
    """Returns the lines of a listing, each with its key."""
    return list(zip(listing.keys, listing.named(range(len(listing.texts)))))


def pieces(steps, size):
    """Returns the steps that change the module or a report, each with the lines since the one before it. They are in
    pieces that one run can list, for a module with `size` operations."""
    found, lines, most = [], [], max(AT_ONCE // max(size, 1), 1)
    for step in steps:
        lines = lines + step.run
        if not step.is_same or step is steps[0]:
            found.append((step, lines))
            lines = []
    return [found[at:at + most] for at in range(0, len(found), most)]


class Once:
    """Stores the lines and rows of many states once each, since most states share them."""

    def __init__(self):
        self.known, self.lists = {}, {}

    def list(self, name, things):
        """Returns a list of things, or the last list of its name if that is the same."""
        if self.lists.get(name) != things and not isinstance(things, str):
            self.lists[name] = [self.known.setdefault(it, it) for it in things]
        return things if isinstance(things, str) else self.lists[name]


def fill(module, steps):
    """Gives each step its state. A step that changes nothing has the state of the step before."""
    before, once = [], Once()
    for piece in pieces(steps, module.count(b'"(')):
        for (step, _), (listing, rows, made) in zip(piece, states(module, before, piece)):
            step.state = State(once.list("", keyed(listing)), {kind: once.list(kind, it) for kind, it in rows.items()})
            step.rewrites = made
        before += [line for _, run in piece for line in run]
    for last, step in zip(steps, steps[1:]):
        step.state = step.state or last.state
