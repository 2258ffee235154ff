"""Writes a page for a browser that shows a script over a module, step by step.

The page is one file and needs no network. A slider selects a step; each rewrite of a `canon` is a step. For each step
the page shows the module, with the changes marked, and the seven reports next to it, and the reason if the step was
refused. The pointer highlights the uses of a value and its defining operation. `?` in the page shows its keys, and
`#step=N` at the end of its address opens a step."""
import html
import json
import pathlib
import re
import sys

from . import explain, nesting, pages, program, replay
from .changes import in_order
from .data import WEB
from .forms import kinds
from .kept import put

# How many operations a step names, and the escapes in JSON of letters with a meaning in HTML.
MOST_NAMED = 6
ESCAPES = {ord(letter): f"\\u{ord(letter):04x}" for letter in "<>&"}


class Table:
    """Things by their numbers, each once."""

    def __init__(self):
        self.numbers = {}

    def add(self, things):
        """Returns the numbers of some things, and adds those that are new."""
        numbers = self.numbers
        return [numbers.setdefault(it, len(numbers)) for it in things]

    def all(self):
        """Returns all things, in the order of their numbers."""
        return list(self.numbers)


def first_difference(old, new):
    """Returns how many things two lists share from the first on."""
    return next((at for at, (it, other) in enumerate(zip(old, new)) if it != other), min(len(old), len(new)))


def splices(old, new):
    """Returns what turns one list into another: places in the new list, in order, with how many things go there and
    which come."""
    first = first_difference(old, new)
    last = min(first_difference(old[::-1], new[::-1]), min(len(old), len(new)) - first)
    ends, places = (len(old) - last, len(new) - last), {}
    for at in range(first, ends[1]):
        places[new[at]] = at
    # If a line occurs twice in between, the whole part counts as one change.
    is_clear = len(places) == ends[1] - first and len(set(old[first:ends[0]])) == ends[0] - first
    pairs = [(at, places[old[at]]) for at in range(first, ends[0]) if old[at] in places] if is_clear else []
    found, was, now = [], first, first
    for at, its in [*in_order(pairs), ends]:
        if was < at or now < its:
            found.append([now, at - was, new[now:its]])
        was, now = at + 1, its + 1
    return found


def plain(text):
    """Returns a text with bytes that aren't UTF-8 as `\\xff`."""
    return text.encode("utf-8", "surrogateescape").decode("utf-8", "backslashreplace")


class Data:
    """The data of the page: lines and rows, each once, and of each step the difference to the step before."""

    def __init__(self):
        self.lines, self.rows = Table(), {kind: Table() for kind in kinds()}
        self.last, self.last_rows = [], {kind: [] for kind in kinds()}

    def step(self, step, before):
        """Returns a step, as its differences to the state before it."""
        told = {"line": plain(step.line), "reply": step.reply}
        if step.rewrites:
            told["by"] = [rewrite_row(it, before) for it in step.rewrites[:MOST_NAMED]]
        if step.notes:
            told["notes"] = [plain(note) for note in step.notes]
        if step.part:
            told["part"] = step.part
        if step.is_refused:
            told["says"], told["column"], told["about"] = step.says()
        if step.unproved:
            told["unproved"] = [plain(line) for line in step.unproved]
        if step.state is not before:
            self.changes(step.state, told)
        return told

    def changes(self, state, told):
        """Adds to a step how its state differs from the one before."""
        lines = self.lines.add(state.lines)
        told["module"] = splices(self.last, lines)
        if "part" in told:
            told["ops"] = self.operations(self.last, told["module"])
        self.last = lines
        for kind, rows in state.rows.items():
            if isinstance(rows, str):
                told.setdefault("without", {})[kind] = rows
                rows = []
            rows = self.rows[kind].add(rows)
            found, self.last_rows[kind] = splices(self.last_rows[kind], rows), rows
            if found:
                told.setdefault("rows", {})[kind] = found

    def operations(self, old, found):
        """Returns the first operations that some splices make, change and remove."""
        keys, shift, went, came = [key for key, _ in self.lines.all()], 0, set(), set()
        for at, gone, ids in found:
            went.update(keys[it] for it in old[at + shift:at + shift + gone] if isinstance(keys[it], str))
            came.update(keys[it] for it in ids if isinstance(keys[it], str))
            shift += gone - len(ids)
        told = {"made": came - went, "changed": came & went, "gone": went - came}
        told = {word: sorted(map(int, those)) for word, those in told.items() if those}
        more = {"more": 1} if any(len(those) > MOST_NAMED for those in told.values()) else {}
        return {**{word: those[:MOST_NAMED] for word, those in told.items()}, **more}

    def all(self, title, steps):
        """Returns all data, as the page reads them. A line is a text, the operation that it belongs to, and whether it
        begins there."""
        befores = [None, *(step.state for step in steps)]
        told = [self.step(step, before) for step, before in zip(steps, befores)]
        keys = [key for key, _ in self.lines.all()]
        return {"title": title, "kinds": kinds(), "steps": told, "texts": [text for _, text in self.lines.all()],
                "owners": [owner(key) for key in keys], "heads": [int(isinstance(key, str)) for key in keys],
                "rows": {kind: rows.all() for kind, rows in self.rows.items()}, "rules": rules()}


def rewrite_row(rewrite, before):
    """Returns a rewrite as the page reads it: the rule or the pattern, the operation, and its text before the
    rewrite."""
    rule = f"{rewrite.rule} {rewrite.word}" if rewrite.rule else rewrite.word
    lines = before.lines if before else []
    text = next((text for key, text in lines if key == str(rewrite.operation)), "")
    return [rule, rewrite.operation, plain(text.strip())]


def owner(key):
    """Returns the number of the operation that a line belongs to, or -1 if it isn't known."""
    number = key if isinstance(key, str) else key[0]
    return int(number) if number.isdecimal() else -1


def rules():
    """Returns the titles of the rules of the verifier, by their words."""
    titles = [title.partition(": ") for title in pages.sections("VERIFIER.md")]
    return {rule: about for rule, _, about in titles if re.fullmatch(r"V\d+", rule)}


def written(data):
    """Returns the page."""
    parts = {name: (WEB / f"page.{name}").read_text() for name in ("html", "css", "js")}
    text = json.dumps(data, separators=(",", ":")).translate(ESCAPES)
    filled = {"TITLE": html.escape(data["title"]), "STYLE": parts["css"], "DATA": text, "CODE": parts["js"]}
    return re.sub(r"\{\{(\w+)\}\}", lambda found: filled[found.group(1)], parts["html"])


def made(names, most):
    """Returns the page of a module and a script, and no lines; or None, and the lines that say why the module is
    refused. A refused module is first converted to generic form, if mlir-opt reads it, or nested."""
    module, script, _ = program.inputs(names)
    reads = []

    def attempt(text):
        reads.append(replay.read(text, script, most))
        return reads[-1][1]

    module = nesting.read(names[0], module, attempt, explain.said_on_the_side)
    steps, refused = reads[-1]
    if refused:
        return None, explain.module_refused(names[0], module, refused)
    replay.fill(module, steps)
    return written(Data().all(plain(pathlib.Path(names[0]).name), steps)), []


def arguments(parser):
    """Adds the arguments of the command."""
    explain.arguments(parser)
    parser.add_argument("-o", metavar="FILE", dest="out", default="replay.html",
                        help="the file of the page [default: %(default)s]")
    parser.add_argument("--most", metavar="N", type=int, default=replay.MOST,
                        help="the limit of steps, half of it for one line; further steps become one step "
                             "[default: %(default)s]")


def run(given):
    """Writes the page, or prints why the module is refused, and returns the status."""
    text, lines = made([given.module] + [given.script] * bool(given.script), given.most)
    if text is None:
        print(*lines, sep="\n", file=sys.stderr)
        return 3
    put(given.out, text.encode())
    return 0
