"""A session of the prompt on a module: the answer to each line.

A line is a command of a script or a word of words.py. prompt.py reads the lines. This module computes no result itself:
it asks the program (ways.py), and caches listings."""
import itertools
import re
import textwrap

from ..blocks import Nested, flatten, is_nested
from ..errors import FormBroken
from ..reply import Transcript, lines_of
from ..script import is_counted, joined
from . import explain, forms, generic, mistakes, nesting, pages, program, traces, ways, words
from .changes import Changes
from .kept import put
from .listing import COMMAND, MADE

WIDTH = 100
# Commands that edit operations which they don't name. Their answer ends with the difference, up to MOST_DIFF lines. A
# traced command shows its rewrites instead, and `fired` its counts.
WITH_DIFF, MOST_DIFF = {"apply", "canon", "convert", "rewrite", "sweep"}, 60
TRACED = re.compile(r"(?:canon|convert|(?:rewrite|canon[ \t]+only)[ \t]+[^ \t]+(?:[ \t]+proved)?)"
                    r"[ \t]+(trace|fired)(?![^ \t])")
# How many listings are cached.
MOST_LISTINGS = 2
# In a script, a comment before a `begin` has the name of the mark.
MARK = re.compile(rf"// begin ({words.NAME})")


def cut_off(changes):
    """Returns the first lines of a difference that is long."""
    lines, more = changes.lines(MOST_DIFF), len(changes) - MOST_DIFF
    if more > 0:
        lines.append(f".. {more} more lines: `diff` shows them")
    return lines or ["nothing changed"]


class Entry:
    """One or more lines of the script that `save` writes. `is_kept` says whether they are run again before each further
    line, and `name` is the name of the mark that they make."""

    def __init__(self, line, is_kept, name=None):
        self.line, self.is_kept, self.name = line, is_kept, name

    def text(self):
        """Returns the entry as lines of a script."""
        return (f"// begin {self.name}\n" if self.name else "") + self.line + "\n"


class Session:
    """A module, the accepted lines, and the listing that `diff` compares with. `shows_texts` says whether a trace is
    shown with the texts of its operations."""

    def __init__(self, module, way=None):
        self.module, self.entries, self.undone = module, [], []
        self.way = way or ways.fitting(module)
        self.listings, self.seen, self.start, self.refusals = {}, None, [], 0
        self.shows_texts = False
        self.words = {"ids": self.ids, "at": self.at, "find": self.find, "diff": self.diff, "undo": self.undo,
                      "redo": self.redo, "save": self.save, "source": self.source, "write": self.write,
                      "help": self.help, "quit": list}
        self.named = {"begin": self.begin_named, "rollback": self.rollback_named}

    # The script.

    def begin(self, script):
        """Runs a script and adds its lines to the session. Returns the output of the run."""
        run = Transcript(0, "")
        if script or not self.listing().texts:
            run = program.ran(joined(self.module, script), *program.explaining())
        if not run.refused:
            self.take(script, run.replies())
            self.start, self.seen, self.refusals = self.kept(), self.listing(), int(run.status == 1)
        return run

    def take(self, script, replies):
        """Adds the lines of a script, which have these replies."""
        replies, name = iter(replies), None
        for line in script.rstrip(b"\n").split(b"\n") if script else []:
            is_kept = is_counted(line) and not next(replies, ways.REFUSED).is_refused
            text = line.decode("utf-8", "surrogateescape")
            is_mark = is_kept and text.split() == ["begin"]
            if is_mark and name:
                self.entries.pop()
            self.entries.append(Entry(text, is_kept and text.split()[0] not in forms.looks(),
                                      name if is_mark else None))
            found = MARK.fullmatch(text)
            name = found and found[1]

    def kept(self):
        """Returns the accepted edits."""
        return [line for entry in self.entries if entry.is_kept for line in entry.line.split("\n")]

    def script(self):
        """Returns all accepted lines as a script."""
        return "".join(entry.text() for entry in self.entries).encode("utf-8", "surrogateescape")

    def add(self, *entries):
        """Adds entries. What was undone before an edit can't be redone."""
        self.entries += entries
        if any(entry.is_kept for entry in entries):
            self.undone = []

    def marks(self):
        """Returns the open marks, the oldest first: the name of each, or None, and the number of edits up to it."""
        open_marks, lines = [], 0
        for entry in self.entries:
            for line in entry.line.split("\n") if entry.is_kept else []:
                lines += 1
                if line.split() == ["begin"]:
                    open_marks.append((entry.name, lines))
                elif line.split() in (["rollback"], ["commit"]):
                    open_marks.pop()
        return open_marks

    # Requests to the program.

    def run(self, line):
        """Runs the edits and then a line. Returns the reply to the line, and the lines below it."""
        reply = self.way.answer(self.kept(), line)
        return reply, reply.lines

    def keep(self, lines, listing):
        """Caches the listing after some edits, and drops the oldest listings."""
        self.listings.pop(tuple(lines), None)
        self.listings[tuple(lines)] = listing
        for state in list(self.listings)[:-MOST_LISTINGS]:
            del self.listings[state]

    def listing_of(self, lines):
        """Returns the listing after some edits."""
        if tuple(lines) not in self.listings:
            self.keep(lines, self.way.listed(lines))
        return self.listings[tuple(lines)]

    def listing(self):
        """Returns the listing of the current module."""
        return self.listing_of(self.kept())

    def listed_around(self, line):
        """Runs a line that rewrites. Returns its reply, and the listings before and after the line, which it caches.
        After a refused line the second listing is None."""
        lines = self.kept()
        reply, before, after = self.way.rewritten(lines, line, self.listings.get(tuple(lines)))
        self.keep(lines, before)
        if not reply.is_refused:
            self.keep([*lines, line], after)
        return reply, before, after

    def rewritten(self, line):
        """Runs a line that rewrites. Returns its reply, and the lines below the reply, with the difference."""
        reply, before, after = self.listed_around(line)
        if reply.is_refused:
            return reply, []
        lines = traces.with_texts(reply.lines, before, after) if self.shows_texts else reply.lines
        return reply, [*lines, *cut_off(Changes(before, after))]

    def traced(self, line):
        """Runs a line that prints a trace. Returns its reply, and the lines below the reply, with texts of
        operations."""
        reply, before, after = self.listed_around(line)
        return reply, reply.lines if reply.is_refused else traces.with_texts(reply.lines, before, after)

    # Answers.

    def answer(self, line):
        """Returns the lines that answer a typed line."""
        line = line.strip(" \t\r\n")
        word, rest = (line.split(maxsplit=1) + ["", ""])[:2]
        if not line or line.startswith("//"):
            self.add(*[Entry(line, False)] * bool(line))
            return []
        if word in self.words:
            return self.own(words.WORDS[word], self.words[word], word, rest)
        if word in self.named and rest:
            return self.own(words.NAMED[word], self.named[word], word, rest)
        if word in mistakes.kinds():
            return self.own(words.OF_KIND, lambda it: self.rows(word, it), word, rest)
        return self.command(line)

    def own(self, own, call, word, rest):
        """Answers a word of the prompt, if the rest of its line is right."""
        parts = words.found(own, rest)
        return self.no(words.wrong(own, word, rest)) if parts is None else call(*parts)

    def no(self, sentence):
        """Counts a line that does nothing, and returns the lines that say why."""
        self.refusals += 1
        return textwrap.wrap(sentence, WIDTH, subsequent_indent="    ", break_long_words=False, break_on_hyphens=False)

    def command(self, line):
        """Runs a command of a script, and keeps it if it is accepted."""
        word, traced = line.split()[0], TRACED.match(line)
        has_diff, has_texts = word in WITH_DIFF and not traced, self.shows_texts and traced and traced[1] == "trace"
        reply, below = (self.rewritten if has_diff else self.traced if has_texts else self.run)(line)
        if reply.is_refused:
            return [*self.refused(reply, line.encode("utf-8", "surrogateescape")), *below]
        try:
            below = self.printed() if line == "print" and isinstance(self.module, Nested) else below
        except FormBroken as fault:
            return self.no(str(fault))
        self.add(Entry(line, word not in forms.looks()))
        return [reply.text, *below]

    # Modules that were nested.

    def shown(self, lines):
        """Returns the lines of an output, with blocks in modules that `print` shows, if the module was nested."""
        if not isinstance(self.module, Nested):
            return lines
        found, faults = nesting.flattened(lines)
        return [*found, *(line for fault in faults for line in self.no(str(fault)))]

    def printed(self):
        """Returns the lines of the module, with blocks if it was nested. Raises FormBroken if it can't be printed."""
        if isinstance(self.module, Nested):
            text = self.way.answer(self.kept(), COMMAND).shown
            if is_nested(text):
                return lines_of(flatten(text, True))
        return self.way.answer(self.kept(), "print").lines

    def refused(self, reply, line):
        """Returns why a line is refused, and the line of the operation that its reply names."""
        own = {word: [it.form] for word, it in words.WORDS.items()}
        fault, number = mistakes.explained(reply, line, own), reply.refusal().operation
        pointed = mistakes.pointed(line, fault.column) if fault.column is not None else []
        near = [] if number is None else self.listing().near(number, 0) or [MADE]
        return [*self.no(f"refused {fault.words}"), *pointed, *near]

    # The words of the prompt.

    def rows(self, kind, word):
        """Returns the rows of a report that contain a word."""
        reply, *rows = self.command(f"report {kind}")
        if reply != "ok":
            return [reply, *rows]
        rows = [row for row in rows if not word or word in row.split()]
        missing = self.listing().missing(word) if word and not rows else ""
        return self.no(missing) if missing else rows or ["no rows"]

    def ids(self):
        """Returns the module with numbers."""
        return self.listing().lines()

    def at(self, number, lines):
        """Returns the lines around an operation."""
        found = self.listing().near(int(number), int(lines or 3))
        return self.no(f"#{number} isn't in the module") if found is None else found

    def find(self, name):
        """Returns the lines that contain a name."""
        pattern = re.escape(name).replace(r"\*", r"[\w.]*")
        found = re.compile(r"(?<![\w%@#])" * name[0].isalnum() + pattern + r"(?!\w)")
        lines = [line for line in self.listing().lines() if found.search(line)]
        return lines or [f"no line contains `{name}`"]

    def diff(self, mark):
        """Returns what changed since the last `diff`, since a mark, or since the start."""
        now = self.listing()
        if mark is None:
            old, self.seen = self.seen, now
        elif mark == "start":
            old = self.listing_of(self.start)
        else:
            lines = dict(self.marks()).get(mark)
            if lines is None:
                return self.no(self.no_mark(mark))
            old = self.listing_of(self.kept()[:lines])
        return Changes(old, now).lines() or ["nothing changed"]

    def no_mark(self, name):
        """Returns the message for a name that no open mark has."""
        those = ", ".join(f"`{it}`" for it, _ in self.marks() if it)
        known = f"the named marks are {those}" if those else "`begin NAME` makes one"
        return f"no open mark is named `{name}`: {known}"

    def begin_named(self, name):
        """Makes a mark that has a name."""
        if name == "start" or name in dict(self.marks()):
            why = "that is the start of the session" if name == "start" else "an open mark has that name"
            return self.no(f"a mark can't be named `{name}`: {why}; write another name")
        said = self.command("begin")
        if said == ["ok"]:
            self.entries[-1].name = name
        return said

    def rollback_named(self, name):
        """Rolls back to the mark that has a name."""
        names = [it for it, _ in self.marks()]
        if name not in names:
            return self.no(self.no_mark(name))
        lines = ["rollback"] * (len(names) - names.index(name))
        reply = self.way.answer([*self.kept(), *lines[:-1]], lines[-1])
        if not reply.is_refused:
            self.add(Entry("\n".join(lines), True))
        return [reply.text]

    def undo(self, many):
        """Takes back the last edits, with the lines typed after them."""
        said = []
        for _ in range(int(many or 1)):
            places = [place for place, entry in enumerate(self.entries) if entry.is_kept]
            if not places:
                return said or self.no("there is no edit to undo")
            gone, self.entries = self.entries[places[-1]:], self.entries[:places[-1]]
            self.undone.append(gone)
            said.append("undone: " + gone[0].line.strip().replace("\n", "; "))
        return said

    def redo(self, many):
        """Repeats edits that `undo` took back."""
        said = []
        for _ in range(int(many or 1)):
            if not self.undone:
                return said or self.no("there is no edit to redo: nothing was undone, or a later edit replaced it")
            there = self.undone.pop()
            self.entries += there
            said.append("redone: " + there[0].line.strip().replace("\n", "; "))
        return said

    def save(self, name):
        """Writes all accepted lines into a file."""
        return self.put(name, self.script(), f"{len(self.script().splitlines())} lines")

    def put(self, name, text, what):
        """Writes a file. Returns what was written, or why the file can't be written."""
        try:
            put(name, text)
        except OSError as fault:
            return self.no(str(fault))
        return [f"{what} in {name}"]

    def source(self, name):
        """Takes the lines of a script as if they were typed, in one run."""
        try:
            with open(name, "rb") as file:
                script = file.read()
        except OSError as fault:
            return self.no(str(fault))
        kept = self.kept()
        before = "".join(line + "\n" for line in kept).encode("utf-8", "surrogateescape")
        run = program.ran(joined(self.module, before + script), *program.explaining())
        replies = list(itertools.islice(run.replies(), len(kept), None))
        told = explain.commands_refused(name, (self.module, script), 1, replies, kept)
        self.undone = []
        self.take(script, replies)
        self.refusals += bool(told)
        said = [line for number, it in enumerate(replies, 1) for line in (f"{number} {it.brief}", *it.lines)]
        return [*self.shown(said), *told]

    def write(self, name, pretty):
        """Writes the module into a file."""
        try:
            lines = self.printed()
        except FormBroken as fault:
            return self.no(str(fault))
        text = "".join(line + "\n" for line in lines).encode("utf-8", "surrogateescape")
        if pretty:
            try:
                text = generic.pretty(text)
            except program.Fault as fault:
                return self.no(str(fault))
        return self.put(name, text, f"{len(text.splitlines())} lines")

    def help(self, word):
        """Returns the words of the prompt and the commands of a script, or the help on a word."""
        if word:
            return pages.about(word) or self.no(f"no help on `{word}`: `help` lists the words")
        forms_of = [f"  {form}" for those in mistakes.forms().values() for form in those]
        return ["Words of the prompt:", *words.rows(WIDTH), "", "Commands, as in a script:", *forms_of]
