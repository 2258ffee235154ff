"""Whole runs, and runs that answer line by line, with a pattern registry from the start."""
import functools
import io

from . import live, patterns, rules, script
from .script import ALL, BOXES, LIMIT


class BookRefused(Exception):
    """A line of a pattern file is no pattern, or a pattern file can't be read; says which, and why."""


def read_book(text, book):
    """Adds the patterns of a text to a registry, by their names. Each line is a pattern, as after `pattern`."""
    for count, line in enumerate(text.split(b"\n"), 1):
        line = line.strip(b" \t\r")
        if line and not line.startswith(b"//"):
            try:
                found = patterns.read(line, book)
            except rules.Refused as fault:
                raise BookRefused(f"line {count}: refused {script.printing.refusal(fault)}") from None
            book[found.name] = found


def text_of(file):
    """The text of a file of patterns."""
    try:
        with open(file, "rb") as given:
            text = given.read(live.MOST_INPUT + 1)
    except OSError:
        raise BookRefused(f"{file}: it can't be read") from None
    if len(text) > live.MOST_INPUT:
        raise BookRefused(f"{file}: it is longer than an input may be")
    return text


def book_of(files):
    """The registry of some pattern files, in their order. All files are read before the first pattern is defined."""
    book = {}
    for file, text in [(file, text_of(file)) for file in files]:
        try:
            read_book(text, book)
        except BookRefused as fault:
            raise BookRefused(f"{file}: {fault}") from None
    return book


class Run(script.Run):
    """A run with a pattern registry."""

    def __init__(self, module, boxes=BOXES, commands=ALL, limit=LIMIT, book=None):
        super().__init__(module, boxes, commands, limit)
        self.book = dict(book or {})


def run(text, brief=True, limit=LIMIT, book=None, reader=rules.Reader, explained=False, strict=False, boxes=BOXES):
    """The status of a run over an input, and what it writes."""
    return script.run(text, brief, boxes, ALL, limit, functools.partial(Run, book=book), reader, explained, strict)


def answers(lines, brief=True, limit=LIMIT, book=None, reader=rules.Reader, explained=False, strict=False,
            boxes=BOXES):
    """The answers to an input whose lines come one by one, each with the status if the input ends after it."""
    return live.answers(lines, brief, limit, boxes, ALL, functools.partial(Run, book=book), reader, explained, strict)


def run_live(text, brief=True, limit=LIMIT, book=None, strict=False):
    """The status of a run that answers each line of an input as soon as it arrives, and what it writes."""
    statuses, told = zip(*answers(live.lines_of(io.BytesIO(text)), brief, limit, book, strict=strict))
    return statuses[-1], b"".join(told)
