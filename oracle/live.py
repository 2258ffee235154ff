"""Runs that answer each line as soon as it arrives, as the program does with `--interactive`: first the answer to the
module (the lines of the analyses that aren't attached, so mostly nothing), then the answer to each line, which is that
of a whole run of the input up to that line. Each ends with an empty line."""
import io
import itertools

from . import culprits, script
from .module import printing, read, rules

DIVIDER = b"// -----"
MOST_INPUT, MOST_LINE = 32 * 1024 * 1024, 16 * 1024 * 1024
END = b"\n"


def module_of(lines):
    """The text of the module: the lines before the first one that is exactly the divider, which is taken too."""
    return b"".join(itertools.takewhile(lambda line: line.removesuffix(b"\n") != DIVIDER, lines))


def lines_of(given):
    """The lines of a file, as they arrive; of a line that is too long only one byte more than the limit."""
    return iter(lambda: given.readline(MOST_LINE + 1), b"")


def answers(lines, brief=True, limit=script.LIMIT, boxes=script.BOXES, commands=script.ALL, make=script.Run,
            reader=rules.Reader, explained=False, strict=False):
    """The answers to an input whose lines come one by one, each with its line feed, if it has one, and the exit status
    if the input ends after it. A line that says nothing has no answer; one that is too long ends all."""
    lines = iter(lines)
    text = module_of(lines)
    try:
        if len(text) > MOST_INPUT:
            raise rules.Refused(11, MOST_INPUT)
        here = make(read(text, reader), boxes, commands, limit)
    except rules.Refused as fault:
        told = culprits.about_text(text, fault) if explained else ""
        yield 3, f"module refused {printing.refusal(fault)}{told}\n".encode()
        return
    here.reader, here.explained, here.strict = reader, explained, strict
    status, count = 0, 0
    yield status, END
    for line in lines:
        if len(line) > MOST_LINE:
            yield 4, b""
            return
        for said in script.lines_of(line):
            count += 1
            is_accepted, told = script.answer(here, count, said, brief)
            status = status if is_accepted else 1
            yield status, told.encode() + END


def run(text, brief=True, limit=script.LIMIT, reader=rules.Reader, explained=False, strict=False, boxes=script.BOXES):
    """The status of a run over an input, and what it writes."""
    statuses, told = zip(*answers(lines_of(io.BytesIO(text)), brief, limit, boxes, reader=reader, explained=explained,
                                  strict=strict))
    return statuses[-1], b"".join(told)
