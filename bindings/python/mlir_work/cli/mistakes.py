"""Explains refusals: the meaning, the place of the fault, and the command that was probably meant.

messages.py has the sentences, forms.py the forms of commands, and targets.py checks a `convert`."""
import difflib
import re

from . import messages, targets
from .forms import PARTS, Fault, first_word, forms, kinds, misfit, shown, text_begins

# Words that users may type, and the commands with another name that they mean.
MEANT = {"abort": "rollback", "add": "insert", "canonicalize": "canon", "define": "pattern", "delete": "erase",
         "fired": "canon", "legalize": "convert", "mark": "begin", "remove": "erase", "show": "print",
         "symbol-dce": "sweep", "trace": "canon", "undo": "rollback"}
# The same for words of the prompt.
MEANT_THERE = {"?": "help", "exit": "quit", "info": "help", "list": "ids", "load": "source", "ls": "ids", "man": "help",
               "output": "write", "q": "quit", "read": "source", "search": "find", "u": "undo", "verify": "diagnostics"}


def unknown(word, own=()):
    """Returns the message for a line whose first word isn't a command. `own` has the forms of the prompt's own words,
    if the line was typed there."""
    if word[:1] in tuple('"%^(){}'):
        return "found an operation, expected a command: write `insert PLACE OPERATION`, with the operation on one line"
    known = {**{kind: [f"report {kind}"] for kind in kinds()}, **forms(), **dict(own)}
    meant = {**MEANT, **(MEANT_THERE if own else {})}.get(word)
    near = [meant] if meant in known else difflib.get_close_matches(word, known, 1)
    if near:
        return f"unknown command `{word}`: write {shown(known[near[0]])}"
    more = f"; at the prompt also {', '.join(own)}, and the kinds {', '.join(kinds())}" if own else ""
    return f"unknown command `{word}`: the commands are {', '.join(forms())}{more}"


def misspelt(line, own=()):
    """Returns why a line isn't a command, or None if its form is right."""
    line = line.rstrip(" \t\r")
    word, begin = first_word(line)
    return misfit(line) if word in forms() else Fault(begin, unknown(word, own))


def hint(number, line, column):
    """Returns a further sentence for the most frequent mistakes, or an empty text."""
    words = line.split()
    if number == 13 and words[0] == "set-attr" and re.fullmatch(r"\w+", line[column:].strip()):
        return f', as "{line[column:].strip()}"'
    if number == 3 and words[0] == "insert":
        return ". Commands don't use the names in the module's text: " + PARTS["VALUE"][1]
    if number == 23 and words[0] == "replace":
        return ". If the second value depends on the first, set the operands that `report uses` lists one by one"
    return ""


def of_text(it, about, line, column):
    """Returns why the text of a command is refused at a byte of its line. The reply says it of a pattern."""
    if first_word(line)[0] in ("pattern", "pattern!"):
        return messages.of_pattern(it.number, about)
    return messages.of_module(line.encode("latin-1").rstrip(b" \t\r"), column, it.number, it.word)


def unfit(line, title):
    """Returns the fault in the target of a conversion, after the title of its refusal."""
    column, words = targets.unfit(line) or (None, "")
    return Fault(column, ": ".join(filter(None, (title, words or messages.general(54)))))


def explained(reply, line, own=()):
    """Returns the message for a refused command, with the place of the fault. `line` is the command, in bytes; `own`
    has the forms of the prompt's own words, if the command was typed there."""
    it, line = reply.refusal(), line.decode("latin-1")
    title = f"{it.number} {it.word}" + ("" if it.operation is None else f" #{it.operation}")
    if it.number == 60:
        fault = misspelt(line, own) or Fault(None, messages.general(60))
        return Fault(fault.column, f"{title}: {fault.words}")
    if it.number == 54:
        return unfit(line, title)
    column = None if it.at is None else text_begins(line) + it.at
    if column is not None and it.number <= messages.LAST_OF_TEXT:
        why = of_text(it, reply.about, line, column)
    else:
        why = messages.of_command(it.number, line.split(), reply.about)
    if it.number == 26:
        column = named_at(line)
    elif column is None and reply.about:
        column = where(line, reply.about[2 if it.number == 24 else 0])
    return Fault(column, f"{title}: {why}{hint(it.number, line, column or 0)}")


def where(line, word):
    """Returns the byte of the last place at which a line has a word, or None."""
    found = [it.start() for it in re.finditer(rf"(?<!\S){re.escape(word)}(?!\S)", line)]
    return found[-1] if found else None


def named_at(line):
    """Returns the byte at which a line names a rule, a pattern or a key."""
    it = re.match(r"[ \t]*(?:(?:why|drop-attr)[ \t]+#\d+|canon[ \t]+only|\S+)[ \t]+", line)
    return it.end() if it else None


def pointed(line, column):
    """Returns a line, and below it a caret at one of its bytes if there is one."""
    lines = ["    " + line.decode("utf-8", "replace").rstrip("\r")]
    if column is not None:
        before = line[:column].decode("utf-8", "replace")
        lines.append("    " + re.sub(r"[^\t]", " ", before) + "^")
    return lines
