"""The output of a run as JSON, by the table of docs/JSON.md: an object a line, its keys in order."""
import json
import re

# The words of a row of `symbols`, with what their cells are.
SYMBOLS = {b"def": ("table", "name", "op"), b"duplicate": ("table", "name", "op"), b"use": ("op", "name", "target"),
           b"unresolved": ("op", "name"), b"unknown": ("op", "name"), b"mismatch": ("op", "target")}
MOST = 2 ** 32
# The words of a check that a width follows, and the forms of its values for a variable or a result.
OF_WIDTH = (b"holds", b"empty", b"unrefuted", b"fails")
OUTCOME = re.compile(rb"[-0-9].*|true|false|poison|undefined")
VERDICTS = (*OF_WIDTH, b"unchecked")
ANSWERS = (*OF_WIDTH, b"refused")
VALUE = re.compile(rb"%v(N)\.(N)|%a(N)\.(N)\.(N)".replace(b"N", rb"0|[1-9][0-9]*"))
# A cell ends at a blank outside quotes.
CELL = re.compile(rb'(?:"[^"]*(?:"|\Z)|[^ "])*')


def cut(text):
    """The first cell, and what follows its blank."""
    end = CELL.match(text).end()
    return text[:end], text[end + 1:]


def parts(text, mark):
    """The parts of a text that end at a mark, or at its end."""
    found = text.split(mark)
    return found if found[-1] else found[:-1]


def shown(word):
    """A text. What is no UTF-8 is U+FFFD."""
    return word.decode("utf-8", "replace")


def number(word):
    """The number that a word spells, or else the word."""
    if re.fullmatch(rb"0|[1-9][0-9]*", word) and int(word) < MOST:
        return int(word)
    return shown(word)


def about(rest):
    """Nothing, or what follows `about`."""
    found, rest = [], cut(rest)[1] if rest else b""
    while rest:
        cell, rest = cut(rest)
        found.append(shown(cell))
    return {"about": found} if found else {}


def refusal(rest):
    """`22 HasUses`, then an operation, or `at` and an offset, and what it is about."""
    refused, rest = cut(rest)
    word, place = cut(rest)
    told = {"refused": number(refused), "word": shown(word)}
    first, rest = cut(place)
    if place.startswith(b"#"):
        return {**told, "op": shown(first), **about(rest)}
    if first in (b"about", b""):
        return {**told, **about(place)}
    offset, rest = cut(rest)
    return {**told, "offset": number(offset), **about(rest)}


def reply(line):
    n, rest = cut(line)
    told, (word, behind) = {"n": number(n)}, cut(rest)
    if word == b"refused":
        return {**told, **refusal(behind)}
    if word == b"expected":
        expected, word = cut(behind)
        return {**told, "expected": number(expected), "word": shown(word)}
    told["reply"] = shown(word)
    if behind.startswith(b"#"):
        return {**told, "op": shown(behind)}
    return {**told, "width" if word in OF_WIDTH else "count": number(behind)} if behind else told


def row_of_operation(line):
    op, rest = cut(line)
    if not rest:
        return {"kind": "dead", "op": shown(line)}
    told = {"op": shown(op)}
    if rest.startswith(b"@"):
        return {"kind": "unreached", **told, "name": shown(rest)}
    if rest.startswith(b"V"):
        return {"kind": "diagnostics", **told, "rule": shown(rest)}
    return {"kind": "effects", **told, "words": [shown(word) for word in parts(rest, b" ")]}


def row_of_check(line):
    name, outcome = cut(line)
    return {"kind": "check", "name": shown(name), "outcome": shown(outcome)}


def verdict(said):
    """What a check said, with its width, if there is one."""
    word, width = cut(said)
    is_wide = isinstance(number(width), int)
    return {"said": shown(word), "width": number(width)} if is_wide else {"said": shown(said)}


def row_of_pattern(line):
    pattern, _, said = line.partition(b"/")
    told = {"kind": "patterns", "name": shown(cut(line)[0]), "pattern": shown(pattern[:-1])}
    return {**told, **verdict(cut(said)[1])}


def is_unproved(line):
    """Whether a line names a pattern that no check proves: the verdict of a check follows its name. (A line of a
    pattern named `unproved` has an arrow, and a row of a constant of this name has no verdict.)"""
    word, rest = cut(line)
    return word == b"unproved" and cut(cut(rest)[1])[0] in VERDICTS and b"=" not in line


def is_checked(line):
    """Whether a line names a pattern that was checked: the answer follows its name."""
    word, rest = cut(line)
    return word == b"checked" and cut(cut(rest)[1])[0] in ANSWERS and b"=" not in line


def row_of_named(line):
    """The line of a pattern that no check proves, or that was checked."""
    kind, rest = cut(line)
    name, said = cut(rest)
    return {"kind": shown(kind), "name": shown(name), **verdict(said)}


def names_value(word):
    """Whether a word spells a value of a module."""
    found = VALUE.fullmatch(word)
    return found is not None and all(it is None or int(it) < MOST for it in found.groups())


def row_of_value(line):
    value, rest = cut(line)
    if not rest.startswith(b"#"):
        if not names_value(value):
            return row_of_check(line)
        return {"kind": "constants", "value": shown(value), "attribute": shown(rest)}
    user, operand = cut(rest)
    return {"kind": "uses", "value": shown(value), "user": shown(user), "operand": number(operand)}


def row_of_symbols(line):
    group, rest = cut(line)
    told, keys = {"kind": "symbols", "group": shown(group)}, SYMBOLS[group]
    for key in keys[:-1]:
        cell, rest = cut(rest)
        told[key] = shown(cell)
    return {**told, keys[-1]: shown(rest)}


def is_rewrite(line):
    """Whether a line is a trace line of a rule: an operation follows the number and the word of the rule."""
    word, rest = cut(line)
    return word == b"rewrote" and cut(cut(rest)[1])[1].startswith(b"#")


def is_applied(line):
    """Whether a line is a trace line of a user pattern: an operation follows its name."""
    word, rest = cut(line)
    return word == b"rewrote" and cut(rest)[1].startswith(b"#")


def is_count(line):
    """Whether a line says how many times a rule fired: a number follows the number and the word of the rule."""
    word, rest = cut(line)
    return word == b"fired" and isinstance(number(cut(cut(rest)[1])[1]), int)


def is_pattern_count(line):
    """Whether a line says how many times a user pattern fired: a number follows its name."""
    word, rest = cut(line)
    return word == b"fired" and isinstance(number(cut(rest)[1]), int)


def row_of_count(line):
    rule, rest = cut(cut(line)[1])
    word, count = cut(rest)
    return {"kind": "fired", "rule": number(rule), "word": shown(word), "count": number(count)}


def row_of_pattern_count(line):
    name, count = cut(cut(line)[1])
    return {"kind": "fired", "name": shown(name), "count": number(count)}


def row_of_applied(line):
    name, rest = cut(cut(line)[1])
    return changed({"kind": "trace", "name": shown(name)}, rest)


def row_of_rewrite(line):
    rule, rest = cut(cut(line)[1])
    word, rest = cut(rest)
    return changed({"kind": "trace", "rule": number(rule), "word": shown(word)}, rest)


def changed(told, rest):
    """The trace line with its operation, the new operations and the erased one."""
    op, rest = cut(rest)
    told = {**told, "op": shown(op)}
    if rest.startswith(b"made "):
        made, rest = cut(cut(rest)[1])
        told["made"] = [shown(it) for it in parts(made, b",")]
    return {**told, "erased": shown(cut(rest)[1])} if rest else told


def row_of_reason(line):
    op, rest = cut(cut(line)[1])
    rule, rest = cut(rest)
    if not isinstance(number(rule), int):
        return {"kind": "why", "op": shown(op), "name": shown(rule), "said": shown(rest)}
    word, rest = cut(rest)
    return {"kind": "why", "op": shown(op), "rule": number(rule), "word": shown(word), "said": shown(rest)}


def row_of_stay(line):
    """Why an operation can't be legalised: the rule that was tried last, and why it failed; or that none was tried."""
    op, rest = cut(cut(line)[1])
    told = {"kind": "stays", "op": shown(op)}
    rule, behind = cut(rest)
    if not isinstance(number(rule), int):
        return {**told, "said": shown(rest)}
    word, reason = cut(behind)
    return {**told, "rule": number(rule), "word": shown(word), "said": shown(reason)}


def worded(line):
    """A line that begins with a word. That of a pattern, or of one of its numbers, may be any."""
    word, rest = cut(line)
    if is_rewrite(line):
        return row_of_rewrite(line)
    if is_applied(line):
        return row_of_applied(line)
    if word == b"--":
        kind, state = cut(rest)
        return {"kind": shown(kind), **({"state": shown(state)} if state else {})}
    if rest.startswith(b"#") and word == b"why":
        return row_of_reason(line)
    if rest.startswith(b"#") and word == b"stays":
        return row_of_stay(line)
    if rest.startswith(b"#"):
        return row_of_symbols(line) if word in SYMBOLS else {"text": shown(line)}
    if is_count(line):
        return row_of_count(line)
    if is_pattern_count(line):
        return row_of_pattern_count(line)
    if is_unproved(line) or is_checked(line):
        return row_of_named(line)
    if OUTCOME.fullmatch(cut(rest)[0]):
        return row_of_check(line)
    if b"=" in line:
        return row_of_pattern(line)
    if word == b"module":
        return refusal(cut(rest)[1])
    if word == b"attach":
        kind, rest = cut(rest)
        return {"attach": shown(kind), **refusal(cut(rest)[1])}
    return {"text": shown(line)}


def said(line):
    """What a line says, without its end. An empty one ends an answer."""
    if not line:
        return {"end": True}
    first = line[:1]
    if first.isdigit():
        return reply(line)
    if first == b"#":
        return row_of_operation(line)
    if first == b"%":
        return row_of_value(line)
    if first in b' "}^':
        return {"module": shown(line)}
    return worded(line)


def is_object(line):
    """Whether a line is a JSON object, such as one that `show` prints."""
    try:
        return line.startswith(b"{") and isinstance(json.loads(line.decode()), dict)
    except ValueError:
        return False


def json_line(line):
    """A line as JSON. A line that is an object stays as it is."""
    if is_object(line):
        return line.decode()
    return json.dumps(said(line), sort_keys=True, ensure_ascii=False, separators=(",", ":"))


def json_of(output):
    """A whole output as JSON."""
    return "".join(json_line(line) + "\n" for line in parts(output, b"\n")).encode()
