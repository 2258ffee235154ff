"""Says of a refusal what was found, what was expected, and what to do.

The sentences on texts are those of the program: docs/commands.json has those on modules from its code, and a reply has
the one on a pattern. Those on commands are below. docs/REFUSALS.md has the rest."""
import functools
import re

from . import table
from .data import DOCS

# The token at a byte, as the program shows it.
TOKEN = re.compile(rb'"[ !#-~]*"?|[%^#!@][A-Za-z0-9_$.-]*|[A-Za-z0-9_$.]+|[-=]>|[ !-~]')
MOST_SHOWN = 60
BARE = re.compile(rb"[A-Za-z0-9_$.]*")
FLOATS = re.compile(r"f32|f64|f16|bf16|tf32|f80|f128|(?:f8E|f6E|f4E).*")
CAUSES = {"loc": "location", "tensor": "tensor-type", "vector": "vector-type", "complex": "other-type",
          "tuple": "other-type", "none": "other-type", "dense": "dense", "dense_resource": "dense", "sparse": "dense",
          "affine_map": "affine", "affine_set": "affine", "module": "pretty-form"}
# A byte of a string, in two hexadecimal digits.
ESCAPE = re.compile(r"\\([0-9A-Fa-f]{2})")
# A link of a page.
LINK = re.compile(r" *\(?\[[^]]*\]\([^)]*\)\)?")
# The largest number of a refusal of a text.
LAST_OF_TEXT = 14


@functools.lru_cache(maxsize=None)
def of_page():
    """Returns the sentence and the fix of each refusal in docs/REFUSALS.md, by its number; a fix may be empty."""
    page = (DOCS / "REFUSALS.md").read_text()
    found = {}
    for number, text in re.findall(r"^### (\d+) \w+\n\n(.*?)(?=^##|\Z)", page, re.M | re.S):
        fix = re.search(r"^\*Fix:\*\s(.*?)(?:\n\n|\Z)", text, re.M | re.S)
        found[int(number)] = [" ".join(it.split()).rstrip(".") for it in (text.split("\n\n")[0], fix[1] if fix else "")]
    return found


def general(number):
    """Returns the sentence of a refusal, and what to do."""
    sentence, fix = of_page().get(number, ("", ""))
    if not sentence:
        return "docs/REFUSALS.md has the refusals"
    return f"{sentence}: {LINK.sub('', fix).partition('. ')[0]}" if fix else sentence


@functools.lru_cache(maxsize=None)
def sentences(of):
    """Returns the sentences of the program on modules or constructs, by their words."""
    return {row["word"]: row["about"] for row in table.rows("messages") if row["of"] == of}


def token_at(text, at):
    """Returns the token at a byte of a text; empty at the end, and at a byte that isn't printable."""
    it = TOKEN.match(text, at)
    return it.group()[:MOST_SHOWN].decode("latin-1") if it else ""


def found(text, at):
    """Says what is at a byte of a text."""
    token = token_at(text, at)
    if at >= len(text):
        return "found the end of the text"
    return f"found `{token}`" if token else "found another byte"


def cause(text, at):
    """Returns the word of the unsupported construct at a byte."""
    if at >= len(text):
        return "other"
    first, word = chr(text[at]), BARE.match(text, at).group().decode()
    if first in "#!":
        dotted = b"." in BARE.match(text, at + 1).group()
        return ("dialect-attribute" if first == "#" else "dialect-type") if dotted else "alias"
    if first.isascii() and (first.isalpha() or first == "_"):
        if FLOATS.fullmatch(word):
            return "float-type"
        return CAUSES.get(word, "pretty-form" if "." in word else "word")
    if first in "0123456789+-":
        return "float"
    return {"@": "symbol"}.get(first, "between-lines" if first in "\t\n\r/" else "other")


def of_module(text, at, number, word):
    """Returns why a module, or an operation or an attribute in a command, is refused at a byte."""
    if number == 13:
        known = sentences("construct")
        why = cause(text, at)
        if why not in known:
            return token_at(text, at) + sentences("opaque")[""]
        return f"{found(text, at)}, {known[why]}"
    those = sentences("module")
    return f"{found(text, at)}, {those.get(word, those[''])}"


def of_pattern(number, about):
    """Returns why a pattern is refused: the sentence of the reply, or what is said of the number if there is none."""
    if not about or not about[0].startswith('"'):
        return general(number)
    return ESCAPE.sub(lambda it: chr(int(it[1], 16)), about[0][1:-1])


def named(those):
    """Returns some names as a list in a sentence."""
    return ", ".join(those)


def unknown_name(words):
    """Returns why a command with these words has no such entry, rule or pattern."""
    by = {"check": words[1:2], "forget": words[1:2], "apply": words[1:2], "why": words[2:3], "rewrite": words[1:2],
          "canon": words[2:3]}.get(words[0], words[1:])
    known = {row["word"] for row in table.rows("rules")}
    names = [f"`{it}`" for it in ",".join(by).split(",") if it and it not in known and not it.isdigit()]
    if words[0] in ("check", "forget", "patterns"):
        return f"found {named(names)}, expected the name of a pattern: define one with `pattern`, or correct the name"
    if words[0] == "drop-attr":
        return (f"found the key `{' '.join(words[2:])}`, expected one of operation {words[1]}: `print` shows its keys")
    return (f"found {named(names)}, expected a rule or a pattern: correct the name, or define a pattern; "
            "`help RULE` describes a rule")


def bad_limit(words):
    """Returns why the limit of a rewrite or the width of a check is refused."""
    if words[0] == "check":
        return "found too large a width or too many values, expected 1 to 128: name a smaller width, or add `sampled`"
    return f"found `{words[-1]}`, expected a limit from 1 to 1,000,000: correct the limit"


def of_command(number, words, about):
    """Returns why a command with these words is refused. `about` has what the refusal names."""
    if number == 26:
        return unknown_name(words)
    if number == 50:
        return bad_limit(words)
    if not about:
        return general(number)
    first, rest = about[0], about[1:]
    if number == 24:
        return (f"found {about[2]} of type {about[3].strip(chr(34))}, expected type {about[1].strip(chr(34))} as of "
                f"{first}: name a value of that type, or insert a cast")
    says = {
        20: f"found {named(about)}, expected an operation of the module: `print ids` shows the numbers",
        21: f"found {named(about)}, expected a value of the module: %vN.K is result K of #N, and %aN.R.K argument K of "
            "region R, all from 0",
        22: f"found uses by {named(about)}, expected none: erase the users first, or `replace` the value",
        23: f"found {first}, expected a value that is visible at {named(rest)}: name one that is defined earlier in "
            "the block, or in a block around it",
        25: f"found another number, expected an operand, or a region with a block, of {first}: count from 0",
        27: f"found a place inside {first}, expected one outside: name a place outside {first}",
        28: f"found a place in another `builtin.module`, expected one in that of {first}: name a place there",
        29: f"found {first}, the module, expected an operation inside it: name an operation inside",
    }
    return says.get(number) or general(number)
