"""The forms of the commands, from docs/commands.json, and how much of a form a line matches.

Words in small letters in a form are literal, and `full|partial` is a choice. PARTS has a pattern for each other word. A
new command in the table needs no change here."""
import functools
import re

from . import table, targets
from .targets import MOST_NUMBER

BLANK = re.compile(r"[ \t]*")
WORD = re.compile(r"[^ \t]*")
LITERAL = re.compile(r"\(?[a-z]+(?:\|[a-z]+)*\)?")
NUMBER = r"[0-9]+"
VALUE = rf"%v{NUMBER}\.{NUMBER}|%a{NUMBER}\.{NUMBER}\.{NUMBER}"
PLACE = rf"(?:before|after)[ \t]+#{NUMBER}|(?:start|end)[ \t]+#{NUMBER}[ \t]+{NUMBER}"
KEY = r'"(?:[^"\\]|\\(?:[nt"\\]|[0-9A-Fa-f]{2}))*"|[A-Za-z_][A-Za-z0-9_$.]*'
NAME = r"[^ \t0-9][^ \t]*"
RULE = r"0*(?:[1-9]|[12][0-9]|30)(?![^ \t])|[^ \t0-9][^ \t]*"
NUMBER_TRIED = "0*(?:[1-9]|1[0-9]|2[0-4])"
TRIED = rf"(?:{NUMBER_TRIED}(?:-{NUMBER_TRIED})?(?![^ \t,])|[^ \t0-9,][^ \t,]*)"
RULES = rf"{TRIED}(?:,{TRIED})*(?![^ \t])"
# A pattern for each variable word of a form, and a sentence about it.
PARTS = {
    "#N": (f"#{NUMBER}", "an operation is #N, as #3"),
    "K": (NUMBER, "K is the number of an operand, counted from 0"),
    "N": (NUMBER, "N is a whole number"),
    "COUNT": (NUMBER, "a count is a whole number"),
    "W": (NUMBER, "a width is a whole number"),
    "NAME": (NAME, "the name of a pattern doesn't begin with a digit"),
    "MODE": ("partial|full", "a mode is `partial` or `full`"),
    "VALUE": (VALUE, "a value is %vN.K, result K of #N, or %aN.R.K, argument K of the block of its region R"),
    "PLACE": (PLACE, "a place is `before #N`, `after #N`, `start #N R` or `end #N R`"),
    "RULE": (RULE, "a rule is a number from 1 to 30, a word, as drop-zero, or the name of a pattern"),
    "RULES": (RULES, "rules are numbers from 1 to 24, ranges as 4-9, words, or names of patterns, in the order to "
              "try them, with commas and no blanks, as 4,drop-one"),
    "REFUSAL": (r"[0-9]+|[A-Z][A-Za-z0-9]*", "a refusal is a number or a word, as 22 or HasUses"),
    "KEY": (KEY, 'a key is a bare identifier, or a string as "a b"'),
}
# Words for the rest of a line. A refusal of such a text has a byte offset from its first byte.
TEXTS = {"OPERATION", "ATTRIBUTE", "PATTERN", "COMMAND"}


class Fault:
    """What is wrong with a line: the byte, or None, and the words."""

    def __init__(self, column, words):
        self.column, self.words = column, words


@functools.lru_cache(maxsize=None)
def forms_of(part=None):
    """Returns the forms of each command by its first word: of all commands, or of one part of the help."""
    found = {}
    for row in table.rows("commands"):
        if part in (None, row["part"]):
            found.setdefault(row["word"], []).append(row["form"])
    return found


def forms():
    """Returns the forms of each command by its first word."""
    return forms_of()


def looks():
    """Returns the commands that change nothing."""
    return forms_of("To look")


def kinds():
    """Returns the kinds of analyses."""
    return table.column("kinds")


def shown(those):
    """Returns forms for a message."""
    return " or ".join(f"`{form}`" for form in those)


def part(word):
    """Returns the pattern and the description of a word of a form, or None if the word isn't known."""
    if word == "KIND":
        return "|".join(kinds()), f"the kinds are {', '.join(kinds())}"
    if word in TEXTS:
        return ".+", f"the rest of the line is the {word.lower()}"
    if LITERAL.fullmatch(word):
        return word.strip("()"), ""
    return PARTS.get(word)


def first_word(line):
    """Returns the first word of a line, and the byte at which it begins."""
    begin = BLANK.match(line).end()
    return WORD.match(line, begin).group(), begin


class Fit:
    """How much of a form a line matches. `parts` are the matched words of the form, with the bytes at which they begin
    and end in Latin-1. If the line doesn't match, `column` is the byte of the fault, and `wanted` the missing word of
    the form, or None if the line is too long. `words` has a further explanation, or is empty."""

    def __init__(self, form, line):
        self.form, self.parts, self.column, self.wanted, self.words = form, [], None, None, ""
        word, begin = first_word(line)
        self.look(line, begin + len(word), form.split()[1:])

    def fails(self, column, wanted=None, words=""):
        """Notes what is wrong."""
        self.column, self.wanted, self.words = column, wanted, words

    def look(self, line, end, words):
        """Matches words with the line. An unknown word, such as an optional one, ends the search."""
        for word in words:
            place = BLANK.match(line, end).end()
            if word.startswith("CLAUSE"):
                fault = targets.clauses(line, end)[1]
                return self.fails(fault[0], word, fault[1]) if fault else None
            if not part(word):
                return None
            it = re.compile(rf"(?:{part(word)[0]})(?=[ \t]|$)").match(line, place)
            if not it:
                return self.fails(place, word)
            end = it.end()
            self.parts.append((word, place, end))
            over = [number for number in re.findall(NUMBER, it.group()) if int(number) > MOST_NUMBER]
            if over and word not in TEXTS | {"KEY", "KIND"}:
                return self.fails(place, word, f"{over[0]} is above {MOST_NUMBER}, the greatest number")
        rest = BLANK.match(line, end).end()
        return self.fails(rest) if rest < len(line) else None


def fits(line):
    """Returns the forms of its command that a line matches, or else those that match the longest part of it."""
    found = [Fit(form, line) for form in forms()[first_word(line)[0]]]
    right = [fit for fit in found if fit.column is None]
    return right or [fit for fit in found if fit.column == max(it.column for it in found)]


def missing(line, those):
    """Returns the message for a line that lacks the next word of these forms."""
    column, write = those[0].column, f"write {shown(fit.form for fit in those)}"
    found, wanted = WORD.match(line, column).group(), [fit.wanted for fit in those if fit.wanted]
    if not wanted:
        return f"found `{line[column:]}` after the end of the command: {write}"
    if LITERAL.fullmatch(wanted[0]):
        words = " or ".join(dict.fromkeys(f"`{it}`" for word in wanted for it in word.strip("()").split("|")))
        return f"found `{found}`, expected {words}: {write}" if found else f"{words} is missing: {write}"
    begins = f"found `{found}`, expected {wanted[0]}" if found else f"{wanted[0]} is missing"
    return "; ".join(filter(None, (f"{begins}: {write}", part(wanted[0])[1])))


def misfit(line):
    """Returns why a line isn't the command that its first word names, or None if it is."""
    those = fits(line)
    if those[0].column is None:
        return None
    return Fault(those[0].column, those[0].words or missing(line, those))


def text_begins(line):
    """Returns the byte at which the text of an operation or an attribute begins in a line."""
    return next((begin for word, begin, _ in fits(line)[0].parts if word in TEXTS), 0)
