"""Finds help on a command, a kind, a refusal or a rule, in docs/ and in docs/commands.json."""
import functools
import re
import textwrap

from . import forms, table, words
from .data import DOCS

TITLE = re.compile(r"^(#{2,3}) (.*)\n", re.M)
NUMBERED = re.compile(r"(\d+) (\w+)\b")
RULE = re.compile(r"(\d+) `([\w-]+)`: ")
OF_VERIFIER = re.compile(r"(V\d+): ")
# The column at which the description of a form begins, and the width of a line.
WIDTH, COLUMNS = 27, 80
LOW = {"rule": "rules", "refusal": "refusals"}


def sections(page):
    """Returns the sections of a page by their titles. A section ends where the next one begins."""
    parts = TITLE.split((DOCS / page).read_text())
    return {title: text.strip("\n") for title, text in zip(parts[2::3], parts[3::3])}


def numbered(page, pattern):
    """Returns the sections whose titles have a number and a word, by either of them."""
    found = {}
    for title, text in sections(page).items():
        it = pattern.match(title)
        for name in it.groups() if it else ():
            found[name.lower()] = [title, "", *text.splitlines()]
    return found


@functools.lru_cache(maxsize=None)
def refusals():
    """Returns the sections of refusals, by numbers and words."""
    return numbered("REFUSALS.md", NUMBERED)


@functools.lru_cache(maxsize=None)
def rules():
    """Returns the sections of rewrite rules, by numbers and words, and of verifier rules, as `v15`."""
    return {**numbered("CONVERT.md", RULE), **numbered("CANONICALIZE.md", RULE),
            **numbered("VERIFIER.md", OF_VERIFIER)}


@functools.lru_cache(maxsize=None)
def kinds():
    """Returns the sections of kinds."""
    found = sections("REPORTS.md")
    return {kind: [kind, "", *found[kind].splitlines()] for kind in forms.kinds() if kind in found}


@functools.lru_cache(maxsize=None)
def commands():
    """Returns the forms of each command, each with its description."""
    found = {}
    for row in table.rows("commands"):
        begin = row["form"].ljust(WIDTH) if len(row["form"]) < WIDTH - 1 else f"{row['form']}  "
        found.setdefault(row["word"], []).extend(textwrap.wrap(
            row["about"], COLUMNS, initial_indent=begin, subsequent_indent=" " * WIDTH))
    return found


def grammar(word):
    """Returns the grammar of patterns, for words about patterns."""
    if word not in ("pattern", "pattern!", "patterns", "grammar", "check"):
        return []
    lines = sections("PATTERNS.md")["The language"].splitlines()
    return ["Grammar of patterns:", *(line[2:] for line in lines if line.startswith("    "))]


def own(word):
    """Returns the form of a word of the prompt, and its description."""
    those = [it[word] for it in (words.WORDS, words.NAMED) if word in it]
    return [line for it in those for line in (it.form, f"    {it.about}")]


def about(text):
    """Returns the help on a word: all its meanings, one below another. `rule 22` and `refusal 22` have one meaning."""
    *before, word = text.lower().split()
    kind = LOW.get(" ".join(before))
    if before and not kind:
        return []
    found = [refusals().get(word) if kind != "rules" else None, rules().get(word) if kind != "refusals" else None]
    if not kind:
        found += [commands().get(word), own(word), kinds().get(word), grammar(word)]
    found = [lines for lines in found if lines]
    return [line for place, lines in enumerate(found) for line in [""] * bool(place) + lines]
