"""The parts of a line of a script: words, numbers, operations, values, places and keys."""
import re

from .module import rules


class Bad(Exception):
    """A line is no command."""


def number(digits):
    if not re.fullmatch("[0-9]+", digits) or int(digits) > 4294967295:
        raise Bad
    return int(digits)


def op_of(word):
    if not word.startswith("#"):
        raise Bad
    return number(word[1:])


def value_of(word):
    found = re.fullmatch(r"%v([0-9]+)\.([0-9]+)|%a([0-9]+)\.([0-9]+)\.([0-9]+)", word)
    if not found:
        raise Bad
    return (word[1],) + tuple(number(it) for it in found.groups() if it is not None)


def cut(text):
    """The first word of a text, and the rest."""
    found = re.fullmatch(r"([^ \t]*)[ \t]*(.*)", text, re.S)
    return found[1], found[2]


def cut_place(text):
    word, rest = cut(text)
    op, rest = cut(rest)
    if word in ("before", "after"):
        return (word, op_of(op), None), rest
    if word not in ("start", "end"):
        raise Bad
    region, rest = cut(rest)
    return (word, op_of(op), number(region)), rest


def cut_key(text):
    if text.startswith('"'):
        try:
            key = rules.token(text.encode("latin-1"), 0)
        except rules.Refused:
            raise Bad from None
        if text[key.end:key.end + 1] not in ("", " ", "\t"):
            raise Bad
        return key.text, text[key.end:].lstrip(" \t")
    key, rest = cut(text)
    if not re.fullmatch(r"[A-Za-z_][A-Za-z0-9_$.]*", key):
        raise Bad
    return key.encode(), rest


def need(is_so):
    if not is_so:
        raise Bad
