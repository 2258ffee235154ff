"""Reads docs/commands.json, the table of options, commands, placeholders, kinds, refusals and rules. gate/words.py
writes it from the code; the tools, the man page and the completions read it."""
import functools
import json

from .data import DOCS


@functools.lru_cache(maxsize=None)
def rows(name):
    """Returns the rows of a part of the table."""
    return json.loads((DOCS / "commands.json").read_text())[name]


def column(name, key="word"):
    """Returns the values of the rows of a part at a key, each once."""
    return list(dict.fromkeys(row[key] for row in rows(name)))
