"""Splits the bracketed parts of a printed operation: lists, dictionaries, and the bodies of opaque terms."""
import re
from typing import Iterator, List, Tuple

STRING = r'"(?:[^"\\]|\\.)*"'
# A name with its sign is one token, and may end with `-`.
_TOKEN = re.compile(rf'{STRING}|[#!](?:[0-9]+|[A-Za-z$._-][A-Za-z0-9$._-]*)?|->|[()\[\]{{}}<>,]|'
                    r'[^"#!()\[\]{}<>,-]+|.', re.S)
_ENTRY = re.compile(rf"({STRING}|[^ ]+)(?: = (.*))?", re.S)
_CLOSERS = {"(": ")", "[": "]", "{": "}", "<": ">"}


def _tokens(text: str) -> "Iterator[Tuple[re.Match[str], int]]":
    """Yields the tokens of a text, each with the number of brackets that are open after it. As the program reads it, a
    closing bracket ends the nearest open one of its kind: `>` ends nothing where `(` is nearer, nor does that of `->`;
    and the `<` of `<=` opens a bracket."""
    coming: List[str] = []
    for token in _TOKEN.finditer(text):
        if coming and token[0] == coming[-1]:
            coming.pop()
        elif token[0] in _CLOSERS:
            coming.append(_CLOSERS[token[0]])
        yield token, len(coming)


def parts(text: str) -> List[str]:
    """Returns the parts of a text between the commas that are outside all brackets."""
    found = [""]
    for token, depth in _tokens(text):
        if token[0] == "," and not depth:
            found.append("")
        else:
            found[-1] += token[0]
    return [it.strip() for it in found if it.strip()]


def closed(text: str) -> int:
    """Returns the length of the part of a text from its first bracket to the one that closes it."""
    return next((token.end() for token, depth in _tokens(text) if not depth), len(text))


def taken(text: str, opens: str) -> Tuple[List[Tuple[str, str]], str]:
    """Returns the entries of the dictionary that a text begins with, if it does, each with its key and its value, and
    the text after it. `opens` is a blank and the brackets of the dictionary. An entry without a value is `unit`."""
    if not text.startswith(opens):
        return [], text
    text, margin = text[1:], len(opens) - 1
    end = closed(text)
    found = [_ENTRY.fullmatch(part) for part in parts(text[margin:end - margin])]
    return [(it[1], it[2] or "unit") for it in found if it], text[end:]
