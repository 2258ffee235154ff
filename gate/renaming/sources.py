"""The sources of a checkout as tokens, with the tokenizer of the toolchain."""
import json
import pathlib
import subprocess
from typing import NamedTuple

RATTLE = "/opt/rattle/bin/rattle"
AT_ONCE = 400


class Token(NamedTuple):
    """A token: its range of bytes, its kind (Code, Head, Antt, End, Literal, Text) and its text."""

    start: int
    end: int
    kind: str
    text: str


def tokens_of(files: list[str]) -> list[list[Token]]:
    """Returns the tokens of each file, without comments; `::` is one token of code."""
    found: list[list[Token]] = []
    for at in range(0, len(files), AT_ONCE):
        words = [RATTLE, "fmt", "--tokens", *files[at:at + AT_ONCE]]
        said = subprocess.run(words, capture_output=True, check=True).stdout
        for line in said.decode().splitlines():
            if line.startswith("file "):
                found.append([])
                continue
            _, start, end, kind, text = line.split(" ", 4)
            token = Token(int(start), int(end), kind, json.loads(text))
            last = found[-1][-1] if found[-1] else None
            if token.text == ":" and last and last.text == ":" and last.end == token.start and kind == "Code":
                found[-1][-1] = Token(last.start, token.end, kind, "::")
            else:
                found[-1].append(token)
    return found


def closing(tokens: list[Token], at: int) -> int:
    """Returns the place of the bracket that closes the one at `at`, or the end of the tokens."""
    opens = tokens[at].text
    closes = {"(": ")", "[": "]", "{": "}"}[opens]
    depth = 0
    for place in range(at, len(tokens)):
        if tokens[place].text == opens:
            depth += 1
        elif tokens[place].text == closes:
            depth -= 1
            if not depth:
                return place
    return len(tokens) - 1


def is_word(token: Token) -> bool:
    """Whether a token of code is an identifier or a keyword."""
    return token.kind == "Code" and (token.text[0].isalpha() or token.text[0] == "_")


def tracked(root: pathlib.Path) -> list[str]:
    """Returns the paths of all tracked files."""
    said = subprocess.run(["git", "-C", root, "ls-files", "-z"], capture_output=True, check=True).stdout
    return [name for name in said.decode().split("\0") if name]
