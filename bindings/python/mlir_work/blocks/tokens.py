"""Cuts a module in generic form into tokens, and skips brackets."""
import re
from typing import List, NamedTuple

from ..errors import ModuleRefused

_TOKEN = re.compile(rb'''(?:[ \t\r\n]+|//[^\n]*)
    |("(?:[^"\\\n]|\\.)*"                                     # a string
    |[%^@\#!][A-Za-z0-9$._-]+                                 # a name with its sign
    |->|::|[()\[\]{}<>,:=]
    |[A-Za-z0-9_$.?*+-]+?(?=->|[^A-Za-z0-9_$.?*+-]|$)         # a bare word or a number
    |.)''', re.S | re.X)
_CLOSERS = {b"(": b")", b"[": b"]", b"{": b"}", b"<": b">"}


class Token(NamedTuple):
    """The bytes of a token, and where it begins and ends. The last token of a text is empty."""

    text: bytes
    start: int
    end: int

    @property
    def sign(self) -> bytes:
        """The first byte."""
        return self.text[:1]


def tokens(text: bytes) -> List[Token]:
    """Returns the tokens of a text, and an empty one for its end."""
    found = [Token(it[1], it.start(), it.end()) for it in _TOKEN.finditer(text) if it[1] is not None]
    return [*found, Token(b"", len(text), len(text))]


def unexpected(token: Token) -> ModuleRefused:
    """Returns the refusal of a text at a token that can't be there."""
    return ModuleRefused(2, "Unexpected", token.start)


class Cursor:
    """A place among the tokens of a text."""

    def __init__(self, text: bytes) -> None:
        self.tokens, self.place = tokens(text), 0

    @property
    def now(self) -> Token:
        """The token at the place."""
        return self.tokens[self.place]

    @property
    def last(self) -> Token:
        """The token before the place."""
        return self.tokens[self.place - 1]

    def step(self) -> Token:
        """Returns the token at the place, and goes to the next. Raises ModuleRefused at the end of the text."""
        token = self.now
        if not token.text:
            raise unexpected(token)
        self.place += 1
        return token

    def need(self, text: bytes) -> Token:
        """Returns the token at the place if it has this text, and goes to the next. Raises ModuleRefused otherwise."""
        if self.now.text != text:
            raise unexpected(self.now)
        return self.step()

    def skip(self) -> None:
        """Goes past a bracket and everything up to the bracket that closes it."""
        coming = [_CLOSERS[self.step().text]]
        while coming:
            token = self.step()
            if token.text in _CLOSERS:
                coming.append(_CLOSERS[token.text])
            elif token.text == coming[-1]:
                coming.pop()

    def begins_operation(self) -> bool:
        """Whether the token at the place begins an operation: its results, or its name with the bracket after it."""
        following = self.tokens[min(self.place + 1, len(self.tokens) - 1)]
        return self.now.sign == b"%" or self.now.sign == b'"' and following.text == b"("
