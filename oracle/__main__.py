"""Runs a module and a script by the rules, as the program does, at the top of the repository:

python3 -m oracle [--brief] [--limit N] [--format FORMAT] [FLAG].. < INPUT
python3 -m oracle [--brief] [--limit N] [--format FORMAT] [FLAG].. --interactive < INPUT

    --opaque          types and attributes that aren't known are kept as they are spelled, and aliases and locations are
                      read
    --explain         a refusal is followed by what it is about, as in JSON without the flag
    --strict          the status is 1 if a command rewrites by a pattern that no check proves for the module
    --analyses LIST   the kinds of analyses that are attached at the start, with commas between them, or all, or none
    --patterns FILE   user patterns that a run begins with, a line each; may be repeated

FORMAT is text or json. With --interactive each line is answered as soon as it arrives."""
import re
import sys

from . import aliases, json_lines, live, own, rules
from .script import BOXES, LIMIT, MOST_LIMIT, listed


class Options:
    """Whether to be brief, the limit, the format, the analyses, what reads texts, whether lines are answered one by
    one, and the files of patterns."""

    def __init__(self, words):
        self.limit, self.files, self.format, self.boxes, self.flags = None, [], None, None, set()
        while words:
            words = self.after(*words)
        self.brief, self.is_live = "--brief" in self.flags, "--interactive" in self.flags
        self.limit = self.limit or LIMIT
        self.boxes = BOXES if self.boxes is None else self.boxes
        self.reader = aliases.Reader if "--opaque" in self.flags else rules.Reader
        self.explained = "--explain" in self.flags or self.format == "json"

    def after(self, word, *rest):
        """Takes an option and returns the words after it. Raises `ValueError` if the word is no option."""
        if word in ("--brief", "--opaque", "--explain", "--strict", "--interactive") and word not in self.flags:
            self.flags.add(word)
            return rest
        if word == "--format" and self.format is None and rest and rest[0] in ("text", "json"):
            self.format = rest[0]
            return rest[1:]
        if word == "--analyses" and self.boxes is None and rest and listed(rest[0]) is not None:
            self.boxes = listed(rest[0])
            return rest[1:]
        if word == "--patterns" and rest:
            self.files.append(rest[0])
            return rest[1:]
        if word == "--limit" and self.limit is None and rest and re.fullmatch("[+]?[0-9]+", rest[0]) and 1 <= int(
                rest[0]) <= MOST_LIMIT:
            self.limit = int(rest[0])
            return rest[1:]
        raise ValueError

    def run(self, given, out):
        """Runs an input, and gives the status. Nothing of it is read where a pattern is refused."""
        how = (self.brief, self.limit, own.book_of(self.files), self.reader, self.explained, "--strict" in self.flags,
               self.boxes)
        if self.is_live:
            for status, told in own.answers(live.lines_of(given), *how):
                out.write(self.printed(told))
                out.flush()
            return status
        status, told = own.run(given.read(), *how)
        out.write(self.printed(told))
        return status

    def printed(self, told):
        """An output in the format that was asked for."""
        return json_lines.json_of(told) if self.format == "json" else told


def main(words):
    if "--help" in words:
        print(__doc__)
        return 0
    try:
        options = Options(words)
    except ValueError:
        print(__doc__, file=sys.stderr)
        return 2
    try:
        return options.run(sys.stdin.buffer, sys.stdout.buffer)
    except own.BookRefused as fault:
        print(f"error: {fault}", file=sys.stderr)
        return 2


sys.exit(main(sys.argv[1:]))
