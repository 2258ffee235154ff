"""Lists a module with the number of each operation, and with the value names that scripts use.

`print ids` shows the numbers. Most functions take many lines at once: on a large module a call for each line would take
longer than the program."""
import bisect
import functools
import re

from ..printed import BEGINS, Printed
from . import program
from .forms import PARTS

NAMED = re.compile(r"%([^,) ]+)")
# A string. Only an opaque text can contain an escaped quote.
STRING = re.compile(r'"((?:[^"\\]|\\.)*)"')
QUOTE = '\\"'
SYMBOL = re.compile(r'sym_name = ("[^"]*")')
BARE = re.compile(r'"([A-Za-z_][\w$.]*)"')
SEVERAL = re.compile(r"[0-9]+(?:#[0-9]+|:[0-9]+)")
VALUE = re.compile(r"%v(\d+)\.(\d+)|%a(\d+)\.\d+\.\d+")
RESULTS = re.compile(r" *%\d+(?::(\d+))? = ")
MARGIN = 6
# Shown in place of an operation that a refusal names and that isn't in the module.
MADE = "        (this command made the operation, and it no longer exists)"
# The command whose answer is a listing.
COMMAND = "print ids"
# How many lines are renamed at once.
SOME = 512


class Names:
    """The names of values in scripts, by their printed names without the `%`. `arg0` and `arg0:` are an argument, `5`
    is the result of the sixth operation that has results, `5#1` is one of several results, and `5:2` is all of them.
    `owners` has the numbers of the operations with results, in order, and `arguments` the names of arguments."""

    def __init__(self, owners, arguments):
        self.owners, self.arguments = owners, arguments

    def called(self, printed):
        """Returns the names in scripts of values with these printed names."""
        owners, arguments = self.owners, self.arguments
        return [f"%v{owners[int(name)]}.0" if name.isdecimal() and int(name) < len(owners)
                else arguments.get(name) or self.several(name) for name in printed]

    def several(self, name):
        """Returns the name in scripts of one of several results, or the names of all. A name in an opaque text is
        unchanged."""
        if not SEVERAL.fullmatch(name) or int(name.split("#")[0].split(":")[0]) >= len(self.owners):
            return "%" + name
        result, _, count = name.partition(":")
        result, _, place = result.partition("#")
        number = self.owners[int(result)]
        return ", ".join([f"%v{number}.{place}" for place in (range(int(count)) if count else [place])])

    def are_alike(self, other):
        """Whether values with the same printed name have the same name in scripts, in both modules."""
        return self.owners == other.owners and self.arguments == other.arguments


class Listing:
    """The lines of a module as `print` shows them, read from what `print ids` shows.

    `texts` are the lines. `keys` has a key for each line, unique in the module: the number of the operation that begins
    in the line, or the operation, the region and the first character of another line. Two listings can be compared by
    their keys. `names` has what a script calls values."""

    def __init__(self, text):
        printed = Printed(text)
        self.texts = [line.text for line in printed.lines]
        self.keys = [key(line) for line in printed.lines]
        arguments = {name: str(value) for name, value in printed.arguments.items()}
        arguments.update({f"{name}:": f"{value}:" for name, value in arguments.items()})
        self.names = Names([str(number) for number in printed.owners], arguments)

    @functools.cached_property
    def values(self):
        """The name of each value in scripts, with the number of its operation."""
        found = {name: name[2:].partition(".")[0] for name in self.names.arguments.values() if name[-1] != ":"}
        heads = [(place, RESULTS.match(text)) for place, text in enumerate(self.texts)]
        counts = [int(head[1] or 1) for _, head in heads if head]
        for number, count in zip(self.names.owners, counts):
            found.update((f"%v{number}.{place}", number) for place in range(count))
        return found

    @functools.cached_property
    def operations(self):
        """The numbers of all operations."""
        return {key for key in self.keys if not isinstance(key, tuple)}

    @functools.cached_property
    def places(self):
        """The place of the line in which each operation begins, by the number of the operation."""
        return {key: place for place, key in enumerate(self.keys) if not isinstance(key, tuple)}

    def missing(self, word):
        """Returns why a word names no operation or value of the module; empty if it names one."""
        if re.fullmatch(r"#\d+", word):
            return "" if word[1:] in self.operations else f"{word} isn't in the module"
        if not word.startswith("%") or word in self.values:
            return ""
        found = VALUE.fullmatch(word)
        if not found:
            return f"`{word}` is not a value: {PARTS['VALUE'][1]}"
        number = found[1] or found[3]
        if number not in self.operations:
            return f"there is no {word}: #{number} isn't in the module"
        many = sum(owner == number and name[1] == word[1] for name, owner in self.values.items())
        return f"there is no {word}: #{number} has {many} {'results' if word[1] == 'v' else 'block arguments'}"

    @functools.cached_property
    def symbols(self):
        """The places at which the innermost symbol changes, in order, and what each of these symbols is called: its
        name and the number of its operation, or #0."""
        places, called, opened = [0], ["#0"], [("#0", -1)]
        for place in [place for place, text in enumerate(self.texts) if text[-1] == "{" or text.lstrip(" ")[0] == "}"]:
            text = self.texts[place]
            if text.lstrip(" ")[0] != "}":
                found = SYMBOL.search(text)
                name = found and f"@{BARE.sub(lambda it: it[1], found[1])} #{self.keys[place]}"
                opened.append((name or opened[-1][0], place))
                begins = place
            elif text[-1] != "{":
                opened.pop()
                begins = place + 1
            else:
                continue
            if called[-1] != opened[-1][0]:
                places.append(begins)
                called.append(opened[-1][0])
        return places, called

    def around(self, place):
        """Returns what the innermost symbol that contains or begins in a line is called."""
        places, called = self.symbols
        return called[bisect.bisect_right(places, place) - 1]

    def named(self, places):
        """Returns the lines at some places, with values as a script names them."""
        return [line for begin in range(0, len(places), SOME) for line in self.some(places[begin:begin + SOME])]

    def some(self, places):
        """Returns the same for a few lines. Values inside strings keep their names; most lines have no quote inside a
        string, since it is printed by its number."""
        text = "\n".join([self.texts[place] for place in places])
        parts = STRING.split(text) if QUOTE in text else text.split('"')
        pieces = NAMED.split('"'.join(parts[::2]))
        pieces[1::2] = self.names.called(pieces[1::2])
        parts[::2] = "".join(pieces).split('"')
        return '"'.join(parts).split("\n")

    def shown(self, places):
        """Returns the lines at some places as `ids` shows them: each after the number of the operation that begins in
        it."""
        keys = [self.keys[place] for place in places]
        margins = [("" if isinstance(key, tuple) else "#" + key).rjust(MARGIN) for key in keys]
        return [margin + "  " + line for margin, line in zip(margins, self.named(places))]

    def lines(self):
        """Returns all lines as `ids` shows them."""
        return self.shown(range(len(self.texts)))

    def heads(self, numbers):
        """Returns the first lines of the operations with these numbers, by the numbers, as `ids` shows them but without
        indentation. Operations that aren't in the module have none."""
        places = {number: self.places[str(number)] for number in numbers if str(number) in self.places}
        lines = self.named(list(places.values()))
        return {number: f"#{number}  {line.lstrip(' ')}" for number, line in zip(places, lines)}

    def near(self, number, lines):
        """Returns the lines around an operation, or None if the operation isn't in the module."""
        if str(number) not in self.keys:
            return None
        place = self.keys.index(str(number))
        return self.shown(range(max(place - lines, 0), min(place + lines + 1, len(self.texts))))


def key(line):
    """Returns the key of a line, which no other line of its module has."""
    number = str(line.operation)
    return number if line.role == BEGINS else (number, line.region, line.text.lstrip(" ")[0])


def listed(module, script):
    """Returns the listing of a module after the lines of a script."""
    return Listing(list(program.asked(module, [*script, COMMAND]).replies())[-1].shown)
