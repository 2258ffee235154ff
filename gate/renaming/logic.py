"""New names in text of antt: files of specs and proofs, and the clauses of code."""
import re

from dataclasses import dataclass, field

from renaming.paths import Paths
from renaming.sources import Token

PART = re.compile(r"([A-Za-z_][\w']*)")


@dataclass
class Labels:
    """What labels of a function's goals follow: words that the function has under other names, and those that it binds.
    In a cycle a label begins with the name of one of its functions."""

    words: dict[str, str] = field(default_factory=dict)
    bound: set[str] = field(default_factory=set)
    modules: dict[str, str] = field(default_factory=dict)
    is_cycle: bool = False

    def called(self, word: str) -> str:
        """Returns the new name of a function, variant or type of the function's code, or of `MODULE::FUNCTION`."""
        module, colons, name = word.rpartition("::")
        return self.modules.get(module, module) + colons + self.words.get(name, name)


class Logic:
    """Rewrites the tokens of a file of antt. `labels` says how labels of goals of the file's function change."""

    def __init__(self, paths: Paths, crate: str, side: str, stem: str, tokens: list[Token],
                 labels: Labels | None = None, all_labels: dict | None = None) -> None:
        self.paths, self.tree = paths, paths.tree
        self.crate, self.side, self.stem, self.tokens = crate, side, stem, tokens
        self.labels, self.all_labels = labels or Labels(), all_labels or {}
        self.scope: dict[str, str] = {}
        self.modules: dict[str, tuple] = {}
        self.goals: dict[str, Labels] = {}
        self.words: dict[str, str] = {}
        self.left: list[str] = []
        self.edits: list[tuple[int, int, str]] = []
        self.in_imports: set[int] = set()
        self.there = {it.text.split(".")[0] for it in tokens}

    def all(self, is_hidden=None) -> list[tuple[int, int, str]]:
        """Returns all replacements. `is_hidden` says whether a parameter or a local hides a name at a token."""
        self.imports()
        if self.side == "specs" and self.stem:
            self.own_names()
        if not (self.scope or self.modules or self.labels.words or self.goals):
            return self.edits
        for at, it in enumerate(self.tokens):
            if at not in self.in_imports and it.kind == "Antt":
                self.word(at, it, is_hidden)
        return self.edits

    def replace(self, it: Token, new: str) -> None:
        if it.text != new:
            self.edits.append((it.start, it.end, new))

    # ---- imports

    def imports(self) -> None:
        tokens = self.tokens
        for at, it in enumerate(tokens):
            if not it.text.startswith("Rattle."):
                continue
            self.in_imports.add(at)
            path = tuple(it.text.split("."))
            thing = self.tree.walk(path)[-1]
            new = self.paths.logic(path)
            self.replace(it, ".".join(new))
            after = tokens[at + 1].text if at + 1 < len(tokens) else ""
            if after == "." and at + 2 < len(tokens) and tokens[at + 2].text == "{":
                self.leaves(at + 3, thing, path[1] in self.tree.crates)
            elif after == "as":
                self.in_imports |= {at + 1, at + 2}
                self.known_as(tokens[at + 2].text, path, thing)
            elif thing:
                self.known_as(path[-1], path, thing)
                if new[-1] != path[-1]:
                    self.scope[path[-1]] = new[-1]

    def known_as(self, name: str, path: tuple[str, ...], thing) -> None:
        if thing is None:
            return
        self.modules[name] = thing
        if path[-1] == "Goals" or thing[0] == "made":
            self.goals[name] = self.labels_of(path)

    def labels_of(self, path: tuple[str, ...]) -> Labels:
        """Returns how labels change of the function whose goals a path names."""
        for thing in self.tree.walk(path)[::-1]:
            if thing and thing[0] == "mirror" and thing[2][0] in ("function", "member", "impl member"):
                return self.all_labels.get((thing[2][1], thing[2][2], thing[2][-1]), Labels())
        return self.labels

    def leaves(self, at: int, thing, is_ours: bool) -> None:
        tokens = self.tokens
        self.in_imports |= {at - 1, at - 2}
        while tokens[at].text != "}":
            self.in_imports.add(at)
            if tokens[at].text == ",":
                at += 1
                continue
            leaf, name = tokens[at], tokens[at].text
            under = self.tree.below(thing, name) if is_ours and thing else None
            new = self.name_of(under, name)
            is_aliased = tokens[at + 1].text == "as"
            if is_aliased:
                self.in_imports |= {at + 1, at + 2}
                self.replace(leaf, new)
                at += 3
                continue
            at += 1
            if new == name:
                continue
            if new in self.there and new not in self.renamed_here():
                self.replace(leaf, f"{new} as {name}")
                self.left.append(f"{new} as {name}")
            else:
                self.replace(leaf, new)
                self.scope[name] = new
                self.words[name] = new
        self.in_imports.add(at)

    def renamed_here(self) -> set[str]:
        """Returns the words of the file that are renamed themselves."""
        return set(self.scope)

    def name_of(self, thing, name: str) -> str:
        if thing is None:
            return name
        if thing[0] == "mirror":
            return self.paths.last(thing[2]) if thing[2][-1] == name else name
        return self.paths.last(thing) if thing[0] in ("definition", "member", "file") else name

    def own_names(self) -> None:
        for name in self.tree.definitions(self.crate, self.stem):
            new = self.paths.names.definitions.get((self.crate, self.stem, name))
            if new:
                self.scope[name] = new
                self.words[name] = new
                if new in self.there:
                    self.left.append(f"{new} is a word of {self.crate}/specs/{self.stem}.antt already")

    # ---- words

    def is_record_field(self, at: int) -> bool:
        """Whether a word is a field in `record { NAME = .. }`."""
        tokens = self.tokens
        return (at + 1 < len(tokens) and tokens[at + 1].text == "=" and at > 0
                and tokens[at - 1].text in ("{", ";", ","))

    def word(self, at: int, it: Token, is_hidden) -> None:
        first, *rest = it.text.split(".")
        if not first or not (first[0].isalpha() or first[0] == "_"):
            return
        if not rest and self.is_record_field(at):
            return
        if first in self.modules and rest:
            self.in_module(it, first, rest)
            return
        new = first
        if first in self.scope and not (is_hidden and is_hidden(it, first)):
            new = self.scope[first]
        if "-" in first and self.labels.words:
            new = relabelled(first, self.labels)
        if rest and self.labels.words and first not in self.scope:
            rest = self.of_goal(rest, self.labels)
        self.replace(it, ".".join([new, *rest]))

    def in_module(self, it: Token, first: str, rest: list[str]) -> None:
        thing, out = self.modules[first], [self.scope.get(first, first)]
        if first in self.goals:
            rest = [relabelled(word, self.goals[first]) for word in rest]
            self.replace(it, ".".join([*out, *rest]))
            return
        for word in rest:
            thing = self.tree.below(thing, word) if thing else None
            out.append(self.name_of(thing, word) if thing else word)
        self.replace(it, ".".join(out))

    def of_goal(self, rest: list[str], labels: Labels) -> list[str]:
        """Returns the words after a goal's variable: labels, and the names of parameters and fields."""
        out, before = [], ""
        for word in rest:
            is_label = "-" in word or before in ("", "c") or word[:1].isupper()
            out.append(relabelled(word, labels) if is_label and before not in ("args", "ensures") else word)
            before = word
        return out


BEFORE_CALLS = {"in", "then", "else", "returns", "loop", "if", "while", "not", "in_default", "in_ok"}
BEFORE_CALLS_OF_CYCLES = {"decreases", "invariant"}


def relabelled(label: str, labels: Labels) -> str:
    """Returns a label of a goal in which called functions, variants and types have other names.

    `put-made` is the call of `put` whose result is `made`; `returns-in-Ok-clause-ok` is clause `ok` in arm `Ok`;
    `in_ok-made` is what `?` gives to the variable `made`, or a call of `made`."""
    words, out, before = label.split("-"), [], ""
    for at, word in enumerate(words):
        is_named = at == 0 or before in BEFORE_CALLS or before[:1].isupper()
        is_named |= labels.is_cycle and (at == 1 or before in BEFORE_CALLS_OF_CYCLES)
        is_known = word[:1].isupper() or (is_named and word not in BEFORE_CALLS)
        is_variable = before == "in_ok" and word in labels.bound
        out.append(labels.called(word) if is_known and before != "clause" and not is_variable else word)
        before = word
    return "-".join(out)
