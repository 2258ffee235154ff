"""Methods, which are named after a dot: what each call becomes, by what is known of the receiver's type."""
import functools
import pathlib
import re

from renaming.code import Module
from renaming.sources import is_word
from renaming.table import Names
from renaming.tree import Thing, Tree

KIT = pathlib.Path("/opt/rattle/rattle")
METHOD = re.compile(r"\bfn (\w+)\s*(?:<[^>(]*>)?\(\s*(?:mut |&(?:'\w+ )?(?:mut )?)?self\b")


@functools.lru_cache(maxsize=None)
def kit_methods() -> frozenset[str]:
    """Returns the names of all methods of the toolchain's libraries."""
    return frozenset(word for file in KIT.glob("*/src/**/*.rt") for word in METHOD.findall(file.read_text()))


class Members:
    """Says what `.name` becomes in a crate's files."""

    def __init__(self, tree: Tree, names: Names) -> None:
        self.tree, self.names = tree, names
        self.owners: dict[tuple[str, str], set[Thing]] = {}  # (kind, name): the types that have it
        for crate in tree.crates.values():
            for module in crate.modules.values():
                for name, made in module.types.items():
                    thing = tree.in_scope(module, name)
                    if thing and thing[0] == "type":
                        for method in made.methods:
                            self.owners.setdefault(("method", method), set()).add(thing)
        self.methods = {it[3] for it in names.members if self.is_method(it)}
        
    def is_method(self, member: tuple) -> bool:
        return ("type", *member[:3]) in self.owners.get(("method", member[3]), set())

    @functools.lru_cache(maxsize=None)
    def reach(self, crate: str) -> frozenset[str]:
        """Returns a crate and all below it."""
        found = {crate}
        for it in self.tree.crates[crate].uses:
            if it in self.tree.crates:
                found |= self.reach(it)
        return frozenset(found)

    def new_of(self, thing: Thing, name: str) -> str:
        """Returns the new name of a type's member: its own, or that of the trait that it is of."""
        new = self.names.members.get((*thing[1:], name))
        made = self.tree.crates[thing[1]].modules[thing[2]].types.get(thing[3])
        if new or (made and name in made.inherent):
            return new or name
        return self.of_traits(thing, name) or name

    def of_traits(self, thing: Thing, name: str) -> str | None:
        for module in self.tree.crates[thing[1]].modules.values():
            for owner, trait in module.impls.values():
                if owner == thing[3]:
                    it = self.tree.in_scope(module, trait)
                    new = self.names.members.get((*it[1:], name)) if it and it[0] == "type" else None
                    if new:
                        return new
        return None

    def method(self, module: Module, at: int, owner: str, params: dict[str, str]) -> str | None:
        """Returns the new name of a method after a dot, or nothing if it isn't known."""
        name = module.tokens[at].text
        if name not in self.methods:
            return name
        known = self.receiver(module, at - 2, owner, params)
        if known and known in self.owners.get(("method", name), set()):
            return self.new_of(known, name)
        candidates = {it for it in self.owners[("method", name)] if it[1] in self.reach(module.crate)}
        news = {self.new_of(it, name) for it in candidates}
        if name in kit_methods():
            news.add(name)
        return news.pop() if len(news) == 1 else None

    # ---- types of receivers

    def receiver(self, module: Module, at: int, owner: str, params: dict[str, str]) -> Thing | None:
        """Returns the type of `self`, `self.a.b` or of a parameter, whose last word is at a token."""
        words, tokens, before = [], module.tokens, at
        while at > 0 and is_word(tokens[at]):
            words.append(tokens[at].text)
            if tokens[at - 1].text != ".":
                break
            at -= 2
        else:
            return None
        if tokens[at - 1].text in ("::", "."):
            return None
        first, *rest = words[::-1]
        last = module.tokens[before + 2].text if not rest else ""
        thing = self.named(module, owner if first == "self" else params.get(first, ""), last)
        for word in rest:
            if thing is None or thing[0] != "type":
                return None
            home = self.tree.crates[thing[1]].modules[thing[2]]
            made = home.types.get(thing[3])
            thing = self.head(home, made.fields.get(word, ())) if made else None
        return thing if thing and thing[0] == "type" else None

    def named(self, module: Module, name: str, member: str = "") -> Thing | None:
        """Returns a type by its name, or a trait that bounds a type parameter of that name and has the member."""
        found = self.tree.in_scope(module, name) if name else None
        if found or not name:
            return found
        traits = [it for it in self.bounds(module, name) if it[0] == "type"]
        for it in traits:
            made = self.tree.crates[it[1]].modules[it[2]].types.get(it[3])
            if made and member in made.functions:
                return it
        return traits[0] if traits and not member else None

    def bounds(self, module: Module, name: str) -> list[Thing]:
        """Returns the traits that bound a type parameter somewhere in a file."""
        found, tokens = [], module.tokens
        for at, it in enumerate(tokens[:-2]):
            if it.text == name and it.kind == "Code" and tokens[at + 1].text == ":" and at \
                    and tokens[at - 1].text in ("<", ",", "where"):
                place = at + 2
                while place < len(tokens) and (is_word(tokens[place]) or tokens[place].text == "+"):
                    thing = self.tree.in_scope(module, tokens[place].text)
                    found += [thing] if thing and thing not in found else []
                    place += 1
        return found

    def undecided(self, of_file) -> dict[str, list[str]]:
        """Returns the methods with a receiver of unknown type, with the files."""
        found: dict[str, list[str]] = {}
        for crate in self.tree.crates.values():
            for module in crate.modules.values():
                for at, it in enumerate(module.tokens[1:-1], 1):
                    if it.text in self.methods and module.tokens[at - 1].text == "." \
                            and module.tokens[at + 1].text in ("(", "::") and it.kind == "Code":
                        owner, params = of_file(module, at)
                        if self.method(module, at, owner, params) is None:
                            found.setdefault(it.text, []).append(module.file)
        return found

    def without(self, names: set[str]) -> None:
        """Takes the methods of some names out of what is renamed."""
        for it in [it for it in self.names.members if it[3] in names and self.is_method(it)]:
            del self.names.members[it]
        self.methods -= names

    def head(self, module: Module, words: tuple[str, ...]) -> Thing | None:
        """Returns the type that the words of a type begin with, after references."""
        name = head_of(words)
        return self.tree.in_scope(module, name) if name else None


def head_of(words: tuple[str, ...]) -> str:
    """Returns the first name of a type, after references."""
    for word in words:
        if word not in ("&", "mut", "dyn", "impl") and not word.startswith("'"):
            return word if word[0].isalpha() else ""
    return ""
