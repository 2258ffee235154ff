"""A checkout with its crates, and what its names mean: paths of code, of definitions and of lemmas."""
import pathlib
import re
from dataclasses import dataclass, field

from renaming.code import Leaf, Module, module_of
from renaming.sources import Token, tokens_of, tracked

LIB = re.compile(r"(?:(pub) )?(?:mod (\w+)|use (Rattle(?:\.[\w+]+)+)(?: as (\w+))?)")
# What a path leads to: a tuple whose first word is its kind.
#   ("module", CRATE, MODULE)  MODULE is "" for the root       ("type", CRATE, MODULE, TYPE)
#   ("function", CRATE, MODULE, NAME)                           ("constant", CRATE, MODULE, NAME)
#   ("member", CRATE, MODULE, TYPE, NAME)                       a variant, field or function of a type
#   ("side", CRATE, SIDE)  SIDE is specs or proofs              ("file", CRATE, SIDE, FILE)
#   ("definition", CRATE, FILE, NAME)                           ("lemma", CRATE, FILE, NAME)
#   ("mirror", ROOM, CODE)  a thing of code in a room that the checker makes: declared, contracts or proofs
#   ("variants", TYPE)      TheVariants of a type               ("made",) what else the checker makes
Thing = tuple


@dataclass
class Crate:
    """A crate: what it uses, its modules of code, and by side its files and what its root re-exports."""

    name: str
    uses: list[str] = field(default_factory=list)
    modules: dict[str, Module] = field(default_factory=dict)
    files: dict[str, dict[str, str]] = field(default_factory=lambda: {"specs": {}, "proofs": {}})
    handed_on: dict[str, dict[str, tuple[tuple[str, ...], bool]]] = field(
        default_factory=lambda: {"specs": {}, "proofs": {}})


WORDS_BEFORE = {"abbrev", "unfoldable", "def", "instance", "opaque", "theorem"}


def declared_in(tokens: list[Token]) -> set[str]:
    """Returns the names that a file of antt declares: `pub NAME :`, `record pub NAME` and the like."""
    found = set()
    for at, it in enumerate(tokens[:-1]):
        if it.text == "pub" and tokens[at + 1].text not in ("use", "mod", "record", "data"):
            found.add(tokens[at + 1].text)
        elif it.text in ("record", "data") and tokens[at + 1].text not in ("{", "pub"):
            found.add(tokens[at + 1].text)
        elif it.text in WORDS_BEFORE and tokens[at + 1].text != "pub":
            found.add(tokens[at + 1].text)
    return found


class Tree:
    """All of a checkout. `tokens` has the tokens of each source by path."""

    def __init__(self, root: pathlib.Path) -> None:
        self.root = root
        self.files = tracked(root)
        self.crates: dict[str, Crate] = {}
        self.tokens: dict[str, list[Token]] = {}
        self.unknown: dict[tuple[str, str], int] = {}
        self.declared: dict = {}
        self.kit = {f"Rattle.{it.stem}" for it in pathlib.Path("/opt/rattle/rlibs").iterdir()}
        self.read_table()
        self.read_sources()
        self.joined_types()

    def read_table(self) -> None:
        """Reads crates.txt."""
        for line in (self.root / "crates.txt").read_text().splitlines():
            head, colon, uses = line.partition("#")[0].partition(":")
            if head.strip() and colon:
                name = head.split()[0]
                self.crates[name] = Crate(name, uses.split())

    def read_sources(self) -> None:
        """Reads all sources."""
        names = [it for it in self.files if it.startswith("crates/") and it.endswith((".rt", ".antt"))]
        for name, tokens in zip(names, tokens_of([str(self.root / it) for it in names])):
            self.tokens[name] = tokens
            parts = name.split("/")
            crate = self.crates[parts[1]]
            stem = parts[-1].rpartition(".")[0]
            if parts[2] == "src":
                self.add_module(crate, stem, name, tokens)
            elif len(parts) == 4 and stem == "Lib":
                self.add_lib(crate, parts[2], (self.root / name).read_text())
            elif len(parts) == 4:
                crate.files[parts[2]][stem] = name

    def add_module(self, crate: Crate, stem: str, name: str, tokens: list[Token]) -> None:
        if name.count("/") != 3:
            raise SystemExit(f"{name}: a module in a folder is more than this can read")
        stem = "" if stem in ("lib", "main") else stem
        crate.modules[stem] = module_of(crate.name, stem, name, tokens)

    def add_lib(self, crate: Crate, side: str, text: str) -> None:
        for line in text.splitlines():
            found = LIB.match(line.strip())
            if found and found[3]:
                path = tuple(found[3].split("."))
                crate.handed_on[side][found[4] or path[-1]] = path, bool(found[4])

    def joined_types(self) -> None:
        """Gives each type its functions of other files' `impl`s."""
        for crate in self.crates.values():
            for module in crate.modules.values():
                for name, made in module.types.items():
                    if made.kind == "foreign":
                        thing = self.in_scope(module, name)
                        if thing and thing[0] == "type" and thing[1] == crate.name:
                            owner = crate.modules[thing[2]].types.get(thing[3])
                            if owner:
                                owner.functions |= made.functions
                                owner.methods |= made.methods
                                owner.inherent |= made.inherent

    def definitions(self, crate: str, file: str) -> set[str]:
        """Returns the names that a file of specs declares."""
        name = self.crates[crate].files["specs"].get(file)
        if name is None:
            return set()
        if name not in self.declared:
            self.declared[name] = declared_in(self.tokens[name])
        return self.declared[name]

    def handed_by_file(self, crate: str, side: str, file: str) -> dict[str, tuple[str, ...]]:
        """Returns what a file re-exports by `pub use PATH.{NAME}`: by name, the path."""
        name = self.crates[crate].files[side][file]
        if ("handed", name) not in self.declared:
            found, tokens = {}, self.tokens[name]
            for at, it in enumerate(tokens[:-4]):
                if it.text == "use" and at and tokens[at - 1].text == "pub" and tokens[at + 3].text == "{":
                    place, path = at + 4, tuple(tokens[at + 1].text.split("."))
                    while tokens[place].text != "}":
                        found[tokens[place].text] = path
                        place += 1
            self.declared["handed", name] = found
        return self.declared["handed", name]

    def words(self, crate: str, file: str) -> set[str]:
        """Returns all words of a file of specs."""
        name = self.crates[crate].files["specs"][file]
        if ("all", name) not in self.declared:
            self.declared["all", name] = {it.text for it in self.tokens[name]}
        return self.declared["all", name]

    # ---- code

    def in_module(self, crate: str, module: str, name: str, seen: frozenset = frozenset(),
                  is_inner: bool = False) -> Thing | None:
        """Returns what a name is in a module of code: a module or a type first where more words follow it."""
        if (crate, module, name, is_inner) in seen:
            return None
        it = self.crates[crate].modules.get(module)
        if it is None:
            return None
        kind, found = it.items.get(name), []
        if kind == "module":
            if name in self.crates[crate].modules:
                found.append(("module", crate, name))
        elif kind:
            found.append((kind, crate, module, name))
        if found and (found[0][0] in ("module", "type")) == is_inner:
            return found[0]
        for leaf in it.uses:
            if leaf.name == name:
                thing = self.of_path(it, leaf.path, seen | {(crate, module, name, is_inner)}, is_inner)
                if thing:
                    found.append(thing)
        return next((it for it in found if (it[0] in ("module", "type")) == is_inner), found[0] if found else None)

    def in_scope(self, module: Module, name: str, is_inner: bool = False) -> Thing | None:
        """Returns what a first word of a path is in a module."""
        if name == "crate":
            return ("module", module.crate, "")
        if name == "self":
            return ("module", module.crate, module.name)
        if name == "super":
            return ("module", module.crate, "")
        found = self.in_module(module.crate, module.name, name, frozenset(), is_inner)
        if found is None and name in self.crates and name in self.crates[module.crate].uses:
            return ("module", name, "")
        return found

    def step(self, thing: Thing | None, name: str, seen: frozenset = frozenset(),
             is_inner: bool = False) -> Thing | None:
        """Returns what is below a thing of code under a name."""
        if thing is None:
            return None
        if thing[0] == "module":
            return self.in_module(thing[1], thing[2], name, seen, is_inner)
        if thing[0] == "type":
            made = self.crates[thing[1]].modules[thing[2]].types.get(thing[3])
            if made and (name in made.variants or name in made.functions or name in made.fields):
                return ("member", *thing[1:], name)
        return None

    def of_path(self, module: Module, path: tuple[str, ...], seen: frozenset = frozenset(),
                is_inner: bool = False) -> Thing | None:
        """Returns what a path of code is in a module. A `use` of a crate's name is the crate."""
        first, more = path[0], len(path) > 1
        if first in self.crates and first in self.crates[module.crate].uses and first not in module.items:
            thing: Thing | None = ("module", first, "")
        elif more or first in ("crate", "self", "super"):
            if (module.crate, module.name, first, True) in seen:
                return None
            thing = self.in_scope(module, first, True)
        else:
            thing = None
        for at, word in enumerate(path[1:], 2):
            thing = self.step(thing, word, seen, at < len(path) or is_inner)
        return thing

    # ---- definitions and lemmas

    def walk(self, path: tuple[str, ...]) -> list[Thing | None]:
        """Returns what each word of `Rattle.CRATE.SIDE...` leads to; the first word leads to nothing."""
        found: list[Thing | None] = [None]
        if len(path) < 2 or path[1] not in self.crates:
            return [None] * len(path)
        found.append(("crate", path[1]))
        if len(path) > 2:
            found.append(("side", path[1], path[2]))
        for word in path[3:]:
            found.append(self.below(found[-1], word))
        return found

    def below(self, thing: Thing | None, name: str) -> Thing | None:
        """Returns what is below a thing of a library of antt under a name."""
        if thing is None:
            return None
        if thing[0] == "side":
            crate, side = self.crates[thing[1]], thing[2]
            if name in crate.files[side]:
                return ("file", crate.name, side, name)
            if name in crate.handed_on[side]:
                return self.walk(crate.handed_on[side][name][0])[-1]
            if side == "specs" and name in ("declared", "contracts"):
                return ("mirror", name, ("module", crate.name, ""))
            if side == "proofs":
                return self.mirrored("proofs", ("module", crate.name, ""), name)
            return None
        if thing[0] == "file":
            target = self.handed_by_file(thing[1], thing[2], thing[3]).get(name)
            if target:
                return self.below(self.walk(target)[-1], name)
            kind = "definition" if thing[2] == "specs" else "lemma"
            return (kind, thing[1], thing[3], name)
        if thing[0] == "mirror":
            return self.mirrored(thing[1], thing[2], name)
        if thing[0] == "variants":
            return ("member", *thing[1][1:], name)
        return ("made",)

    def mirrored(self, room: str, code: Thing, name: str) -> Thing | None:
        """Returns what is below a thing of code in a room that the checker makes."""
        if code[0] == "module":
            module = self.crates[code[1]].modules.get(code[2])
            if module is None:
                return None
            if code[2] == "" and name in self.crates[code[1]].modules:
                return ("mirror", room, ("module", code[1], name))
            kind = module.items.get(name)
            if kind in ("type", "function", "constant"):
                return ("mirror", room, (kind, code[1], code[2], name))
            if name in module.impls:
                return ("mirror", room, ("impl", code[1], code[2], name))
            if name in module.types:  # an `impl` of a type that another file declares
                thing = self.in_scope(module, name)
                if thing and thing[0] == "type":
                    return ("mirror", room, thing)
            thing = self.in_module(code[1], code[2], name)
            return ("mirror", room, thing) if thing else ("made",)
        if code[0] == "type":
            if name == "TheVariants":
                return ("variants", code)
            made = self.crates[code[1]].modules[code[2]].types.get(code[3])
            if name == code[3]:
                return ("mirror", room, code)
            if made and (name in made.functions or name in made.variants or name in made.fields):
                return ("mirror", room, ("member", *code[1:], name))
        if code[0] == "impl":
            return ("mirror", room, ("impl member", *code[1:], name))
        return ("made",)
