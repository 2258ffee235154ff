"""New names of paths of code (`ir_event::world::World`) and of definitions (`Rattle.ir_event.specs.Looks`)."""
from renaming.code import Module
from renaming.members import Members
from renaming.table import Names
from renaming.tree import Thing, Tree


class Paths:
    """Says what a path becomes. A path that leads through what one merged crate passed on of the other gets shorter."""

    def __init__(self, tree: Tree, names: Names) -> None:
        self.tree = tree
        self.names = names
        self.members = Members(tree, names)

    def last(self, thing: Thing) -> str:
        """Returns the new last word of a thing."""
        kind, names = thing[0], self.names
        if kind == "module":
            return names.module(thing[1], thing[2])
        if kind in ("type", "function", "constant"):
            return names.items.get(thing[1:], thing[3])
        if kind == "member":
            return names.members.get(thing[1:], thing[4])
        if kind == "definition":
            return names.definitions.get(thing[1:], thing[3])
        if kind == "file":
            return names.file(*thing[1:])
        if kind == "impl":
            owner, trait = self.tree.crates[thing[1]].modules[thing[2]].impls[thing[3]]
            return "".join(self.known(thing[1], thing[2], it) for it in (owner, trait))
        if kind == "impl member":
            return self.impl_member(thing)
        return thing[-1]

    def known(self, crate: str, module: str, name: str) -> str:
        """Returns the new name of what a file knows by a name."""
        thing = self.tree.in_scope(self.tree.crates[crate].modules[module], name)
        return self.last(thing) if thing else name

    def impl_member(self, thing: Thing) -> str:
        """Returns the new name of a function of an `impl` of a trait: that of the trait's function."""
        module = self.tree.crates[thing[1]].modules[thing[2]]
        for name in module.impls[thing[3]][::-1]:
            owner = self.tree.in_scope(module, name)
            if owner and owner[0] == "type":
                found = self.names.members.get((*owner[1:], thing[4]))
                if found:
                    return found
        return thing[4]

    def own_module(self, thing: Thing) -> tuple[str, ...]:
        """Returns the module that an item of a crate's root gets where the crate is merged into another."""
        new = self.names.modules.get((thing[1], "")) if len(thing) > 3 and thing[2] == "" else None
        return (new,) if new else ()

    # ---- code

    def code(self, module: Module, path: tuple[str, ...], is_use: bool = False) -> tuple[str, ...]:
        """Returns what a path becomes that is in a module of code."""
        tree, first = self.tree, path[0]
        uses = tree.crates[module.crate].uses
        is_hidden = not is_use and tree.in_module(module.crate, module.name, first) is not None
        if first in tree.crates and first in uses and not is_hidden:
            out, thing = self.root(module, first), ("module", first, "")
        elif first in ("crate", "self", "super"):
            thing = tree.in_scope(module, first)
            out = (first,)
        elif is_use and len(path) == 1:
            return path
        else:
            thing = tree.in_scope(module, first, len(path) > 1)
            if thing is None:
                return path
            out = (self.local(module, first, len(path) > 1),)
        for at, word in enumerate(path[1:], 1):
            under = tree.step(thing, word, frozenset(), at + 1 < len(path))
            if under is None:
                return (*out, *path[at:])
            leaf = self.handed_on(thing, under, word)
            if leaf is None:
                out = (*out, *(self.own_module(under) if thing[0] == "module" else ()), self.last(under))
            else:
                lib = tree.crates[thing[1]].modules[thing[2]]
                new = self.code(lib, leaf.path, True)
                if new[0] == "crate" and leaf.path[0] != "crate":
                    out = (*self.root(module, lib.crate), *new[1:])
                else:
                    out = (*out, self.handed_name(lib, leaf))
            thing = under
        return out

    def root(self, module: Module, crate: str) -> tuple[str, ...]:
        """Returns how a file names the root of a crate."""
        new = self.names.crate(crate)
        return ("crate",) if new == self.names.crate(module.crate) else (new,)

    def handed_on(self, thing: Thing, under: Thing, word: str):
        """Returns the leaf by which a module re-exports what is elsewhere."""
        if thing[0] != "module":
            return None
        if under[1] == thing[1] and (under[:2] == thing[:2] if thing[2] == "" and under[0] == "module" else
                                     under[2] == thing[2]):
            return None
        lib = self.tree.crates[thing[1]].modules[thing[2]]
        leaves = [it for it in lib.uses if it.name == word]
        return next((it for it in leaves if self.tree.of_path(lib, it.path) == under), leaves[0] if leaves else None)

    def handed_name(self, module: Module, leaf) -> str:
        """Returns the new name under which a `use` line brings what it brings."""
        new = self.names.aliases.get((module.crate, module.name or "lib", leaf.name))
        if new:
            return new
        if leaf.is_aliased:
            return leaf.name
        path = self.code(module, leaf.path, True)
        thing = self.tree.of_path(module, leaf.path)
        if len(path) == 1 or thing is None or (thing[0] == "module" and thing[2] == ""):
            return leaf.name
        return path[-1]

    def local(self, module: Module, name: str, is_inner: bool = False) -> str:
        """Returns the new name of what a file knows by a name."""
        if name in ("crate", "self", "super", "Self"):
            return name
        thing = self.tree.in_scope(module, name, is_inner)
        if thing and thing[1:3] == (module.crate, module.name) and len(thing) == 4:
            return self.last(thing)
        leaves = [it for it in module.uses if it.name == name]
        if leaves:
            same = [it for it in leaves if self.tree.of_path(module, it.path, frozenset(), is_inner) == thing]
            return self.handed_name(module, (same or leaves)[0])
        if thing and thing[0] == "module" and thing[2] == "":
            return self.root(module, thing[1])[0]
        return self.last(thing) if thing else name

    # ---- definitions and lemmas

    def logic(self, path: tuple[str, ...]) -> tuple[str, ...]:
        """Returns what a path `Rattle.CRATE.SIDE...` becomes."""
        tree = self.tree
        if len(path) < 2 or path[0] != "Rattle" or path[1] not in tree.crates:
            return path
        out: tuple[str, ...] = ("Rattle", self.names.crate(path[1]), *path[2:3])
        things = tree.walk(path)
        for at in range(3, len(path)):
            before, thing = things[at - 1], things[at]
            if thing is None:
                return (*out, *path[at:])
            target = self.handed_path(before, path[at])
            if target is None:
                is_root = thing[0] == "mirror" and (before[0] == "side" or before[2][0] == "module")
                out = (*out, *(self.own_module(thing[2]) if is_root else ()), self.word(thing, path[at]))
                continue
            new = self.logic(target)
            if new[1:3] == (self.names.crate(before[1]), before[2]):
                out = (*out, *new[3:])
            elif new[1] == self.names.crate(before[1]):
                out = new
            else:
                out = (*out, self.handed_word(before, path[at]))
        return out

    def handed_path(self, thing: Thing, word: str) -> tuple[str, ...] | None:
        """Returns the path that a library's root re-exports under a word."""
        if thing is None or thing[0] != "side" or word in self.tree.crates[thing[1]].files[thing[2]]:
            return None
        found = self.tree.crates[thing[1]].handed_on[thing[2]].get(word)
        return found[0] if found else None

    def handed_word(self, side: Thing, word: str) -> str:
        """Returns the new name of what a library's root re-exports."""
        new = self.names.aliases.get((side[1], side[2], word))
        if new:
            return new
        target, is_aliased = self.tree.crates[side[1]].handed_on[side[2]][word]
        if is_aliased:
            return word
        path, thing = self.logic(target), self.tree.walk(target)[-1]
        return path[-1] if len(path) > 3 and thing and thing[0] in ("file", "mirror", "definition") else word

    def word(self, thing: Thing, word: str) -> str:
        """Returns the new word of a thing of a library."""
        if thing[0] == "mirror":
            return self.last(thing[2]) if thing[2][-1] == word else word
        if thing[0] in ("file", "definition", "member"):
            return self.last(thing)
        return word
