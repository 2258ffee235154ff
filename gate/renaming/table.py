"""The table of renames: KIND, CRATE, OLD, NEW and a reason, separated by tabs."""
import pathlib
from typing import NamedTuple

KINDS = ("crate", "module", "alias", "type", "variant", "function", "definition")
GROUP = "# group "


class Row(NamedTuple):
    """A line of the table."""

    line: int
    kind: str
    crate: str
    old: str
    new: str
    group: str


def rows_of(file: pathlib.Path) -> list[Row]:
    """Returns the rows of a table. A line that is empty or begins with `#` is none."""
    found, group = [], ""
    for number, text in enumerate(file.read_text().splitlines(), 1):
        if text.startswith(GROUP):
            group = text[len(GROUP):].partition(":")[0]
        if not text.strip() or text.startswith("#"):
            continue
        cells = text.split("\t")
        if len(cells) < 4 or cells[0] not in KINDS:
            raise SystemExit(f"{file}:{number}: not KIND, CRATE, OLD, NEW")
        found.append(Row(number, *cells[:3], cells[3].rpartition("/")[2], group))
    return found


class Names:
    """What the table renames: by kind, from the thing's place today to its new last word."""

    def __init__(self) -> None:
        self.crates: dict[str, str] = {}
        self.holders: dict[str, str] = {}
        self.modules: dict[tuple[str, str], str] = {}
        self.files: dict[tuple[str, str, str], str] = {}
        self.aliases: dict[tuple[str, str, str], str] = {}
        self.items: dict[tuple[str, str, str], str] = {}
        self.members: dict[tuple[str, str, str, str], str] = {}
        self.definitions: dict[tuple[str, str, str], str] = {}

    def crate(self, name: str) -> str:
        """Returns the new name of a crate."""
        return self.crates.get(name, name)

    def module(self, crate: str, name: str) -> str:
        """Returns the new name of a module of code."""
        return self.modules.get((crate, name), name)

    def file(self, crate: str, side: str, name: str) -> str:
        """Returns the new name of a file of `specs` or `proofs`."""
        return self.files.get((crate, side, name), name)


class Loading:
    """Fills `Names` from rows, and says of each row whose OLD isn't in the tree."""

    def __init__(self, tree, rows: list[Row], chosen: list[Row]) -> None:
        self.tree, self.names = tree, Names()
        self.crates = {it.crate: it.new for it in rows if it.kind == "crate"}
        self.modules = {(it.crate, it.old): it.new for it in rows if it.kind == "module"}
        self.types = {(it.crate, *it.old.split("::")): it.new for it in rows if it.kind == "type"}
        self.missing: list[Row] = []
        self.done: list[Row] = []
        for row in chosen:
            self.add(row)
        self.name_holders(chosen)

    def name_holders(self, rows: list[Row]) -> None:
        """A merged crate is held by the one whose name it keeps, else by the one of its last row."""
        for row in rows:
            if row.kind == "crate" and row.crate in self.names.crates:
                self.names.holders[row.new] = row.new if row.new in self.tree.crates else row.crate

    def crate_now(self, row: Row) -> str | None:
        """Returns the crate that a row speaks of, which may have its new name already."""
        for name in (row.crate, self.crates.get(row.crate)):
            if name in self.tree.crates:
                return name
        return None

    def modules_now(self, row: Row, module: str) -> list[str]:
        return list(dict.fromkeys([module, self.modules.get((row.crate, module), module)]))

    def add(self, row: Row) -> None:
        crate = self.crate_now(row)
        if row.kind == "crate":
            if row.crate in self.tree.crates:
                self.names.crates[row.crate] = row.new
            else:
                (self.done if row.new in self.tree.crates else self.missing).append(row)
            return
        adders = {"module": self.module, "alias": self.alias, "definition": self.definition}
        if crate is None or not adders.get(row.kind, self.item)(crate, row):
            self.missing.append(row)

    def module(self, crate: str, row: Row) -> bool:
        side, slash, name = row.old.rpartition("/")
        if self.is_carried_out(crate, row, side, slash):
            return self.is_done(row, True)
        if slash:
            if name in self.tree.crates[crate].files.get(side, {}):
                self.names.files[crate, side, name] = row.new
                return True
            return self.is_done(row, row.new in self.tree.crates[crate].files.get(side, {}))
        name = "" if row.old == "lib" else row.old
        if name in self.tree.crates[crate].modules and crate == row.crate:
            self.names.modules[crate, name] = row.new
            return True
        if name and name in self.tree.crates[crate].modules and row.new not in self.tree.crates[crate].modules:
            self.names.modules[crate, name] = row.new
            return True
        return self.is_done(row, row.new in self.tree.crates[crate].modules)

    def is_carried_out(self, crate: str, row: Row, side: str, slash: str) -> bool:
        """Whether NEW is there, and isn't OLD of another row: then a file of the name OLD is another one."""
        it = self.tree.crates[crate]
        there = it.files.get(side, {}) if slash else it.modules
        return row.new in there and not any(old.rpartition("/")[2] == row.new for known, old in self.modules
                                            if known == row.crate and old.rpartition("/")[0] == side)

    def is_done(self, row: Row, there: bool) -> bool:
        if there:
            self.done.append(row)
        return there

    def alias(self, crate: str, row: Row) -> bool:
        side, _, name = row.old.partition("/")
        it = self.tree.crates[crate]
        known = it.handed_on.get(side, {}) if side != "lib" else [leaf.name for leaf in it.modules[""].uses]
        if name in known:
            self.names.aliases[crate, side, name] = row.new
            return True
        return self.is_done(row, row.new in known)

    def definition(self, crate: str, row: Row) -> bool:
        file, _, name = row.old.partition(".")
        for known in self.modules_now(row, "specs/" + file):
            known = known.rpartition("/")[2]
            defined = self.tree.definitions(crate, known)
            if name in defined:
                self.names.definitions[crate, known, name] = row.new
                return True
            if row.new in defined:
                return self.is_done(row, True)
        return False

    def item(self, crate: str, row: Row) -> bool:
        module, *path = row.old.split("::")
        for known in self.modules_now(row, module):
            it = self.tree.crates[crate].modules.get("" if known == "lib" else known)
            if it is None:
                continue
            if len(path) == 1:
                if self.add_item(it, row, path[0]):
                    return True
            elif self.add_member(it, row, *path):
                return True
        return False

    def add_item(self, module, row: Row, name: str) -> bool:
        kind = {"type": "type", "function": "function"}.get(row.kind)
        if module.items.get(name) in (kind, "constant"):
            self.names.items[module.crate, module.name, name] = row.new
            return True
        return self.is_done(row, module.items.get(row.new) == kind)

    def add_member(self, module, row: Row, owner: str, name: str) -> bool:
        known = self.types.get((row.crate, row.old.split("::")[0], owner), owner)
        thing = self.tree.in_scope(module, owner) or self.tree.in_scope(module, known)
        if thing is None or thing[0] != "type":
            return False
        made = self.tree.crates[thing[1]].modules[thing[2]].types.get(thing[3])
        room = {"variant": made.variants, "function": made.functions}[row.kind]
        if name in room:
            self.names.members[(*thing[1:], name)] = row.new
            return True
        return self.is_done(row, row.new in room)
