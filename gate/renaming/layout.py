"""Where files go when crates are merged and renamed, and the roots (`lib.rt`, `Lib.antt`) of merged crates."""
import re

from renaming.paths import Paths
from renaming.rewrite import Code, applied
from renaming.tree import LIB, Tree

ROOTS = {"src": "lib.rt", "specs": "Lib.antt", "proofs": "Lib.antt"}


class Layout:
    """Says where each file goes. `parts` has by new crate the crates that it is made of, the holder first."""

    def __init__(self, tree: Tree, paths: Paths) -> None:
        self.tree, self.paths, self.names = tree, paths, paths.names
        self.parts: dict[str, list[str]] = {}
        self.problems: list[str] = []
        for name in tree.crates:
            self.parts.setdefault(self.names.crate(name), []).append(name)
        for new, old in self.parts.items():
            old.sort(key=lambda it: it != self.names.holders.get(new, new))

    def is_root(self, file: str) -> bool:
        """Whether a file is the root of a crate that is merged with others."""
        parts = file.split("/")
        return (len(parts) == 4 and parts[0] == "crates" and ROOTS.get(parts[2]) == parts[3]
                and len(self.parts[self.names.crate(parts[1])]) > 1)

    def new_path(self, file: str) -> str:
        """Returns where a file goes."""
        parts = file.split("/")
        if parts[0] == "crates" and len(parts) > 3 and parts[2] == "src":
            stem, dot, end = parts[3].rpartition(".")
            module = "" if stem in ("lib", "main") else stem
            new = self.names.module(parts[1], module)
            return "/".join(["crates", self.names.crate(parts[1]), "src", f"{new or stem}{dot}{end}"])
        if parts[0] == "crates" and len(parts) > 3 and parts[2] in ("specs", "proofs"):
            return self.logic_place(parts)
        if parts[0] == "crates" and len(parts) > 2:
            return "/".join(["crates", self.names.crate(parts[1]), *parts[2:]])
        if file.startswith("tests/generate/") and parts[2].removesuffix(".py") in self.names.crates:
            return f"tests/generate/{self.names.crate(parts[2].removesuffix('.py'))}.py"
        if file.startswith("tests/mutants/") and len(parts) > 3 and parts[2] in self.tree.crates:
            return "/".join([*parts[:2], self.names.crate(parts[2]), *parts[3:]])
        return file

    def logic_place(self, parts: list[str]) -> str:
        stem, _, end = parts[-1].rpartition(".")
        if len(parts) == 4:
            name = f"{self.names.file(*parts[1:3], stem)}.{end}"
            return "/".join(["crates", self.names.crate(parts[1]), parts[2], name])
        new = self.paths.logic(("Rattle", parts[1], *parts[2:-1]))
        return "/".join(["crates", new[1], *new[2:], parts[-1]])

    # ---- roots of merged crates

    def logic_root(self, new: str, side: str) -> str | None:
        """Returns the text of `Lib.antt` of a merged crate, or nothing if no crate had one."""
        lines: list[str] = []
        known: dict[str, str] = {}
        there = False
        for name in self.parts[new]:
            file = self.tree.root / "crates" / name / side / "Lib.antt"
            if file.exists():
                there = True
                for line in file.read_text().splitlines():
                    self.add_logic_line(name, side, line, lines, known)
        return "\n".join(lines) + "\n" if there else None

    def add_logic_line(self, name: str, side: str, line: str, lines: list[str], known: dict[str, str]) -> None:
        made = self.logic_line(name, side, line)
        if made is None:
            return
        found = LIB.match(made.strip())
        if not found:
            lines.append(made)
            return
        word = found[2] or found[4] or found[3].split(".")[-1]
        if word not in known:
            known[word] = made
            lines.append(made)
        elif known[word] != made:
            self.problems.append(f"{self.names.crate(name)}/{side}/Lib.antt: {known[word]} and {made}")

    def logic_line(self, name: str, side: str, line: str) -> str | None:
        """Returns what a line of `Lib.antt` becomes, or nothing if what it re-exports is in the same crate now."""
        found = LIB.match(line.strip())
        if not found:
            return line
        head = "pub " if found[1] else ""
        if found[2]:
            return f"{head}mod {self.names.file(name, side, found[2])}"
        path = tuple(found[3].split("."))
        word = found[4] or path[-1]
        new = self.paths.logic(path)
        if new[1] == self.names.crate(name) and path[1] != name:
            return None
        known = self.paths.handed_word(("side", name, side), word)
        return f"{head}use {'.'.join(new)}" + (f" as {known}" if found[4] or known != new[-1] else "")

    def code_root(self, new: str) -> str:
        """Returns the text of `lib.rt` of a merged crate."""
        said: list[str] = []
        mods: dict[str, str] = {}
        uses: list[str] = []
        rest = ""
        for name in self.parts[new]:
            text = self.rewritten_root(name)
            docs, found_mods, found_uses, items = pieces_of(text)
            said += [*(["//!"] if said else []), *docs]
            for line in found_mods:
                word = line.rstrip(";").split()[-1]
                if mods.setdefault(word, line) != line:
                    self.problems.append(f"{new}/src/lib.rt: {mods[word]} and {line}")
            own = self.names.modules.get((name, ""))
            if own:
                mods[own] = f"pub mod {own};"
            else:
                rest += items
            uses += [it for it in found_uses if it not in uses and (not own or it.startswith("pub"))]
        self.check_code_root(new, mods, uses)
        body = ["\n".join([*said, "#![tactic(auto)]"]), "\n".join(mods[it] for it in sorted(mods))]
        if uses:
            body.append("\n".join(uses))
        return "\n\n".join(body) + "\n" + (f"\n{rest.strip()}\n" if rest.strip() else "")

    def check_code_root(self, new: str, mods: dict[str, str], uses: list[str]) -> None:
        """Says which name a root of a merged crate would have twice."""
        known = dict(mods)
        for line in uses:
            for word in re.findall(r"(\w+)(?=\s*[,}]|;)", line):
                if known.setdefault(word, line) != line:
                    self.problems.append(f"{new}/src/lib.rt: {known[word]} and {line}")

    def rewritten_root(self, name: str) -> str:
        """Returns `lib.rt` with new paths, without what is in the same crate now."""
        module = self.tree.crates[name].modules[""]
        data = (self.tree.root / module.file).read_bytes()
        code = Code(self.paths, module)
        edits = code.all()
        gone = []
        for first, end in code.lines.items():
            leaves = [it for it in module.uses if it.first == first]
            kept = [it for it in leaves if not self.is_inside(name, module, it)]
            if len(kept) < len(leaves):
                start = first - 2
                gone.append((module.tokens[start].start, module.tokens[end].end, self.use_of(module, kept)))
        edits = [it for it in edits if not any(start <= it[0] < end for start, end, _ in gone)]
        text = applied(data, sorted([*edits, *gone])).decode()
        return renamed_mods(text, lambda it: self.names.module(name, it))

    def is_inside(self, name: str, module, leaf) -> bool:
        """Whether a `pub use` of a root re-exports what is in the same crate now."""
        new = self.paths.code(module, leaf.path, True)
        return leaf.is_public and new[0] == "crate" and leaf.path[0] in self.tree.crates

    def use_of(self, module, leaves) -> str:
        lines = []
        for leaf in leaves:
            new, known = self.paths.code(module, leaf.path, True), self.paths.handed_name(module, leaf)
            lines.append(f"pub use {'::'.join(new)}" + (f" as {known};" if known != new[-1] else ";"))
        return "\n".join(lines)

    def root_module(self, name: str) -> str:
        """Returns the module that the items of a merged crate's root get."""
        text = self.rewritten_root(name)
        docs, _, uses, items = pieces_of(text)
        private = [it for it in uses if not it.startswith("pub")]
        return "\n".join([*docs, *private]) + "\n\n" + items.strip() + "\n"


def renamed_mods(text: str, new_of) -> str:
    """Returns a root with new names of its modules."""
    return re.sub(r"(?m)^((?:pub )?mod )(\w+);", lambda found: f"{found[1]}{new_of(found[2])};", text)


def pieces_of(text: str) -> tuple[list[str], list[str], list[str], str]:
    """Returns the documentation, `mod` lines, `use` lines and items of a root."""
    docs, mods, uses, items = [], [], [], []
    at, lines = 0, text.splitlines()
    while at < len(lines):
        line = lines[at]
        if line.startswith("//!"):
            docs.append(line)
        elif re.match(r"(pub )?mod \w+;", line):
            mods.append(line)
        elif re.match(r"(pub |ghost )?use ", line):
            whole = line
            while not lines[at].rstrip().endswith(";"):
                at += 1
                whole += " " + lines[at].strip()
            uses.append(whole)
        elif not line.startswith("#!["):
            items.append(line)
        at += 1
    return docs, mods, uses, "\n".join(items).strip("\n") + ("\n" if items else "")
