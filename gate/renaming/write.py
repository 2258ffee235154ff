"""All files of a checkout under their new names."""
import re
import subprocess

from renaming import mutants
from renaming.layout import Layout, renamed_mods
from renaming.pages import Pages
from renaming.paths import Paths
from renaming.logic import Labels, Logic
from renaming.rewrite import Code, applied, in_comments, owner_at, params_at
from renaming.sources import RATTLE
from renaming.table import Names
from renaming.tree import Tree

LEFT_ALONE = ("tests/golden/", "dist/")


def in_order(lines: list[str]) -> list[str]:
    """Returns the lines of crates.txt, each crate above those it names."""
    def read(line: str) -> tuple[str, list[str]]:
        head, _, uses = line.partition("#")[0].partition(":")
        return (head.split()[0] if head.strip() else ""), uses.split()

    for _ in range(len(lines)):
        places = {read(line)[0]: at for at, line in enumerate(lines) if read(line)[0]}
        wrong = [(at, places[it]) for at, line in enumerate(lines) for it in read(line)[1] if places.get(it, at) < at]
        if not wrong:
            break
        user, used = min(wrong)
        used = min(it for at, it in wrong if at == user)
        name = read(lines[user])[0]
        lowest_user = max([at for at, line in enumerate(lines) if name in read(line)[1]], default=-1)
        if lowest_user < used:
            lines.insert(used, lines.pop(user))
        else:
            lines.insert(user, lines.pop(used))
    return lines


class Writing:
    """Makes the new files. `said` is what a person has to look at."""

    def __init__(self, tree: Tree, names: Names) -> None:
        self.tree, self.names = tree, names
        self.paths = Paths(tree, names)
        self.layout = Layout(tree, self.paths)
        self.pages = Pages(self)
        self.said: list[str] = []
        self.left: list[str] = []
        self.labels: dict[tuple[str, str, str], Labels] = {}
        self.file_words: dict[str, dict[str, str]] = {}
        self.made: dict[str, bytes] = {}
        self.came_from: dict[str, str] = {}
        self.edits: dict[str, list] = {}
        self.edit_names: dict[tuple[str, str], str] = {}

    def all(self) -> dict[str, bytes]:
        """Returns all files that differ or go elsewhere, by new path."""
        self.leave_undecided()
        self.sources()
        self.roots()
        self.crates_txt()
        mutants.rewrite_all(self)
        self.others()
        self.said += self.layout.problems
        return self.made

    def leave_undecided(self) -> None:
        """Leaves methods that are called on a receiver of unknown type."""
        members = self.paths.members
        found = members.undecided(lambda module, at: (owner_at(module, at), params_at(module, at)))
        for name, files in sorted(found.items()):
            rows = [f"{'::'.join(it)} to {new}" for it, new in self.names.members.items() if it[3] == name]
            self.said.append(f"left: method {', '.join(rows)}: called on what may be another type in "
                             f"{len(files)} places, first in {files[0]}")
        members.without(set(found))

    def give(self, new: str, data: bytes, old: str) -> None:
        if new in self.came_from and self.came_from[new] != old:
            new = self.apart(new, old)
        self.came_from[new] = old
        self.made[new] = data

    def apart(self, new: str, old: str) -> str:
        """Returns another path for a file that meets one of its name in a merged crate."""
        folder, _, name = new.rpartition("/")
        if new.endswith((".edit", ".control")):
            crate = old.split("/")[2 if old.startswith("tests") else 1]
            self.edit_names[crate, name.rpartition(".")[0]] = f"{crate}_{name.rpartition('.')[0]}"
            return f"{folder}/{crate}_{name}"
        self.said.append(f"two files become {new}: {self.came_from[new]} and {old}")
        return new

    def sources(self) -> None:
        for crate in self.tree.crates.values():
            for module in crate.modules.values():
                edits = self.code_edits(module)
                self.edits[module.file] = edits
                if module.name or not self.layout.is_root(module.file):
                    self.source(module.file, edits, crate.name)
        for file, tokens in self.tree.tokens.items():
            if file.endswith(".antt") and not file.count("/") == 3 or not file.endswith(("Lib.antt", ".rt")):
                self.edits[file] = self.logic_edits(file, tokens)
                self.source(file, self.edits[file], file.split("/")[1])

    def code_edits(self, module) -> list:
        """Returns the replacements in a file of code."""
        code = Code(self.paths, module, self.labels)
        edits = code.all()
        self.left += [f"{module.file}: {it}" for it in code.left]
        self.file_words[module.file] = code.words
        return edits

    def logic_edits(self, file: str, tokens: list) -> list:
        """Returns the replacements in a file of specs or proofs."""
        parts = file.split("/")
        stem = parts[3].removesuffix(".antt") if len(parts) == 4 else ""
        labels = self.labels_of(parts) if len(parts) > 4 else Labels()
        logic = Logic(self.paths, parts[1], parts[2], stem, tokens, labels, self.labels)
        edits = logic.all()
        self.left += [f"{file}: {it}" for it in logic.left]
        self.file_words[file] = logic.words
        return edits

    def labels_of(self, parts: list[str]) -> Labels:
        """Returns how labels change in the answers of a function, or of the functions of a cycle."""
        room, name = parts[3:-1], parts[-2]
        module = room[0] if room[0] in self.tree.crates[parts[1]].modules else ""
        if not name.startswith("+"):
            return self.labels.get((parts[1], module, name), Labels())
        found, is_whole = Labels(is_cycle=True), len(room) == 1  # a cycle that goes through several modules
        found.modules = {old: new for (crate, old), new in self.names.modules.items() if crate == parts[1]}
        for (crate, known, _), labels in self.labels.items():
            if crate == parts[1] and (known == module or is_whole):
                found.words |= labels.words
                found.bound |= labels.bound
        for (crate, known, *_, function), new in [*self.names.items.items(), *self.names.members.items()]:
            if crate == parts[1] and (known == module or is_whole) and function[:1].islower():
                found.words[function] = new
        return found

    def source(self, file: str, edits: list, crate: str) -> None:
        data = (self.tree.root / file).read_bytes()
        mark = "--" if file.endswith(".antt") else "//"
        edits = edits + in_comments(data, mark, self.file_words.get(file, {}))
        data = applied(data, edits)
        if file.endswith(("/src/lib.rt", "/src/main.rt")):
            data = renamed_mods(data.decode(), lambda it: self.names.module(crate, it)).encode()
        self.give(self.layout.new_path(file), data, file)

    def roots(self) -> None:
        for new, old in self.layout.parts.items():
            for side in ("specs", "proofs"):
                text = self.layout.logic_root(new, side)
                if text is not None:
                    self.give(f"crates/{new}/{side}/Lib.antt", text.encode(), f"crates/{old[0]}/{side}/Lib.antt")
            if len(old) > 1:
                root = self.layout.code_root(new)
                self.give(f"crates/{new}/src/lib.rt", root.encode(), f"crates/{old[0]}/src/lib.rt")
                for name in old:
                    if (name, "") in self.names.modules:
                        place = f"crates/{new}/src/{self.names.modules[name, '']}.rt"
                        self.give(place, self.layout.root_module(name).encode(), f"crates/{name}/src/lib.rt")
                self.readme(new, old)

    def readme(self, new: str, old: list[str]) -> None:
        """Joins the pages of merged crates; the headings of the second and later are one level lower."""
        texts = []
        for name in old:
            file = self.tree.root / "crates" / name / "README.md"
            if file.exists():
                text = self.page(f"crates/{name}/README.md", file.read_text())
                texts.append(text if not texts else re.sub(r"(?m)^#", "##", text))
        if texts:
            self.give(f"crates/{new}/README.md", "\n".join(texts).encode(), f"crates/{old[0]}/README.md")

    def crates_txt(self) -> None:
        lines, done = [], set()
        for line in (self.tree.root / "crates.txt").read_text().splitlines():
            head, colon, _ = line.partition("#")[0].partition(":")
            if not (head.strip() and colon):
                lines.append(line)
                continue
            name, *rest = head.split()
            new = self.names.crate(name)
            if new in done or self.layout.parts[new][0] != name:
                continue
            done.add(new)
            uses = []
            for part in self.layout.parts[new]:
                uses += [self.names.crate(it) for it in self.tree.crates[part].uses]
            uses = [it for it in dict.fromkeys(uses) if it != new]
            lines.append(f"{' '.join([new, *rest])}: {' '.join(uses)}".rstrip())
        self.give("crates.txt", ("\n".join(in_order(lines)) + "\n").encode(), "crates.txt")

    # ---- files that name sources

    def others(self) -> None:
        """Renames in what isn't a source: paths, and names of crates in backticks on pages."""
        known = {*self.tree.tokens, "crates.txt"}
        for file in self.tree.files:
            if file in known or self.is_joined(file) or file.endswith((".edit", ".control")):
                continue
            path = self.tree.root / file
            new = self.layout.new_path(file)
            if file.startswith(LEFT_ALONE) or path.name in ("stdin", "stdout") or path.is_symlink():
                if new != file:
                    self.give(new, path.read_bytes(), file)
                continue
            try:
                text = path.read_text()
            except UnicodeDecodeError:
                continue
            other = self.page(file, text)
            if new != file or other != text:
                self.give(new, other.encode(), file)

    def is_joined(self, file: str) -> bool:
        parts = file.split("/")
        return (file.startswith("crates/") and len(parts) == 3 and parts[2] == "README.md"
                and len(self.layout.parts[self.names.crate(parts[1])]) > 1)

    def page(self, file: str, text: str) -> str:
        """Returns a text with new paths of files and names of crates."""
        return self.pages.text(file, text)

    # ---- storing

    def changed(self, made: dict[str, bytes]) -> dict[str, bytes]:
        """Returns the files that differ from what is there."""
        root = self.tree.root
        return {it: data for it, data in made.items() if not (root / it).exists() or (root / it).read_bytes() != data}

    def store(self, made: dict[str, bytes]) -> None:
        """Writes the files, and removes those that moved elsewhere."""
        root = self.tree.root
        gone = [it for it in self.tree.files if self.goes(it) and it not in made]
        for file in gone:
            (root / file).unlink()
        made = self.changed(made)
        for file, data in made.items():
            (root / file).parent.mkdir(parents=True, exist_ok=True)
            (root / file).write_bytes(data)
        rooms = [*(root / "crates").rglob("*"), *(root / "tests/mutants").rglob("*")]
        for folder in sorted((it for it in rooms if it.is_dir()), reverse=True):
            if not any(folder.iterdir()):
                folder.rmdir()
        changed = [str(root / it) for it in made if it.endswith(".rt")]
        for at in range(0, len(changed), 200):
            subprocess.run([RATTLE, "fmt", "--write", *changed[at:at + 200]], check=False)

    def goes(self, file: str) -> bool:
        """Whether a file has another path now."""
        return (file in self.tree.tokens or self.layout.new_path(file) != file or self.is_joined(file))
