#!/usr/bin/env python3
"""Gives identifiers other names by a table, at the top of a clean checkout.

usage: gate/rename_words.py TABLE [--try]

A line of the table is CRATES, OLD and NEW, separated by tabs; the comment above a group says why. CRATES is `*` for
all crates, or names with commas between them. Each identifier that is exactly OLD becomes NEW, in code, definitions,
proofs, mutants and pages: a name of a function, type, field, local, definition or lemma, a label of a goal, and a file
or folder of that name. Strings stay, and prose of comments and pages changes between backticks only.

An OLD that isn't there is printed. Nothing is written if a NEW is there already in the crates of its line, or a file of
its name. --try writes nothing. The output also lists files outside the crates that name an OLD, lines of comments and
pages that are too long now, and mutants that don't match their file. Afterwards run `git add -A`,
`gate/rename.py --check` and `gate/front_end.py`."""
import argparse
import collections
import pathlib
import re
import subprocess
import sys

RATTLE = "/opt/rattle/bin/rattle"
WORD = re.compile(rb"[A-Za-z_][A-Za-z0-9_]*")
CODE = re.compile(rb"""(?P<comment>//[^\n]*)|b?"(?:\\.|[^"\\])*"|b?'(?:\\.|[^'\\\n])'|(?P<word>[A-Za-z_]\w*)""", re.S)
LOGIC = re.compile(rb"""(?P<comment>--[^\n]*|\{-.*?-\})|"(?:\\.|[^"\\\n])*"|(?P<word>[A-Za-z_]\w*)""", re.S)
SPAN = re.compile(rb"`[^`\n]+`")
AREAS = ("src", "specs", "proofs")


class Table:
    """The lines of a table: for each crate what each old name becomes."""

    def __init__(self, file: pathlib.Path) -> None:
        self.path, self.rows = str(file), list[tuple[str, bytes, bytes]]()
        for number, line in enumerate(file.read_text().splitlines(), 1):
            cells = line.split("\t")
            if not line.strip() or line.startswith("#"):
                continue
            if len(cells) != 3:
                sys.exit(f"{file}:{number}: not CRATES, OLD and NEW")
            self.rows.append((cells[0], cells[1].encode(), cells[2].encode()))

    def of(self, crate: str) -> dict[bytes, bytes]:
        """Returns what names of a crate become; a line that names the crate goes before a line for all."""
        found = {old: new for crates, old, new in self.rows if crates == "*"}
        found |= {old: new for crates, old, new in self.rows if crate in crates.split(",")}
        return found

    def news(self) -> set[str]:
        """Returns the new names."""
        return {new.decode() for _, _, new in self.rows}

    def everywhere(self) -> dict[bytes, bytes]:
        """Returns what names become in all crates."""
        return {old: new for crates, old, new in self.rows if crates == "*"}


def in_spans(text: bytes, names: dict[bytes, bytes]) -> bytes:
    """Renames between backticks."""
    def span(it: re.Match) -> bytes:
        return WORD.sub(lambda word: names.get(word[0], word[0]), it[0])
    return SPAN.sub(span, text)


def in_source(data: bytes, names: dict[bytes, bytes], lexer: re.Pattern) -> bytes:
    """Renames in code or in logic: words, and spans of comments."""
    def token(it: re.Match) -> bytes:
        if it["word"]:
            return names.get(it[0], it[0])
        return in_spans(it[0], names) if it["comment"] else it[0]
    return lexer.sub(token, data)


def in_mutant(data: bytes, names: dict[bytes, bytes]) -> bytes:
    """Renames in the file and in the code of an edit."""
    lines = []
    for line in data.split(b"\n"):
        word, colon, rest = line.partition(b": ")
        is_code = colon and word in (b"file", b"old", b"new")
        lines.append(word + colon + in_source(rest, names, CODE) if is_code else in_spans(line, names))
    return b"\n".join(lines)


def new_path(path: str, names: dict[bytes, bytes]) -> str:
    """Returns the path of a source with its files and folders renamed."""
    parts = path.split("/")
    if parts[0] != "crates" or len(parts) < 4 or parts[2] not in AREAS:
        return path
    for at in range(3, len(parts)):
        plus, stem, ending = re.fullmatch(r"(\+?)([^.]*)(.*)", parts[at]).groups()
        parts[at] = plus + names.get(stem.encode(), stem.encode()).decode() + ending
    return "/".join(parts)


def renamed(path: str, data: bytes, names: dict[bytes, bytes]) -> bytes:
    """Returns a file with its names renamed, by its kind."""
    if path.endswith(".rt"):
        return in_source(data, names, CODE)
    if path.endswith(".antt"):
        return in_source(data, names, LOGIC)
    if path.endswith((".edit", ".control")):
        return in_mutant(data, names)
    return in_spans(data, names)


def tracked(root: pathlib.Path) -> list[str]:
    """Returns the files of the checkout."""
    out = subprocess.run(["git", "ls-files"], cwd=root, capture_output=True, text=True, check=True).stdout
    return out.splitlines()


def crate_of(path: str) -> str | None:
    """Returns the crate of a source or of a mutant."""
    parts = path.split("/")
    if parts[0] == "crates" and len(parts) > 3 and parts[2] in AREAS:
        return parts[1]
    if parts[:2] == ["tests", "mutants"] and path.endswith((".edit", ".control")):
        return parts[2]
    return None


class Run:
    """Reads a checkout, and makes the files that differ."""

    def __init__(self, root: pathlib.Path, table: Table) -> None:
        self.root, self.table = root, table
        self.made: dict[str, tuple[str, bytes]] = {}
        self.seen: dict[bytes, set[str]] = collections.defaultdict(set)
        self.outside: list[str] = []
        self.meeting: list[str] = []
        self.paths: set[str] = set()

    def all(self) -> None:
        """Renames in all files."""
        maps: dict[str, dict[bytes, bytes]] = {}
        watched = {it for _, old, new in self.table.rows for it in (old, new)}
        for path in tracked(self.root):
            crate = crate_of(path)
            is_page = path.endswith(".md") and path != "CHANGELOG.md"
            if crate is None and not is_page and not path.startswith(("gate/", "benchmarks/", "tools/")):
                continue
            data = (self.root / path).read_bytes()
            words = set(WORD.findall(data)) & watched
            if crate is not None:
                names = maps.setdefault(crate, self.table.of(crate))
                for word in words:
                    self.seen[word].add(crate)
                self.file(path, data, names, words)
            elif is_page:
                parts = path.split("/")
                names = self.table.of(parts[1]) if parts[0] == "crates" else self.table.everywhere()
                names = {old: new for old, new in names.items() if b"_" in old or old.lower() != old}
                self.file(path, data, names, words)
            elif path != self.table.path and (found := words & {old for _, old, _ in self.table.rows if b"_" in old}):
                self.outside += [f"{path}: {it.decode()}" for it in sorted(found)]

    def file(self, path: str, data: bytes, names: dict[bytes, bytes], words: set[bytes]) -> None:
        """Renames in one file, and gives it another path."""
        new = renamed(path, data, names) if words & names.keys() else data
        there = new_path(path, names)
        if there != path and (self.root / there).exists() or there in self.paths:
            self.meeting.append(f"taken: {there}, from {path}")
        self.paths.add(there)
        if new != data or there != path:
            self.made[path] = (there, new)

    def faults(self) -> list[str]:
        """Returns the lines whose OLD isn't there, and those whose NEW is there already."""
        olds = {it for _, it, _ in self.table.rows}
        found = [*self.meeting]
        for crates, old, new in self.table.rows:
            known = self.seen[old] & set(crates.split(",")) if crates != "*" else self.seen[old]
            if not known:
                found.append(f"missing: {old.decode()} in {crates}")
            elif taken := self.seen[new] & known - (self.seen[new] if new in olds else set()):
                found.append(f"taken: {new.decode()}, from {old.decode()}, in {', '.join(sorted(taken))}")
        return found

    def store(self) -> None:
        """Writes the files, and formats those of code."""
        for old, (new, data) in self.made.items():
            if new != old:
                (self.root / old).unlink()
        for new, data in self.made.values():
            (self.root / new).parent.mkdir(parents=True, exist_ok=True)
            (self.root / new).write_bytes(data)
        for folder in sorted((it for it in (self.root / "crates").rglob("*") if it.is_dir()), reverse=True):
            if not any(folder.iterdir()):
                folder.rmdir()
        code = [new for new, _ in self.made.values() if new.endswith(".rt")]
        for at in range(0, len(code), 200):
            subprocess.run([RATTLE, "fmt", "--write", *code[at:at + 200]], cwd=self.root, check=False)


def long_lines(root: pathlib.Path, files: list[str], news: set[str]) -> list[str]:
    """Returns the lines of comments and of pages that have a new name and more than 120 columns."""
    found = []
    for file in files:
        for number, line in enumerate((root / file).read_text().splitlines(), 1):
            is_prose = file.endswith(".md") and not line.startswith("|") or line.lstrip().startswith(("//", "-- "))
            if is_prose and len(line) > 120 and news & set(re.findall(r"\w+", line)):
                found.append(f"long: {file}:{number}")
    return found


def lost_mutants(root: pathlib.Path) -> list[str]:
    """Returns the mutants whose text isn't once in their file."""
    found = []
    for path in sorted((root / "tests/mutants").rglob("*.edit")):
        crate, file = path.relative_to(root / "tests/mutants").parts[0], None
        for line in path.read_text().splitlines():
            word, _, rest = line.partition(": ")
            if word == "file":
                file = root / "crates" / crate / rest.strip()
            elif word == "old" and (not file or not file.exists() or file.read_text().count(rest) != 1):
                found.append(f"mutant: {path.relative_to(root)}: {rest.strip()}")
    return found


def main() -> int:
    words = argparse.ArgumentParser(usage=__doc__)
    words.add_argument("table", type=pathlib.Path)
    words.add_argument("--try", dest="only_try", action="store_true")
    asked, root = words.parse_args(), pathlib.Path(".").resolve()
    dirty = subprocess.run(["git", "status", "--porcelain"], capture_output=True, text=True, check=True).stdout
    if dirty and not asked.only_try:
        sys.exit("the checkout isn't clean")
    run = Run(root, Table(asked.table))
    run.all()
    faults = run.faults()
    print(*faults, *run.outside, sep="\n")
    if any(it.startswith("taken") for it in faults):
        sys.exit("a NEW is there already: nothing is written")
    if not asked.only_try:
        run.store()
        print(*long_lines(root, [new for new, _ in run.made.values()], run.table.news()), *lost_mutants(root), sep="\n")
    print(f"{len(run.made)} files {'differ' if asked.only_try else 'written'}")
    return 0


if __name__ == "__main__":
    sys.exit(main())
