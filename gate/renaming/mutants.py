"""Edits (`must-fail/*.edit`, `tests/mutants/CRATE/*.edit` and `*.control`): their code under new names.

An edit is applied to its file, the file with the edit is rewritten as any other, and the text in the place of each
`old:` and `new:` is taken from there."""
import pathlib
import tempfile
from dataclasses import dataclass, field

from renaming.code import module_of
from renaming.rewrite import applied, new_place
from renaming.sources import tokens_of


@dataclass
class Mutant:
    """An edit: its path, its crate, the file that it changes, its pairs, and where each pair is before and after."""

    path: str
    crate: str
    file: str = ""
    pairs: list[tuple[str, str]] = field(default_factory=list)
    before: list[tuple[int, int]] = field(default_factory=list)
    after: list[tuple[int, int]] = field(default_factory=list)
    data: bytes = b""


def mutant_of(path: str, crate: str, text: str) -> Mutant:
    """Reads an edit."""
    made, old = Mutant(path, crate), ""
    for line in text.splitlines():
        word, _, rest = line.partition(": ")
        if word == "file":
            made.file = f"crates/{crate}/{rest.strip()}"
        elif word == "old":
            old = rest
        elif word == "new" or line == "new:":
            made.pairs.append((old, rest))
    return made


def place(made: Mutant, data: bytes) -> bool:
    """Finds where the pairs are, and makes the file with the edit. False if a text isn't there once."""
    spots = []
    for old, new in made.pairs:
        at = data.find(old.encode())
        if at < 0 or data.find(old.encode(), at + 1) >= 0:
            return False
        spots.append((at, at + len(old.encode()), new))
    made.before = [(start, end) for start, end, _ in spots]
    ordered, shift = sorted(spots), {}
    grown = 0
    for start, end, new in ordered:
        shift[start] = grown
        grown += len(new.encode()) - (end - start)
    made.after = [(start + shift[start], start + shift[start] + len(new.encode())) for start, _, new in spots]
    made.data = applied(data, spots)
    return True


def taken(data: bytes, edits: list, spot: tuple[int, int]) -> str | None:
    """Returns what is in a range of a rewritten file, the range being one before rewriting."""
    start, end = new_place(edits, spot[0]), new_place(edits, spot[1])
    return None if start is None or end is None else applied(data, edits)[start:end].decode()


def mutants_of(writing) -> list[Mutant]:
    """Returns the edits of the checkout."""
    found = []
    for name in writing.tree.files:
        parts = name.split("/")
        if name.endswith((".edit", ".control")) and ("must-fail" in parts or name.startswith("tests/mutants/")):
            crate = parts[1] if parts[0] == "crates" else parts[2]
            found.append(mutant_of(name, crate, (writing.tree.root / name).read_text()))
    return found


def rewrite_all(writing) -> None:
    """Gives the writing each edit under new names, and says which it leaves."""
    found, sound = mutants_of(writing), []
    for it in found:
        if place(it, (writing.tree.root / it.file).read_bytes()):
            sound.append(it)
        else:
            writing.said.append(f"{it.path}: an `old:` text isn't once in {it.file}")
    with tempfile.TemporaryDirectory() as folder:
        files = []
        for number, it in enumerate(sound):
            file = pathlib.Path(folder, f"{number}{pathlib.Path(it.file).suffix}")
            file.write_bytes(it.data)
            files.append(str(file))
        for it, tokens in zip(sound, tokens_of(files)):
            rewrite(writing, it, tokens)


def rewrite(writing, it: Mutant, tokens: list) -> None:
    """Gives the writing one edit."""
    root, tree = writing.tree.root, writing.tree
    original = (root / it.file).read_bytes()
    edits_before = writing.edits[it.file]
    if it.file.endswith(".rt"):
        stem = pathlib.Path(it.file).stem
        stem = "" if stem in ("lib", "main") else stem
        modules = tree.crates[it.crate].modules
        kept, modules[stem] = modules[stem], module_of(it.crate, stem, it.file, tokens)
        for name, made in modules[stem].types.items():
            if name in kept.types:
                made.functions |= kept.types[name].functions
                made.methods |= kept.types[name].methods
                made.inherent |= kept.types[name].inherent
        edits_after = writing.code_edits(modules[stem])
        modules[stem] = kept
    else:
        edits_after = writing.logic_edits(it.file, tokens)
    lines, left = [f"file: {'/'.join(writing.layout.new_path(it.file).split('/')[2:])}"], False
    for before, after in zip(it.before, it.after):
        old, new = taken(original, edits_before, before), taken(it.data, edits_after, after)
        left |= old is None or new is None or "\n" in old or "\n" in new
        lines += [f"old: {old}", f"new: {new}"]
    if left:
        writing.said.append(f"{it.path}: a rename goes over the end of a text")
    writing.give(writing.layout.new_path(it.path), ("\n".join(lines) + "\n").encode(), it.path)
