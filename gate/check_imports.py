#!/usr/bin/env python3
"""Checks what crates re-export whole (`pub use ir_tree as trees`, `pub use Rattle.ir_tree.proofs as of_trees`;
docs/WORKING.md):

  - no definition, and no `ghost use` of code, leads by imports to a file that takes lemmas from a crate which
    re-exports them whole: the prover refuses that (`contract-cites-code`), but only in a check of the whole crate;
  - no crate has a re-export that no other crate uses.

It reads only imports, takes a second, and needs no build.

usage: gate/check_imports.py     at the top of the repository; the status is 1 if something is wrong"""
import pathlib
import re
import sys

IMPORT = re.compile(r"^\s*(?:pub )?use (Rattle\.[^\s;{]+)", re.MULTILINE)
GHOST = re.compile(r"^\s*(?:pub )?ghost use (Rattle\.[^\s;{]+)", re.MULTILINE)
WHOLE = re.compile(r"^pub use (Rattle\.\w+\.(?:specs|proofs)(?:\.[a-z]\w*)*)(?: as (\w+))?$", re.MULTILINE)
WHOLE_CODE = re.compile(r"^pub use ([a-z_:]+)(?: as (\w+))?;", re.MULTILINE)
root = pathlib.Path("crates")


class Imports:
    """The files of definitions and lemmas by their modules, what they import, and what crates re-export whole."""

    def __init__(self):
        self.crates = sorted(path.name for path in root.iterdir() if path.is_dir())
        self.texts = {path: path.read_text() for it in ("*/specs/**/*.antt", "*/proofs/**/*.antt", "*/src/**/*.rt")
                      for path in root.glob(it)}
        self.files, self.handed, self.named = {}, {}, set()
        for path, text in self.texts.items():
            crate, part, *inside = path.relative_to(root).with_suffix("").parts
            if part != "src":
                self.files[".".join(("Rattle", crate, part, *inside))] = path
            if inside == ["Lib"]:
                for found in WHOLE.finditer(text):
                    self.handed[f"Rattle.{crate}.{part}.{found[2] or found[1].split('.')[-1]}"] = found[1]

    def ends(self, name):
        """The module that an import resolves to, and whether it takes lemmas by a re-export of the whole."""
        by_another = False
        while True:
            self.named.add(name)
            words = name.split(".")
            head = next((it for it in (".".join(words[:end]) for end in range(len(words), 3, -1)) if it in self.handed),
                        None)
            if not head:
                return name, by_another
            by_another |= ".proofs." in head
            name = self.handed[head] + name[len(head):]

    def of(self, path, pattern):
        return [self.ends(name.rstrip(".")) for name in pattern.findall(self.texts[path])]


# Re-exports for users outside the repository, which no file here uses.
OFFERED = {"listeners::unreached"}


def leading(imports):
    """For each definition or file of code that leads to such lemmas the way to them, as files."""
    ways = {path: imports.of(path, IMPORT) for path in imports.files.values()}
    taken = {path for path, them in ways.items() if path.name != "Lib.antt" and any(by for _, by in them)}
    ways |= {path: imports.of(path, GHOST) for path in imports.texts if path.suffix == ".rt"}
    taken |= {path for path in ways if path.suffix == ".rt" and any(by for _, by in ways[path])}
    for first in sorted(path for path in ways if path.parts[2] != "proofs"):
        seen, waiting = {first}, [(first, (first,))]
        while waiting:
            path, way = waiting.pop()
            if path in taken:
                yield way
                break
            below = {imports.files[name] for name, _ in ways[path] if name in imports.files} - seen
            seen |= below
            waiting += [(it, (*way, it)) for it in sorted(below)]


def unused(imports):
    """The re-exports of a crate (code, definitions or lemmas) that no file uses."""
    for path in imports.texts:
        imports.of(path, IMPORT), imports.of(path, GHOST)
    everything = "\n".join([*imports.texts.values(), *imports.named])
    for name in sorted(imports.handed):
        if not any(name + end in everything for end in (".", " ", "\n")):
            yield name
    code = "\n".join(text for path, text in imports.texts.items() if path.suffix == ".rt")
    for crate in imports.crates:
        text = imports.texts.get(root / crate / "src/lib.rt", "")
        for found in WHOLE_CODE.finditer(text):
            name = found[2] or found[1].split("::")[-1]
            if f"{crate}::{name}" in OFFERED:
                continue
            if not re.search(rf"(?:{crate}|crate)::(?:\{{[^}}]*\b)?{name}\b", code):
                yield f"{crate}::{name}"


def main():
    imports = Imports()
    wrong = [" -> ".join(str(it.relative_to(root)) for it in way) + ": lemmas that a crate hands on whole"
             for way in leading(imports)]
    wrong += [f"{name}: handed on, and taken by none" for name in unused(imports)]
    for line in wrong:
        print(line)
    print(f"{len(imports.files)} files, {len(imports.handed)} handed on whole, {len(wrong)} wrong")
    return 1 if wrong else 0


if __name__ == "__main__":
    sys.exit(main())
