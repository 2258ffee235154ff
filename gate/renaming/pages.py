"""Pages, and programs outside the crates: paths of files, and names in backticks."""
import re

from renaming.code import Module
from renaming.tree import Crate

PATH = re.compile(r"[\w.+-]*(?:\{[\w.,]+\}|/)[\w./+{},-]*")
SPAN = re.compile(r"(?<!`)`([^`\n]+)`(?!`)")
ENDING = re.compile(r"[.,:]+$")
COLUMNS = 120


def alternatives(path: str) -> list[str]:
    """`a/{b,c}.rt` is two paths."""
    found = re.search(r"\{([^{}]*)\}", path)
    if not found:
        return [path]
    before, after = path[:found.start()], path[found.end():]
    return [it for one in found.group(1).split(",") for it in alternatives(before + one + after)]


def joined(paths: list[str]) -> list[str]:
    """Paths of one folder and ending as one, with braces."""
    groups: dict[tuple[str, str], list[str]] = {}
    for path in paths:
        folder, _, name = path.rpartition("/")
        stem, dot, ending = name.rpartition(".")
        groups.setdefault((folder, dot + ending), []).append(stem)
    return [f"{folder}/{stems[0] if len(stems) == 1 else '{' + ','.join(stems) + '}'}{ending}"
            for (folder, ending), stems in groups.items()]


class Pages:
    """Renames in texts that aren't sources."""

    def __init__(self, writing) -> None:
        self.writing, self.tree, self.names = writing, writing.tree, writing.names
        self.known = set(self.tree.files)
        self.folders = {it.rpartition("/")[0] for it in self.known}
        for it in list(self.folders):
            while "/" in it:
                it = it.rpartition("/")[0]
                self.folders.add(it)
        self.words = self.unambiguous()
        self.outside = Crate("", list(self.tree.crates))
        self.outside.modules["page"] = Module("", "page", "", [])

    def unambiguous(self) -> dict[str, str]:
        """Returns the names that are renamed everywhere: all things of that name get the same new name."""
        return {}

    def text(self, file: str, text: str) -> str:
        """Returns a text under new names. `file` is where it is today."""
        crate = file.split("/")[1] if file.startswith("crates/") else ""
        made = PATH.sub(lambda found: self.path(found.group(), crate), text)
        if file.endswith(".md"):
            made = self.rows_of_edits(made)
            made = SPAN.sub(lambda found: f"`{self.span(found.group(1))}`", made)
            if made != text:
                made = wrapped(text, made)
        if file.endswith(".py"):
            for old, new in self.names.crates.items():
                if f"tests/generate/{old}.py" in self.known:
                    made = re.sub(rf"\b{old}\b", new, made)
        return made

    def rows_of_edits(self, text: str) -> str:
        """Renames rows of the tables of edits whose names collide in a merged crate."""
        for (crate, old), new in self.writing.edit_names.items():
            text = text.replace(f"| `{crate}` | `{old}` |", f"| `{crate}` | `{new}` |")
        return text

    def path(self, said: str, crate: str) -> str:
        """Returns a path, perhaps with braces, under its new name."""
        ending = ENDING.search(said)
        path, rest = (said[:ending.start()], ending.group()) if ending else (said, "")
        found = [self.one_path(it, crate) for it in alternatives(path)]
        if all(new == old for new, old in zip(found, alternatives(path))):
            return said
        made = joined(found) if "{" in path else found
        return "`, `".join(made) + rest

    def one_path(self, path: str, crate: str) -> str:
        """Returns where a file or folder is now, said from the same place."""
        for before in ("", "crates/", f"crates/{crate}/" if crate else ""):
            full = before + path.rstrip("/")
            if full in self.known:
                return self.writing.layout.new_path(full).removeprefix(self.new_prefix(before, crate))
            if full in self.folders and full.startswith("crates/") and before != "crates//":
                return self.folder(full).removeprefix(self.new_prefix(before, crate)) + "/" * path.endswith("/")
        return path

    def new_prefix(self, before: str, crate: str) -> str:
        return f"crates/{self.names.crate(crate)}/" if before.count("/") == 2 else before

    def folder(self, full: str) -> str:
        """Returns where a folder of a crate is now."""
        inside = sorted(it for it in self.known if it.startswith(full + "/"))
        parts = full.split("/")
        if len(parts) == 2:
            return f"crates/{self.names.crate(parts[1])}"
        return "/".join(self.writing.layout.new_path(inside[0]).split("/")[:len(parts)])

    def span(self, said: str) -> str:
        """Returns what is in backticks under new names."""
        if said in self.names.crates:
            return self.names.crates[said]
        if re.fullmatch(r"\w+(::\w+)+", said) and said.split("::")[0] in self.tree.crates:
            return "::".join(self.code_path(tuple(said.split("::"))))
        if re.fullmatch(r"Rattle(\.[\w+]+)+", said):
            return ".".join(self.writing.paths.logic(tuple(said.split("."))))
        return self.words.get(said, said)

    def code_path(self, path: tuple[str, ...]) -> tuple[str, ...]:
        self.tree.crates[""] = self.outside
        try:
            return self.writing.paths.code(self.outside.modules["page"], path, True)
        finally:
            del self.tree.crates[""]


def wrapped(before: str, after: str) -> str:
    """Breaks lines that got too long: what is too much goes to the next line of the paragraph."""
    old, lines, out = before.split("\n"), after.split("\n"), []
    if len(old) != len(lines):
        return after
    carry, indent, fenced = "", "", False
    for line in lines:
        fenced ^= line.startswith("```")
        is_text = not fenced and not re.match(r"\s*[|#>]|    |\s*```", line)
        if carry and line.strip() and is_text and not re.match(r"\s*([-*] |\d+\. )", line):
            line = f"{indent}{carry} {line.strip()}"
        elif carry:
            out += split(indent + carry)
        carry = ""
        if is_text and len(line) > COLUMNS:
            *whole, line = split(line)
            out += whole[:1]
            indent = " " * len(re.match(r"\s*(?:[-*] |\d+\. )?", whole[0]).group()) if whole else ""
            carry = " ".join(it.strip() for it in [*whole[1:], line]) if whole else ""
            if whole:
                continue
        out.append(line)
    return "\n".join([*out, *(split(indent + carry) if carry else [])])


def split(line: str) -> list[str]:
    """Breaks a line at spaces into lines that aren't too long."""
    indent, out = " " * len(re.match(r"\s*(?:[-*] |\d+\. )?", line).group()), []
    while len(line) > COLUMNS:
        cut = line.rfind(" ", len(indent) + 1, COLUMNS + 1)
        if cut < 0:
            break
        out.append(line[:cut].rstrip())
        line = indent + line[cut + 1:]
    return [*out, line]
