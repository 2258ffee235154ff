#!/usr/bin/env python3
"""Checks README.md, docs/*.md, crates/*/README.md and tests/mutants/README.md:

  - each path of a file, a folder or a crate in backticks is there (NAME, CRATE and their like stand for any);
  - a line has at most 120 columns, of Python, shell, C, C++ and Rust too; a cell of a table at most 200 (its row can't
    be broken);
  - the picture of docs/ARCHITECTURE.md has each crate of crates/, and crates.txt no other, each above those it names;
  - tests/mutants/README.md lists each edit that the prover must refuse, and docs/PROMISES.md says how many there
    are, and names in its last column no other;
  - the text that an edit or a control replaces is exactly once in its file;
  - a link to a heading (`PAGE.md#heading`) names one that is there.

It lists the lines with "yet", "at present" and "so far", which may be out of date after a change.

usage: gate/check_docs.py     at the top of the repository; the status is 1 if something is wrong"""
import pathlib
import re
import sys

COLUMNS, CELL = 120, 200
PASSING = re.compile(r"\b(yet|at present|so far)\b", re.IGNORECASE)
SPAN = re.compile(r"(?<!`)`([^`\n]+)`(?!`)")
PATH = re.compile(r"[\w.{},*/-]+")
ENDINGS = {".md", ".py", ".sh", ".rt", ".antt", ".txt", ".c", ".edit", ".mlir", ".script", ".out"}
INSIDE = {"src", "specs", "proofs", "must-fail"}
LINES = ("benchmarks", "bindings", "examples", "gate", "oracle", "tests", "tools")
PLACEHOLDER = re.compile(r"\b(NAME|CRATE|MODULE|FUNCTION|FILE|FOLDER|OLD|NEW|WORD)\b")
NO_EDITS = {"with_capacity"}  # a function that the table of planted bodies names
PART_OF_EDIT = re.compile(r"^(file|old|new): ?", re.MULTILINE)
LINK = re.compile(r"\]\(([\w./-]*\.md)?#([^)\s]+)\)")
HEADING = re.compile(r"^#+ (.*)", re.MULTILINE)
FENCED = re.compile(r"^```.*?^```", re.MULTILINE | re.DOTALL)
ROW_OF_EDIT = re.compile(r"^\| `(\w+)` \| `(\w+)` \|", re.MULTILINE)
root = pathlib.Path()
WRONG_BODIES = root / "tests/mutants"
crates = {path.name for path in (root / "crates").iterdir() if path.is_dir()}


def alternatives(path):
    """`a/{b,c}.rt` is two paths."""
    found = re.search(r"\{([^{}]*)\}", path)
    if not found:
        return [path]
    before, behind = path[:found.start()], path[found.end():]
    return [it for one in found.group(1).split(",") for it in alternatives(before + one + behind)]


def is_path(text, of_crate):
    """Whether a word in backticks names a file or a folder of the repository."""
    if not PATH.fullmatch(text) or PLACEHOLDER.search(text) or "/out/" in text or text.startswith("/"):
        return False
    first, slash, _ = text.partition("/")
    if pathlib.PurePath(text).suffix in ENDINGS and "*" not in first:
        return bool(slash) or of_crate or not pathlib.PurePath(text).suffix == ".rt"
    return bool(slash) and (first in crates or (root / first).is_dir() or of_crate and first in INSIDE)


def is_there(text, page, of_crate):
    """Whether a path exists: from the top, from crates/ or the page's folder, or, for a page of docs/, in some
    crate."""
    path = text.rstrip("/")
    paths = [path, f"crates/{path}"] + ([] if of_crate else [f"crates/*/{path}"])
    return any(next(root.glob(it), None) for it in paths) or next(page.parent.glob(path), None) is not None


def pages():
    yield root / "README.md"
    yield from sorted((root / "docs").glob("*.md"))
    yield from sorted((root / "crates").glob("*/README.md"))
    yield WRONG_BODIES / "README.md"


def wrong_in(page):
    """What is wrong with a page, and the lines that may be out of date."""
    of_crate = page.parent.parent.name == "crates"
    for number, line in enumerate(page.read_text().splitlines(), 1):
        at = f"{page}:{number}"
        if line.startswith("|"):
            for cell in line.replace("\\|", "  ").strip("|").split("|"):
                if len(cell.strip()) > CELL:
                    yield True, f"{at}: a cell of {len(cell.strip())} characters"
        elif len(line) > COLUMNS:
            yield True, f"{at}: {len(line)} columns"
        for span in SPAN.findall(line):
            for path in alternatives(span):
                if is_path(path, of_crate) and not is_there(path, page, of_crate):
                    yield True, f"{at}: {path} isn't there"
        if PASSING.search(line):
            yield False, f"{at}: {line.strip()[:150]}"


def long_lines():
    """Lines that are too long in programs outside the crates."""
    for path in sorted(it for folder in LINES for it in (root / folder).rglob("*")):
        if path.suffix in {".py", ".sh", ".c", ".cpp", ".h", ".hpp", ".rs"}:
            for number, line in enumerate(path.read_text().splitlines(), 1):
                if len(line) > COLUMNS:
                    yield f"{path}:{number}: {len(line)} columns"


def crates_apart():
    """Faults of the picture and of crates.txt: a crate that is missing or doesn't exist, or that uses one above it."""
    drawn = {word for line in (root / "docs/ARCHITECTURE.md").read_text().splitlines() if line.startswith("    ")
             for word in re.findall(r"\w+", line)}
    yield from (f"docs/ARCHITECTURE.md: {name} isn't drawn" for name in sorted(crates - drawn))
    above = set()
    for line in (root / "crates.txt").read_text().splitlines():
        name, _, below = line.partition("#")[0].partition(":")
        if name.strip():
            above.add(name.split()[0])
            yield from (f"crates.txt: {it} stands above {name}, which names it" for it in below.split() if it in above)
    yield from (f"crates.txt: {name} is listed, or there, alone" for name in sorted(crates ^ above))


def edits_apart():
    """Edits that the pages lack, or that don't exist."""
    tried = {(path.parts[-3], path.stem) for path in root.glob("crates/*/must-fail/*.edit")}
    kept = {(path.parts[-2], path.stem) for path in WRONG_BODIES.glob("*/*.edit")}
    lists = (WRONG_BODIES / "README.md").read_text().split("## Here")
    for there, rows in zip((tried, kept), lists):
        for crate, name in sorted(there ^ set(ROW_OF_EDIT.findall(rows))):
            yield f"{WRONG_BODIES}/README.md: {crate}/{name} is listed, or there, alone"
    promises = (root / "docs/PROMISES.md").read_text()
    if f"Of {len(tried | kept)} wrong bodies the gate tries {len(tried)}" not in promises:
        yield f"docs/PROMISES.md: there are {len(tried | kept)} wrong bodies, of which the gate tries {len(tried)}"
    named = {name for line in promises.splitlines() if line.startswith("|") and line.count("|") == 4
             for name in re.findall(r"`(\w+)`", line.split("|")[3])}
    names = {name for _, name in tried | kept}
    yield from (f"docs/PROMISES.md: {name} is no edit" for name in sorted(named - names - NO_EDITS))


def edits_astray():
    """Edits and controls whose old text isn't exactly once in its file."""
    edits = [(path, path.parents[1].name) for path in root.glob("crates/*/must-fail/*.edit")]
    edits += [(path, path.parent.name) for ending in ("edit", "control") for path in WRONG_BODIES.glob(f"*/*.{ending}")]
    for edit, crate in sorted(edits):
        words, file = PART_OF_EDIT.split(edit.read_text())[1:], root
        for word, text in zip(words[::2], words[1::2]):
            if word == "file":
                file = root / "crates" / crate / text.strip()
            elif word == "old" and (not file.is_file() or file.read_text().count(text.removesuffix("\n")) != 1):
                yield f"{edit}: what it is to replace doesn't stand in {file} once"


def headings(page):
    """The headings of a page, as links name them."""
    titles = HEADING.findall(FENCED.sub("", page.read_text()))
    plain = (re.sub(r"\[([^]]*)\]\([^)]*\)", r"\1", title).strip().lower() for title in titles)
    return {re.sub(r"[^\w -]", "", title).replace(" ", "-") for title in plain}


def links_astray():
    """Links to headings that aren't there."""
    for page in pages():
        for path, heading in LINK.findall(page.read_text()):
            target = page.parent / path if path else page
            if not target.is_file() or heading not in headings(target):
                yield f"{page}: {path}#{heading} isn't there"


def main():
    found = [it for page in pages() for it in wrong_in(page)]
    wrong = [text for is_wrong, text in found if is_wrong]
    wrong += [*long_lines(), *crates_apart(), *edits_apart(), *edits_astray(), *links_astray()]
    for text in wrong:
        print(text)
    for text in (text for is_wrong, text in found if not is_wrong):
        print(f"look at {text}")
    print(f"{len(wrong)} wrong")
    sys.exit(bool(wrong))


if __name__ == "__main__":
    main()
