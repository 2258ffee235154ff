#!/usr/bin/env python3
"""The inputs of docs/REFUSALS.md and docs/VERIFIER.md. Run at the top of the repository it compares mlir-opt's answer
to each with the page, and fails if they differ:

    tests/compare/refusals.py [MLIR_OPT]     (mlir-opt-22; if it isn't installed, it says so)

tests/generate/mlir_work_cases.py makes a case of each."""
import pathlib
import re
import shutil
import subprocess
import sys
import tempfile

RULE = re.compile(r"^### V\d+: .*?^```mlir\n(.*?)^```\n\n(.*?)\n\n", re.M | re.S)
BEYOND = re.compile(r"^## Beyond the table\n.*?^```mlir\n(.*?)^```\n\n(.*?)^## ", re.M | re.S)
SAYS = re.compile(r"`(#\d+ V\d+)`; `mlir-opt` at (\d+:\d+): (`+)(.*)\3")
DIVIDER = b"// -----\n"
NAMED = {b"n": b"\n", b"r": b"\r", b"t": b"\t"}
# The part of docs/REFUSALS.md with inputs that are run with `--opaque`.
OPAQUE = re.compile(r"^## With `--opaque`\n.*?(?=^## )", re.M | re.S)


def bytes_of(text):
    r"""The bytes of an input: `\n`, `\r`, `\t` and `\xff` are bytes, and another backslash stands for itself."""
    def byte(found):
        word = found.group(1)
        return NAMED.get(word) or bytes([int(word[1:], 16)])
    return re.sub(rb"\\([nrt]|x[0-9a-f]{2})", byte, text.encode())


def rows(page=pathlib.Path("docs/REFUSALS.md")):
    """Each input, what the program says, and what mlir-opt says, or None if it isn't asked."""
    yield from rows_of(OPAQUE.sub("", page.read_text()))


def opaque_rows(page=pathlib.Path("docs/REFUSALS.md")):
    """Each input that is run with `--opaque`, and what the program says."""
    return [(text, answer) for text, answer, _ in rows_of(OPAQUE.search(page.read_text())[0])]


def rows_of(text):
    """The rows of a part of the page: an input, then a byte, an operation or a refusal, then what mlir-opt says. The
    refusal of a row without one is that of its section."""
    section = ""
    for line in text.splitlines():
        if line.startswith("#"):
            section = line.lstrip("# ")
        cells = [cell.strip().strip("`") for cell in line.strip("|").split(" | ")]
        if line.startswith("| `"):
            given, place, said = bytes_of(cells[0]), *(cells + ["", ""])[1:3]
            yield given, answer(given, section, place), said or None


def answer(given, section, place):
    """What the program says of an input."""
    who = "1" if DIVIDER in given else "module"
    if re.match(r"\d+ \w", place):
        return f"{who} refused {place}"
    return f"{who} refused {section}" + (f" at {place}" if place.isdecimal() else f" {place}" if place else "")


def broken(page=pathlib.Path("docs/VERIFIER.md")):
    """Each input of a rule, the row of `report diagnostics`, and what mlir-opt says."""
    for text, says in RULE.findall(page.read_text()):
        row, place, _, message = SAYS.fullmatch(" ".join(says.split())).groups()
        yield text.encode(), row, f"{place}: {message.strip()}"


def beyond(page=pathlib.Path("docs/VERIFIER.md")):
    """The input with operations beyond the table, and its rows."""
    text, says = BEYOND.search(page.read_text()).groups()
    return text.encode(), [row.encode() for row in re.findall(r"`(#\d+ V\d+)`", says)]


def said_by(tool, text):
    """The first error, as `line:column: message`."""
    with tempfile.NamedTemporaryFile(suffix=".mlir") as file:
        file.write(text)
        file.flush()
        ran = subprocess.run([tool, "--allow-unregistered-dialect", file.name], capture_output=True)
        found = re.search(re.escape(file.name) + r":(\d+:\d+): error: (.*)", ran.stderr.decode(errors="replace"))
    return (f"{found.group(1)}: {found.group(2)}" if found else "*reads it*" if ran.returncode == 0
            else f"status {ran.returncode}")


def main():
    tool = shutil.which(sys.argv[1] if len(sys.argv) > 1 else "mlir-opt-22")
    asked = [(text, want) for text, _, want in [*rows(), *broken()] if want is not None]
    if not tool:
        print(f"{len(asked)} inputs; mlir-opt isn't there, and was not asked")
        return
    wrong = [(text, want, said) for text, want in asked if (said := said_by(tool, text)) != want]
    for text, want, said in wrong:
        print(f"{text!r}: {said}, and not {want}")
    print(f"{len(asked)} inputs, {len(wrong)} differ")
    sys.exit(bool(wrong))


if __name__ == "__main__":
    main()
