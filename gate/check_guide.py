#!/usr/bin/env python3
"""Runs the commands of the pages, and checks what they write.

In README.md, docs/TRUST.md, docs/GUIDE.md, docs/REFUSALS.md, docs/FROM_MLIR_OPT.md and examples/README.md a command is
an indented line or a span in backticks. Each one has a row in COMMANDS. A command without a row is a fault, and so is
a row without a command. In these pages and in docs/COOKBOOK.md a block of `sh` before a block of `text` is run, and has
to write that text to standard output and standard error. In docs/COOKBOOK.md, docs/EMBED.md and
docs/LISTENER_TUTORIAL.md the blocks of `console` are run, and have to show standard output, or both ends; a task of the
cookbook takes at most ten typed lines. (tools/tests/test_pages.py runs the sessions of docs/GUIDE.md.) If the program
has no `--interactive`, tools/tests/live.py takes its place for docs/EMBED.md.

usage: gate/check_guide.py [--all]     with --all also those that take minutes, since they build

The program is the built one, or that of MLIR_WORK. A command that needs `mlir-opt` is typed if one is installed,
mlir-opt-22 before another."""
import os
import pathlib
import re
import shlex
import shutil
import subprocess
import sys
import tempfile

from checkout import ROOT
from mlir_work.cli import program
from tools import launch

PAGES = ["README.md", "docs/TRUST.md", "docs/GUIDE.md", "docs/REFUSALS.md", "docs/FROM_MLIR_OPT.md",
         "examples/README.md"]
COOKBOOK, EMBED, TUTORIAL, MOST_TYPED = "docs/COOKBOOK.md", "docs/EMBED.md", "docs/LISTENER_TUTORIAL.md", 10
LIVE = [sys.executable, "-S", "-E", str(ROOT / "tools/tests/live.py")]
# What the tutorial copies and edits.
EDITED = ["crates.txt", "crates/listeners_example", "crates/mlir_work/src", "examples"]
BEGINS = ("./run", "./test", "rt ", "tools/", "mlir-opt ", "MLIR_WORK", "(cat ", "(head ", ".. | ", "tr ", "cat ")
# Words in a sentence that are typed, and not only named.
SAID = re.compile(r"MLIR_WORK\w*=\S+ .*|\./run .*|\./test.*|rt .*|tools/\w+\.(?:py|sh) .*|gate/check_\w+\.py|tr .*")
RUN = "(cat module.mlir; echo '// -----'; cat FILE) | ./run --brief"
TOP = ("README.md CHANGELOG.md run test benchmarks bindings crates docs examples gate oracle patterns tests tools "
       "crates.txt").split()
SESSION = "ids\ndead\nhelp\n"


class Typed:
    """How a command is run (`line`, if it differs from the page), its input, a part of the expected output, its status,
    and what it needs: a tool that may not be installed, or minutes."""

    def __init__(self, writes, line=None, given="", status=0, wants="", folder="."):
        self.writes, self.line, self.given, self.status = writes, line, given, status
        self.wants, self.folder = wants, folder


COMMANDS = {
    "MLIR_WORK=reference tools/session.py examples/fold.mlir": Typed('    #0  "builtin.module"', given=SESSION),
    "./run --help": Typed("\nTo look:\n"),
    "MLIR_WORK_BUILD=1 ./run --help": Typed("\nTo look:\n", wants="minutes"),
    "./test": Typed("", wants="what is typed here itself"),
    "rt version": Typed(" logic dac8208d650f15bf\n", wants="rt"),
    "tools/install.sh PREFIX": Typed("installed", line="tools/install.sh prefix && prefix/bin/mlir_work --help"),
    "tools/session.py module.mlir": Typed('    #0  "builtin.module"', given=SESSION),
    "tools/session.py --opaque module.mlir": Typed('    #0  "builtin.module"', given=SESSION),
    "tools/session.py examples/fold.mlir": Typed('    #0  "builtin.module"', given=SESSION),
    "tools/explain.py module.mlir FILE": Typed(""),
    "tools/mlir_work.py reduce module.mlir --keep 'diagnostics #8 V15' -o small.mlir": Typed("", status=1),
    "tools/mlir_work.py reduce module.mlir --refused 'convert partial illegal arith.subi rules 28 = 51'":
        Typed('"arith.subi"('),
    "tools/mlir_work.py reduce module.mlir --test 'grep -q arith.muli'": Typed('"arith.muli"('),
    "tools/mlir_work.py compare BEFORE AFTER --function f":
        Typed("@price: same on ", line="tools/mlir_work.py compare module.mlir module.mlir --function price"),
    "tools/mlir_work.py show MODULE":
        Typed("#0 builtin.module() regions ()\n", line="tools/mlir_work.py show module.mlir"),
    "gate/check_examples.py": Typed(", 0 faults"),
    "tools/page.py examples/fold.mlir examples/fold.script -o replay.html": Typed(""),
    "tools/page.py MODULE SCRIPT": Typed("<!doctype html>", line="tools/page.py module.mlir s && head -1 replay.html"),
    "mlir-opt --allow-unregistered-dialect --mlir-print-op-generic FILE.mlir > module.mlir":
        Typed("", wants="mlir-opt"),
    RUN: Typed("\n2 ok #12\n"),
    RUN.replace("module.mlir", "examples/fold.mlir").replace("FILE", "examples/fold.script"): Typed("\n2 ok #12\n"),
    ".. | sed -n '/^\"builtin.module\"/,$p' | mlir-opt":
        Typed("%0 = arith.muli %arg0, %c42_i32 : i32", line=f"{RUN} | sed -n '/^\"builtin.module\"/,$p' | mlir-opt",
              wants="mlir-opt"),
    "tr '\\n' ' '": Typed('"a"() : () -> () "b"() : () -> () ', given='"a"() : () -> ()\n"b"() : () -> ()\n'),
    "tr -d '\\r' <FILE": Typed("// What is known"),
    "./run --brief examples/fold.mlir -s examples/fold.script -e 'report dead' -e print": Typed("func.return"),
}


def commands(text):
    """The commands of a page: lines of indented blocks that begin as one does, and words in backticks."""
    for line in re.findall(r"^    (.*)$", text, re.M):
        if line.startswith(BEGINS):
            yield line.partition("  #")[0].rstrip()
    for span in re.findall(r"(?<!`)`([^`]+)`(?!`)", re.sub(r"^    .*$", "", text, flags=re.M)):
        if SAID.fullmatch(" ".join(span.split())):
            yield " ".join(span.split())


def prepared(folder):
    """Fills a folder with what the commands name."""
    for name in TOP:
        (folder / name).symlink_to(ROOT / name)
    for name, source in {"FILE.mlir": "fold.mlir", "module.mlir": "fold.mlir", "FILE": "fold.script"}.items():
        shutil.copy(ROOT / "examples" / source, folder / name)
    (folder / "s").write_text("erase #2\n")


def missing(wants, is_all):
    """Why a command can't be typed here, or nothing."""
    if wants in ("mlir-opt", "rt"):
        return "" if (tool() if wants == "mlir-opt" else shutil.which(wants)) else f"{wants} isn't installed"
    return "" if not wants or wants == "minutes" and is_all else f"it takes {wants}"


def tool():
    """The mlir-opt that there is."""
    return shutil.which("mlir-opt-22") or shutil.which("mlir-opt")


def run(command, how, folder):
    """A command as it ended."""
    started = program.started()
    line = re.sub(r"\bmlir-opt\b", str(tool()), how.line or command)
    if "MLIR_WORK" in os.environ and how.wants != "minutes":
        line = line.replace("MLIR_WORK=./run", f"MLIR_WORK={shlex.quote(shlex.join(started.words))}")
        line = line.replace("./run", shlex.join(started.words))
    environment = {**os.environ, **started.more, "XDG_STATE_HOME": str(folder / "state")}
    there = folder if how.wants != "minutes" else ROOT
    return subprocess.run(["sh", "-c", line], cwd=there / how.folder, env=environment, input=how.given, text=True,
                          capture_output=True, check=False)


def fault_of(command, how, folder):
    """What is wrong with what a command writes, or nothing."""
    it = run(command, how, folder)
    if it.returncode != how.status:
        return f"status {it.returncode}: {it.stderr.strip()[-300:]}"
    return "" if how.writes in it.stdout else f"it writes {it.stdout[:300]!r}"


def blocks(text):
    """The code blocks of a text, with the words after their opening ticks."""
    return re.findall(r"^```(\w+)\n(.*?)^```$", text, re.M | re.S)


def typed(block):
    """The commands of a block, each with the lines that are typed to it, and all that is written then."""
    found = []
    for line in block.splitlines():
        if line.startswith("$ "):
            found.append((line[2:], [], []))
            continue
        if line.startswith("> "):
            found[-1][1].append(line[2:])
        found[-1][2].append(line)
    return found


def is_written(lines, wanted):
    """Whether lines are those that are wanted. A line `..` allows any lines, and `: ..` at an end any sentence."""
    parts = [r"(?:\n[^\n]*)*" if it == ".." else rf"\n{re.escape(it[:-2])}[^\n]*(?:\n    \w[^\n]*)*"
             if it.endswith(": ..") else f"\n{re.escape(it)}" for it in wanted]
    return re.fullmatch("".join(parts), "".join(f"\n{it}" for it in lines)) is not None


def lines_typed(text):
    """How many lines a text has typed."""
    return sum(len(re.findall(r"^[$>] ", block, re.M)) if kind == "console" else block.count("\n")
               for kind, block in blocks(text) if kind in ("console", "python"))


def cooked(text, folder):
    """What is wrong with what a text has typed. A program or a module there has the name of its file in its first
    line."""
    for kind, block in blocks(text):
        if kind == "python" or kind == "mlir" and re.match(r"// [\w/]+\.mlir\n", block):
            file = folder / block.split()[1]
            file.parent.mkdir(exist_ok=True)
            file.write_text(block)
            continue
        for line, given, wanted in typed(block) if kind == "console" else ():
            wants = [it for it in ("mlir-opt", "lit-22") if re.search(rf"\b{it}\b", line)]
            if any(not (tool() if it == "mlir-opt" else shutil.which(it)) for it in wants):
                print(f"not typed, {wants[0]} isn't installed: {line}")
                continue
            if line.startswith("cd "):
                folder = folder / line[3:]
                continue
            it = run(line, Typed("", given="".join(it + "\n" for it in given)), folder)
            print(f"typed: {line}")
            ends = it.stdout, it.stdout + it.stderr
            if it.returncode not in (0, 1, 3) or not any(is_written(end.splitlines(), wanted) for end in ends):
                yield f"`{line}` writes {it.stdout[-600:]!r} {it.stderr.strip()[-300:]}"


def pasted():
    """What is wrong with the blocks of shell commands that have their output in the block below."""
    for page in [*PAGES, COOKBOOK]:
        found = re.findall(r"^```sh\n(.*?)^```\n\n```text\n(.*?)^```$", (ROOT / page).read_text(), re.M | re.S)
        for line, wanted in found:
            if re.search(r"\bmlir-opt\b", line) and not tool():
                print(f"not run, mlir-opt isn't installed: {' '.join(line.split())}")
                continue
            with tempfile.TemporaryDirectory() as name:
                prepared(pathlib.Path(name))
                it = run(f"{{ {line} }} 2>&1", Typed(""), pathlib.Path(name))
            print(f"run: {' '.join(line.split())}")
            if it.returncode > 1 or not is_written(it.stdout.splitlines(), wanted.splitlines()):
                yield f"{page}: `{line.strip()}` writes {it.stdout[-600:]!r}"


def cookbook():
    """What is wrong with the cookbook."""
    for part in re.split(r"^## ", (ROOT / COOKBOOK).read_text(), flags=re.M)[1:]:
        with tempfile.TemporaryDirectory() as name:
            prepared(pathlib.Path(name))
            title, most = part.partition("\n")[0], lines_typed(part)
            yield from (f"{COOKBOOK}, {title}: {fault}" for fault in cooked(part, pathlib.Path(name)))
            if most > MOST_TYPED:
                yield f"{COOKBOOK}, {title}: {most} lines are typed"


REFERENCE = [f"docs/{name}.md" for name in ("PATTERNS", "CANONICALIZE", "CONVERT", "REPORTS", "REFUSALS", "OPERATIONS",
                                            "VERIFIER")]


def embedding():
    """What is wrong with what is typed to embed the program, and on the pages of reference."""
    if not program.has_option("--interactive"):
        os.environ["MLIR_WORK"] = shlex.join(LIVE)
    for page in [EMBED, *REFERENCE]:
        with tempfile.TemporaryDirectory() as name:
            prepared(pathlib.Path(name))
            yield from (f"{page}: {fault}" for fault in cooked((ROOT / page).read_text(), pathlib.Path(name)))


def tutorial():
    """What is wrong with what the tutorial has typed, but for what needs the kit."""
    with tempfile.TemporaryDirectory() as name:
        for path in EDITED:
            copy = pathlib.Path(name) / path
            copy.parent.mkdir(parents=True, exist_ok=True)
            if (ROOT / path).is_dir():
                shutil.copytree(ROOT / path, copy, ignore=shutil.ignore_patterns("out"))
            else:
                shutil.copy(ROOT / path, copy)
        yield from (f"{TUTORIAL}: {fault}" for fault in cooked((ROOT / TUTORIAL).read_text(), pathlib.Path(name)))


def main():
    if sys.argv[1:] not in ([], ["--all"]):
        sys.exit(__doc__)
    launch.provide()
    found = {command: page for page in PAGES for command in commands((ROOT / page).read_text())}
    faults = [f"{page}: `{command}` isn't known" for command, page in found.items() if command not in COMMANDS]
    faults += [f"`{command}` is on no page" for command in COMMANDS if command not in found]
    with tempfile.TemporaryDirectory() as name:
        prepared(pathlib.Path(name))
        for command in [it for it in COMMANDS if it in found]:
            how = COMMANDS[command]
            why = missing(how.wants, bool(sys.argv[1:]))
            said = "" if why else fault_of(command, how, pathlib.Path(name))
            print(f"not typed, {why}: {command}" if why else f"typed: {command}")
            faults += [f"{found[command]}: `{command}`: {said}"] if said else []
    faults += [*pasted(), *cookbook(), *tutorial(), *embedding()]
    print(*faults, f"{len(found)} commands, {len(faults)} faults", sep="\n")
    sys.exit(bool(faults))


if __name__ == "__main__":
    main()
