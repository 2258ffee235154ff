#!/usr/bin/env python3
"""Tries the controls of wrong bodies: right bodies that the prover must accept.

An edit (crates/CRATE/must-fail/NAME.edit of the gate, or tests/mutants/CRATE/NAME.edit) says something about a contract
only if the prover refuses its meaning and not its form: an answer in proofs/ names the calls and branches of its
function, so a body of another form may be refused even if it is right. Its control, a file
tests/mutants/CRATE/NAME.control, changes the lines that the edit changes, with the same calls and branches, and means
what the contract says.

Each control is put into a copy of its crate, which is checked with the words of rt, over a copy of what was kept of the
crate's last check. Prints a line for each: that the crate is proved with it, or the first goal that isn't, and what
else is wrong: an edit of the gate without a control, a control without its edit or of other lines. Libraries below that
aren't built are built first.

usage: gate/controls.py [CRATE..]       (each crate whose edits the gate tries, or that has controls)"""
import functools
import importlib.machinery
import importlib.util
import pathlib
import re
import shutil
import sys
import tempfile

ROOT = next(it for it in pathlib.Path(__file__).resolve().parents if (it / "crates.txt").is_file())
WRONG_BODIES = ROOT / "tests/mutants"
PLACES = ("file: ", "old: ")


def toolchain():
    """The program rt, as a module: it has the arguments of a check, and reads and applies edits."""
    path = shutil.which("rt") or sys.exit("there is no program rt")
    loader = importlib.machinery.SourceFileLoader("rt", str(pathlib.Path(path).resolve()))
    made = importlib.util.module_from_spec(importlib.util.spec_from_loader("rt", loader))
    sys.dont_write_bytecode = True
    loader.exec_module(made)
    # Nothing below a crate changes meanwhile, and without this each library is read once for each way that leads to it.
    crate = made.rtlib.Crate
    crate.stamp, crate.below = functools.cache(crate.stamp), functools.cache(crate.below)
    return made


def in_gate(crate):
    """The folder of a crate's edits that the gate tries."""
    return ROOT / "crates" / crate / "must-fail"


def named(folder, ending=".edit"):
    """The edits in a folder, or the controls, by name."""
    return {it.stem: it for it in sorted(folder.glob(f"*{ending}"))}


def places(edit):
    """The lines that an edit changes, with their files."""
    return [it.strip() for it in edit.read_text(encoding="utf-8").splitlines() if it.startswith(PLACES)]


def refused_goal(said):
    """The first goal that a check left, as it says it, without the place in a copy."""
    told = [it for it in said if re.match(r"(note: )?\S+:\d+:\d+:", it)]
    return next((it for it in told if ": error" in it), (told or said)[-1 if not told else 0])[:300]


def tried(rt, crate, control, kept):
    """Whether a crate is proved with a control, and what to say of it."""
    texts, why = rt.read_edit(str(control), crate.folder)
    if why:
        return False, f"it can't be put in: {why}"
    ran = rt.checked(crate, texts, ["--jobs", "1"], kept)
    if ran.returncode == 0:
        return True, "proved"
    return False, f"NOT PROVED: {refused_goal(ran.stdout.rstrip().splitlines())}"


def try_all(rt, name):
    """Tries the controls of a crate, and gives for each edit or control whether all is well, and what to say."""
    crate = rt.Crate(str(ROOT / "crates" / name), str(ROOT), {})
    edits = {**named(WRONG_BODIES / name), **named(in_gate(name))}
    controls = named(WRONG_BODIES / name, ".control")
    for it in sorted(named(in_gate(name)).keys() - controls.keys()):
        yield it, False, "the edit of the gate has no control"
    for it in sorted(controls.keys() - edits.keys()):
        yield it, False, "there is no such edit"
    both = [it for it in controls if it in edits]
    if both and any(it.build_rlib(["--jobs", "1"], anew=False) for it in crate.below()):
        yield from ((it, False, "not tried: a library below isn't proved") for it in both)
        return
    with tempfile.TemporaryDirectory(prefix="controls-") as room:
        kept, last = f"{room}/kept", pathlib.Path(crate.folder, "out/incremental")
        if both and last.is_dir():
            shutil.copytree(last, kept)
        for it in both:
            if places(controls[it]) == places(edits[it]):
                yield it, *tried(rt, crate, controls[it], kept)
            else:
                yield it, False, "it changes other lines than its edit"


def every():
    """The crates with controls, or whose edits the gate tries."""
    of_gate = {it.parents[1].name for it in ROOT.glob("crates/*/must-fail/*.edit")}
    return sorted(of_gate | {it.parent.name for it in WRONG_BODIES.glob("*/*.control")})


def main(names):
    rt = toolchain()
    rt.rtlib.guarded()
    count = wrong = 0
    for name in names or every():
        for edit, is_well, said in try_all(rt, name):
            print(f"control {name}/{edit}: {said}", flush=True)
            count, wrong = count + 1, wrong + (not is_well)
    print(f"{count} controls, {wrong} not as they must be")
    return 1 if wrong else 0


if __name__ == "__main__":
    sys.exit(main(sys.argv[1:]))
