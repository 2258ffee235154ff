#!/usr/bin/env python3
"""gate/identifiers.py: lists identifiers of code, contracts, definitions and proofs that are one of the project's old
words, each with the standard term to use. docs/WORKING.md lists the few public names that are older. The status is 1 if
there are any. Run it at the top of the repository."""
import collections
import pathlib
import re
import sys

from checkout import ROOT

INSTEAD = {
    "giver giver_node": "defining_op",
    "Desk": "Transaction",
    "Seven": "AnyAnalysis",
    "told heard": "reported, notified or observed",
    "Teller": "Tracer",
    "Stood": "AppliedRewrite",
    "Stay Stopped stay stopped": "MatchFailure and its Reason, or aborted",
    "Tried Tries Trial Attempt tried": "PatternSet, a pattern, or attempted",
    "clean suits Fitness plain Plain fit": "is_verified, Eligibility, or simple",
    "spot joint": "insertion",
    "Sight sees": "dominance",
    "has_twins twin": "has_identical_operands, or a mutant",
    "anew": "again or rebuilt",
    "behind beside": "after or next_to",
    "Book Shelf Shelves": "PatternRegistry",
    "spelled formed Forming judged": "grammar, sema, check",
    "makeable": "can_build",
    "everywhere": "all_widths",
    "shape piece further asked between": "a pattern's parts: PatternOp, ExtraConstant, Constraint, TypeConstraint",
    "yields": "soundness",
    "Booked Mix Mixed": "RegistryCommand, RuleList",
    "Manner way": "Options",
    "Unread Unopened": "ParseError, OpenError",
    "culprits causes": "notes",
    "silent": "AlwaysUndefined, or reports_nothing",
    "room": "capacity",
    "Loose": "RawBox",
    "lowest": "the highest-priority rule",
    "kinds": "types",
}
# A method of `Analysis`, and of what keeps its table, has one of the words. So have names of the kit's libraries.
METHOD = re.compile(r"\bfn told<|\.told\(|\btold\.Goals|\bc\.told\b")
OF_KIT = re.compile(r"^\s*use (denote|Rattle\.std)\.[\w.]+\.\{([^}]*)\}", re.M)
CODE = re.compile(r"""//[^\n]*|b?"(?:\\.|[^"\\])*"|b?'(?:\\.|[^'\\\n])'|(?P<word>[A-Za-z_]\w*)""", re.S)
LOGIC = re.compile(r"""--[^\n]*|\{-.*?-\}|"(?:\\.|[^"\\\n])*"|(?P<word>[A-Za-z_]\w*)""", re.S)


def old_words(file: pathlib.Path, words: dict[str, str]) -> collections.Counter[str]:
    """Returns how often a file has each old word as an identifier of the project."""
    text = file.read_text()
    of_kit = {it.strip() for _, names in OF_KIT.findall(text) for it in names.split(",")}
    lexer = LOGIC if file.suffix == ".antt" else CODE
    found = collections.Counter(it["word"] for it in lexer.finditer(METHOD.sub("", text)) if it["word"])
    return collections.Counter({word: found[word] for word in words if found[word] and word not in of_kit})


def main() -> int:
    words = {word: new for olds, new in INSTEAD.items() for word in olds.split()}
    lines = []
    for file in sorted((ROOT / "crates").glob("*/*/**/*")):
        if file.suffix in (".rt", ".antt") and "out" not in file.relative_to(ROOT).parts:
            counts = old_words(file, words)
            lines += [f"{file.relative_to(ROOT)}: `{it}` {counts[it]} times: {words[it]}" for it in counts]
    print(*lines, f"{len(lines)} wrong", sep="\n")
    return bool(lines)


if __name__ == "__main__":
    sys.exit(main())
