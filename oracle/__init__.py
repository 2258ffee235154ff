"""A reference for modules, analyses, edits and scripts. It is written from the rules in words and shares no code with
the crates, so that expected answers don't come from the program under test.

module.py has modules as plain trees. rules.py parses them, and printing.py prints them. opaque.py parses opaque terms,
and aliases.py aliases and locations. operations.py has the operation table, verifier.py the verifier's rules, and
analyses.py, with folds.py, uses, symbols, effects, dead operations and constants. edits.py has the edits and their
refusals, rewrites.py the rewrite rules, and conversion.py dialect conversion. patterns.py, pattern_uses.py and
pattern_checks.py parse, apply and check user patterns. script.py has whole runs, and own.py runs that begin with user
patterns. heard.py has the events that each command notifies listeners of. refused.py has runs in which an allocation is
refused, and outputs.py what a run may write if several are. evaluator.py runs functions on numbers, memories.py on
memory, and running.py compares the results of two functions. examples.py has modules with hand-written rows,
variations.py operations with one change, chance.py random modules and scripts, and texts.py random texts."""
