#!/usr/bin/env python3
"""Writes the golden files of tests/ that are of whole runs with all listeners, and stdin and stdout of
crates/mlir_work_cases, by the rules in Python. Run it at the top of the repository.

The whole runs are written out here or in tests/generate/worked_rows.txt, and compared with what the rules of oracle
give for them, or are of analyses_cases.py, verifier_cases.py, conversion_cases.py, heard_cases.py,
own_pattern_cases.py, trace_cases.py, fired_cases.py, convert_trace_cases.py, why_cases.py, show_cases.py,
listed_cases.py, line_cases.py and term_cases.py, many of them random from the seeds there, with the answers of the
rules.
`decided.py` writes to `oracle/decided.txt` which patterns claims about bits decide. The program that MLIR_WORK_CLAIMS
names answers, or the one of these sources. Without a program the file isn't changed."""
import pathlib
import re

import checkout  # noqa: F401

from oracle import json_lines, live, script
from oracle.lines import Table
from tests.compare import refusals
from tests.generate import about_cases, analyses_cases, conversion_cases, convert_trace_cases, decided, explained_cases
from tests.generate import fired_cases, heard_cases, line_cases, listed_cases, named_pattern_cases, own_pattern_cases
from tests.generate import rule_cases, show_cases, term_cases, trace_cases, verifier_cases, why_cases, worked_rows
from tests.golden import golden

MOST_LINE = 16777216
VERSION = re.search(rb"(?m)^## (\S+)", pathlib.Path("CHANGELOG.md").read_bytes())[1]
TABLE, GOLDEN = Table(), golden.Collected()
title = GOLDEN.title


def whole(text, brief=True, limit=script.LIMIT, name=""):
    """Adds a golden case of a run with all listeners, whose answer is that of the rules in Python. In a group the case
    is called `brief` or `full`, or `name` and `name-full`."""
    words = ["--brief"] * brief + ["--limit", str(limit)] * (limit != script.LIMIT)
    answer = script.run(text, brief, script.BOXES, script.ALL, limit)
    GOLDEN.case(words, text, answer, name=(name or "brief") if brief else f"{name}-full".lstrip("-"))


TEXT = b"""\"func.func\"() <{function_type = (i32) -> i32, sym_name = \"f\"}> ({
^bb0(%a: i32):
  %c = \"arith.constant\"() <{value = 2 : i32}> : () -> i32
  %s = \"arith.addi\"(%a, %c) <{overflowFlags = #arith.overflow<none>}> : (i32, i32) -> i32
  \"func.return\"(%s) : (i32) -> ()
}) : () -> ()
"""
DIVIDER = b"// -----\n"


def printed(first):
    """The printed function, with this first operand of the sum."""
    return b"""\"builtin.module\"() ({
  \"func.func\"() <{function_type = (i32) -> i32, sym_name = \"f\"}> ({
  ^bb0(%arg0: i32):
    %0 = \"arith.constant\"() <{value = 2 : i32}> : () -> i32
    %1 = \"arith.addi\"(FIRST, %0) <{overflowFlags = #arith.overflow<none>}> : (i32, i32) -> i32
    \"func.return\"(%1) : (i32) -> ()
  }) : () -> ()
}) : () -> ()
""".replace(b"FIRST", first)


USES = b"%a1.0.0 #3 0\n%v2.0 #3 1\n%v3.0 #4 0\n"
EDITED_USES = b"%v2.0 #3 0\n%v2.0 #3 1\n%v3.0 #4 0\n"
PRINTED, EDITED = printed(b"%arg0"), printed(b"%0")
EMPTY = b"\"builtin.module\"() ({\n^bb0:\n}) : () -> ()\n"


BOXES = ("uses", "diagnostics")


def detached(text, boxes):
    """An input whose script drops all listeners but some before it begins."""
    module, script_text = script.split(text)
    dropped = b"".join(b"detach %s\n" % kind.encode() for kind in script.BOXES if kind not in boxes)
    return module + DIVIDER + dropped + script_text


def run(how, text, status, out, boxes=BOXES):
    """A run with some listeners: a golden case with all of them, and where its answer speaks of one that isn't there
    also one that drops them."""
    assert script.run(text, how == "brief", boxes, script.ALL) == (status, out), text
    whole(text, how == "brief")
    if b" 41 NoSuchKind" in out and boxes != script.BOXES:
        whole(detached(text, boxes), how == "brief", name="dropped")


def runs():
    """Whole runs: the status and all bytes of the output."""
    over = TEXT + DIVIDER
    title("refused-then-accepted", "Refused commands change nothing, and the commands after them run.")
    commands = (b"set-operand #3 2 %v2.0\nset-operand #3 0 %v9.0\nset-operand #3 0 %v3.0\njump\nreport "
                b"symbols\nreport uses\nprint\n")
    replies = (b"1 refused 25 NoSuchIndex\n2 refused 21 NoSuchValue\n3 refused 23 NotVisible\n4 refused 60 "
               b"BadCommand\n5 refused 41 NoSuchKind\n6 ok\n")
    run("brief", over + commands, 1, replies + USES + b"7 ok\n" + PRINTED)
    wrong = b"\"test.a\"() {a = 256 : i8} : () -> ()\n"
    refused_value, refused_line = b"module refused 7 BadValue at 16\n", b"module refused 13 LeftOut at 10\n"
    for name, text, status, out, sentence in (
            ("module-refused", wrong + DIVIDER + b"print\n", 3, refused_value,
             "If the module is refused, no line of the script is run and the status is 3."),
            ("module-refused-without-script", wrong, 3, refused_value,
             "A refused module without a script ends with status 3."),
            ("empty-input", b"", 0, b"", "An empty input is an empty module without a script, and nothing is printed."),
            ("module-without-script", TEXT, 0, b"", "A module without a script prints nothing."),
            ("only-the-divider", DIVIDER, 0, b"", "A divider alone is an empty module with an empty script."),
            ("print-empty-module", DIVIDER + b"print", 0, b"1 ok\n" + EMPTY,
             "`print` shows an empty module, and the last line needs no line feed."),
            ("print-module", over + b"print\n", 0, b"1 ok\n" + PRINTED, "`print` shows the module in MLIR's form."),
            ("report-uses", over + b"report uses", 0, b"1 ok\n" + USES, "`report uses` shows one row for each use."),
            ("divider-with-space", b"// ----- \nprint\n", 3, refused_line,
             "A divider with a space after it is a comment, so the next line belongs to the module."),
            ("divider-with-carriage-return", b"// -----\r\nprint\n", 3, refused_line,
             "A divider with a carriage return after it is a comment, so the next line belongs to the module.")):
        title(name, sentence)
        for how in ("brief", "full"):
            run(how, text, status, out)
    title("blanks-and-comments-in-scripts", "Carriage returns, tabs, empty lines and comments in a script are skipped.")
    returns = b"report uses\r\n\r\n// a comment\r\n \tset-operand  #3 0\t%v2.0 \r\nreport uses\r"
    run("brief", over + returns, 0, b"1 ok\n" + USES + b"2 ok\n3 ok\n" + EDITED_USES)
    title("script-not-utf-8", "A line of a script that isn't UTF-8 is a bad command, and the next line runs.")
    bad = b"print \xff\nreport \xc3\x28uses\nreport uses\n"
    run("brief", over + bad, 1, b"1 refused 60 BadCommand\n2 refused 60 BadCommand\n3 ok\n" + USES)
    title("full-output-after-each-command", "Without `--brief` the module and all reports follow each command except "
          "`report` and `print`, and also a refused one.")
    listed, edited = (PRINTED + b"-- uses\n" + USES + b"-- diagnostics\n", EDITED + b"-- uses\n" + EDITED_USES
                      + b"-- diagnostics\n")
    commands = b"jump\nreport uses\nset-operand #3 0 %v2.0\nset-operand #0 0 %v2.0\nprint\n"
    run("full", over + commands, 1,
        b"1 refused 60 BadCommand\n" + listed + b"2 ok\n" + USES + b"3 ok\n" + edited + b"4 refused 25 NoSuchIndex\n"
        + edited + b"5 ok\n" + EDITED)
    title("diagnostics-follow-edits",
          "An edit that breaks a return's type adds a V15 row, and the edit back removes it.")
    wrong = b"""\"func.func\"() <{function_type = (i32, i64) -> i32, sym_name = \"g\"}> ({
^bb0(%a: i32, %b: i64):
  \"func.return\"(%a) : (i32) -> ()
}) : () -> ()
""" + DIVIDER + b"""report diagnostics
set-operand #2 0 %a1.0.1
report diagnostics
set-operand #2 0 %a1.0.0
report diagnostics
"""
    run("brief", wrong, 0, b"1 ok\n2 ok\n3 ok\n#2 V15\n4 ok\n5 ok\n")
    returned = b"""\"builtin.module\"() ({
  \"func.func\"() <{function_type = (i32, i64) -> i32, sym_name = \"g\"}> ({
  ^bb0(%arg0: i32, %arg1: i64):
    \"func.return\"(VALUE) -> ()
  }) : () -> ()
}) : () -> ()
"""
    other, same = returned.replace(b"VALUE", b"%arg1) : (i64"), returned.replace(b"VALUE", b"%arg0) : (i32")
    listed = b"-- uses\n%%a1.0.%d #2 0\n-- diagnostics\n"
    run("full", wrong, 0, b"1 ok\n2 ok\n" + other + listed % 1 + b"#2 V15\n3 ok\n#2 V15\n4 ok\n" + same + listed % 0
        + b"5 ok\n")
    title("stored-run-beginning", "Reports follow an edit in the first commands of the stored run of crates/mlir_work.")
    # (each read and write of this one fails in turn in tests/faults/ends.py)
    text = over + b"report uses\nset-operand #3 0 %v2.0\nreport uses\nprint\n"
    run("brief", text, 0, b"1 ok\n" + USES + b"2 ok\n3 ok\n" + EDITED_USES + b"4 ok\n" + EDITED, script.BOXES)


def byte_limits():
    """Both sides of the limits of bytes, of a module's text, of a script's, and of an input: copies of a piece, and the
    rest."""
    def sized(piece, size, rest, status, out):
        count, left = divmod(size - len(rest), len(piece))
        assert left == 0, (piece, size, rest)
        GOLDEN.case(["--brief"], [(count, piece)] + [(1, rest)] * bool(rest), (status, out))

    title("module-of-16-mib", "A module of 16,777,216 bytes is read.")
    sized(b"\n", 16777216, b"", 0, b"")
    title("module-over-16-mib", "A module of 16,777,217 bytes is refused by 11 at its last byte.")
    sized(b"\n", 16777217, b"", 3, b"module refused 11 TooMany at 16777216\n")
    # The first divider ends the module. The others are comments of the script.
    front = len(DIVIDER)
    title("script-of-16-mib", "A script of 16,777,216 bytes is run.")
    sized(DIVIDER, front + 16777216, b"print\n////", 0, b"1 ok\n" + EMPTY)
    title("script-over-16-mib", "A script of 16,777,217 bytes is one bad command.")
    sized(DIVIDER, front + 16777217, b"print\n/////", 1, b"1 refused 60 BadCommand\n")
    title("input-of-32-mib", "An input of 33,554,432 bytes is read, and its script is one bad command.")
    sized(DIVIDER, 33554432, b"//", 1, b"1 refused 60 BadCommand\n")
    title("input-over-32-mib", "An input of 33,554,433 bytes is refused by 11 at its last byte.")
    sized(DIVIDER, 33554433, b"///", 3, b"module refused 11 TooMany at 33554432\n")


def due(text, refusals=(), boxes=BOXES):
    """A run in both forms, with the answer by the rules; these refusals are among its replies, and no others."""
    for how in ("brief", "full"):
        status, out = script.run(text, how == "brief", boxes, script.ALL)
        seen = set(re.findall(rb"(?m)^[0-9]+ refused ([0-9]+) ", out))
        assert seen == {str(number).encode() for number in refusals}, (text, seen)
        run(how, text, status, out, boxes)


BLOCKS = b"""%a = "t.a"() : () -> i1
"t.b"() ({
^b0(%x: i1):
  %c = "t.c"(%x) : (i1) -> i1
  "t.d"(%c) : (i1) -> ()
}, {}, {
^b1:
}) : () -> ()
"t.e"(%a) <{p = 1 : i32}> {q} : (i1) -> ()
"""


def nested(depth):
    return b'"t.n"() ({' * depth + b"^a:" + b"}) : () -> ()" * depth


def moves():
    """Operations are moved."""
    listed = b"report uses\nprint\n"
    for name, words, numbers, sentence in (
            ("move-after-itself", "#2 after #2", [], "An operation can be moved after itself, which changes nothing."),
            ("move-to-same-place", "#2 before #3", [], "An operation can be moved to the place where it is."),
            ("move-after-previous", "#3 after #2", [], "An operation can be moved after the operation before it."),
            ("move-before-next", "#3 before #4", [], "An operation can be moved before the operation after it."),
            ("move-to-start-of-region", "#2 start #1 0", [], "`start` moves an operation to the front of a region."),
            ("move-unknown-to-end", "#9 end #1 0", [20], "An operation that doesn't exist can't be moved."),
            ("move-before-unknown", "#2 before #9", [20], "An operation can't be moved before an unknown operation."),
            ("move-after-unknown", "#2 after #9", [20], "An operation can't be moved after an unknown operation."),
            ("move-into-unknown", "#2 start #9 0", [20], "An operation can't be moved into an unknown operation."),
            ("move-unknown-before-unknown", "#9 before #8", [20],
             "If the operation and its place are unknown, the reply is 20."),
            ("move-before-root", "#2 before #0", [29], "Nothing can be moved before the module."),
            ("move-after-root", "#2 after #0", [29], "Nothing can be moved after the module."),
            ("move-root-into-function", "#0 end #1 0", [29], "The module can't be moved into its own operation."),
            ("move-root-before-itself", "#0 before #0", [29], "The module can't be moved before itself."),
            ("move-to-missing-region", "#2 end #1 1", [25],
             "A region index that the operation doesn't have is refused."),
            ("move-into-op-without-regions", "#2 start #2 0", [25],
             "The region index of an operation without regions is refused before the move into itself."),
            ("move-unknown-to-missing-region", "#9 end #1 7", [25],
             "The region index is checked before the operation that is moved."),
            ("move-into-itself", "#1 end #1 0", [27], "An operation can't be moved into its own region."),
            ("move-before-own-child", "#1 before #3", [27],
             "An operation can't be moved before an operation inside it."),
            ("move-before-itself", "#2 before #2", [27], "An operation can't be moved before itself."),
            ("move-use-to-start", "#4 start #1 0", [23],
             "A user can't be moved before the definition of its operand, to the start of the region."),
            ("move-sum-before-constant", "#3 start #1 0", [23],
             "A sum can't be moved before the constant that it adds."),
            ("move-constant-to-end", "#2 end #1 0", [23], "A constant can't be moved after its user."),
            ("move-user-before-definition", "#3 before #2", [23],
             "A user can't be moved right before the definition of its operand."),
            ("move-constant-out-of-function", "#2 end #0 0", [23],
             "A constant can't be moved out of the function that uses it, since its user would precede it."),
            ("move-sum-out-of-function", "#3 after #1", [23],
             "A sum can't be moved out of the function whose argument it uses.")):
        title(name, sentence)
        due(TEXT + DIVIDER + b"move %s\n" % words.encode() + listed, numbers)
    over = BLOCKS + DIVIDER
    title("moves-between-regions", "Operations move into and out of regions while each operand stays visible.")
    due(over + b"move #5 end #2 2\nmove #4 end #2 2\nmove #4 start #2 0\nmove #2 before #1\nmove #1 start #2 2\nmove "
               b"#5 before #2\nmove #5 start #2 2\n" + listed, [23])
    title("move-to-region-without-block", "A region without a block has no place to move to, as an index past the last "
          "region has none.")
    due(over + b"move #5 start #2 1\nmove #5 start #2 3\nmove #5 end #2 0\nmove #5 after #3\nmove #5 after #5\nmove "
               b"#5 start #0 0\n" + listed, [25, 23])
    title("move-between-symbol-tables", "An operation can't be moved from one symbol table into another one.")
    tables = (b"\"builtin.module\"() ({^a:}) : () -> ()\n\"b\"() : () -> ()\n\"builtin.module\"() ({}) : () -> ()\n"
              + DIVIDER)
    due(tables + b"move #2 end #1 0\nmove #3 end #1 0\nmove #1 after #3\nmove #2 end #3 0\nprint\n", [28, 25])
    title("move-too-deep", "A moved operation can have 128 operations around it, and is refused with 129.")
    deep = nested(128) + b"\n" + nested(1) + b"\n" + DIVIDER
    due(deep + b"move #129 end #127 0\nmove #129 end #128 0\nmove #129 end #0 0\n", [33])


def entries():
    """Entries are set and taken out."""
    over = TEXT + DIVIDER
    shown = b"print\nreport diagnostics\n"
    for name, words, sentence in (
            ("set-attribute", '#3 k 1 : i32', "`set-attr` adds a discardable attribute."),
            ("set-property", '#3 overflowFlags #arith.overflow<nsw>', "`set-attr` sets a property that is there."),
            ("set-key-with-blank", '#3 "a b" "x"', "A key in quotes may have a blank."),
            ("set-empty-key", '#3 "" unit', "A key in quotes may be empty."),
            ("set-key-with-escape", '#3 "\\4aZ" [1, @a::@b]', "An escape in a quoted key is read: `\\4aZ` is `JZ`."),
            ("set-function-type", "#1 function_type (i32) -> i64",
             "A function type that doesn't fit the return is accepted, and the return gets a V15 row."),
            ("set-symbol-name-to-bool", "#1 sym_name true",
             "A symbol name that isn't a string is accepted, and the function gets a V13 row."),
            ("set-constant-value", "#2 value 7 : i32", "`set-attr` changes the value of a constant."),
            ("set-constant-value-of-other-type", "#2 value 7 : i64",
             "A constant's value of another type is accepted, and the constant gets a V14 row."),
            ("set-extra-attribute", "#2 extra {a = unit, b = 2 : i8}",
             "A constant can have a discardable attribute, here a dictionary."),
            ("set-attribute-of-root", "#0 k array<i32: 1>", "The module can have attributes."),
            ("set-attribute-with-comment", "#3 k 1 : i32 // x", "A comment may follow the attribute in the line.")):
        title(name, sentence)
        due(over + b"set-attr %s\n" % words.encode() + shown)
    for name, words, sentence in (
            ("set-value-out-of-range", "#3 k 256 : i8", "A value that its type can't hold is refused by 7."),
            ("set-bad-token", "#3 k $", "A byte that begins no token is refused by 1."),
            ("set-bad-token-at-unknown-op", "#9 k $",
             "The text of an attribute is read before the operation is found."),
            ("set-attribute-with-more-text", "#3 k 1 : i32 x", "A token after the attribute is refused by 2."),
            ("set-unsupported-type", "#3 k f32", "A type that isn't supported is refused by 13."),
            ("set-dictionary-with-key-twice", "#3 k {a, a}", "A dictionary with one key twice is refused by 12."),
            ("set-unclosed-type", "#3 k (i32", "An attribute that ends in the middle is refused at its end."),
            ("set-width-of-129", "#3 k 1 : i129", "A width over 128 is refused by 6."),
            ("set-attribute-too-deep", "#3 k " + "[" * 33 + "]" * 33, "33 arrays in one another are refused by 10."),
            ("set-unclosed-string", "#3 k \"x\ty", "A string that isn't closed is refused by 1."),
            ("set-no-attribute", "#3 k // x", "A comment is no attribute: the text ends too early.")):
        status, out = script.run(over + b"set-attr %s\n" % words.encode(), True, BOXES, script.ALL)
        assert re.fullmatch(rb"1 refused ([1-9]|1[0-4]) [A-Za-z0-9]+ at [0-9]+\n", out), (words, out)
        title(name, sentence)
        due(over + b"set-attr %s\n" % words.encode() + shown, [int(out.split()[2])])
    title("set-and-drop-unknown", "An unknown operation is refused by 20, and a key that isn't there by 26.")
    due(over + b"set-attr #9 k 1 : i32\ndrop-attr #9 k\ndrop-attr #3 nope\ndrop-attr #3 \"over flow\"\n" + shown,
        [20, 26])
    title("drop-property-and-set-it-again", "A property that was dropped can't be dropped again, but set again.")
    due(over + b"drop-attr #3 overflowFlags\ndrop-attr #3 overflowFlags\nset-attr #3 overflowFlags "
               b"#arith.overflow<none>\n" + shown, [26])
    title("function-type-there-and-back", "The V15 row of a wrong function type goes when the type is set back.")
    due(over + b"set-attr #1 function_type (i32) -> i64\nreport diagnostics\nset-attr #1 function_type (i32) -> i32\n"
        + shown)
    title("keys-stay-where-they-are",
          "A key stays a property or an attribute while it is set, and a dropped property of an "
          "unregistered operation comes back as an attribute.")
    due(BLOCKS + DIVIDER
        + b"set-attr #5 p 2 : i32\nset-attr #5 q 2 : i32\nset-attr #5 r 2 : i32\ndrop-attr #5 p\nset-attr #5 p 3 : "
          b"i32\ndrop-attr #5 q\ndrop-attr #5 \"r\"\n" + shown)
    title("inherent-keys-are-properties", "`value` of a constant becomes a property, and `values` an attribute.")
    due(over + b"drop-attr #2 value\nset-attr #2 value 3 : i32\nset-attr #2 values 3 : i32\ndrop-attr #2 values\n"
        + shown)
    title("entries-limit", "An operation has at most 256 attributes: the 257th is refused by 31 until one is dropped.")
    many = b"\"t.a\"() {" + b", ".join(b"k%d" % n for n in range(256)) + b"} : () -> ()\n"
    due(many + DIVIDER + b"set-attr #1 k unit\nset-attr #1 k7 1 : i8\ndrop-attr #1 k9\nset-attr #1 k unit\nset-attr "
                         b"#1 l unit\n", [31])


def wholes():
    """Operations are inserted and erased with what is inside them, and values replaced; marks are made, and gone back
    to."""
    over = BLOCKS + DIVIDER
    shown = b"report uses\nreport diagnostics\nprint\n"
    new = b'"t.n"(%v1.0) ({^c(%y: i8): %z = "t.o"(%y) : (i8) -> i8 "t.p"(%z) : (i8) -> ()}, {}) : (i1) -> ()'
    for name, place, where in (
            ("insert-at-end", b"end #0 0", "at the end of the module"),
            ("insert-before", b"before #5", "before an operation"),
            ("insert-after", b"after #1", "after an operation"),
            ("insert-at-start-of-region", b"start #2 0", "at the start of a region"),
            ("insert-into-empty-block", b"end #2 2", "into a block without operations")):
        title(name, f"An operation with inner operations is inserted {where}, erased, and inserted again with new ids.")
        due(over + b"insert %s %s\nerase #6\ninsert %s %s\n" % (place, new, place, new) + shown)
    for name, place, number, sentence in (
            ("insert-user-at-start", b"start #0 0", 23, "A user can't be inserted before its operand's definition."),
            ("insert-user-before-definition", b"before #1", 23,
             "A user can't be inserted right before its operand's definition."),
            ("insert-before-unknown", b"before #9", 20, "Nothing can be inserted before an unknown operation."),
            ("insert-after-root", b"after #0", 29, "Nothing can be inserted after the module."),
            ("insert-into-region-without-block", b"end #2 1", 25,
             "Nothing can be inserted into a region without a block."),
            ("insert-into-op-without-regions", b"end #1 0", 25,
             "Nothing can be inserted into an operation without regions.")):
        title(name, sentence)
        due(over + b"insert %s %s\n" % (place, new) + shown, [number])
    for name, words, numbers, sentence in (
            ("erase-used-result", b"erase #1", [22], "An operation whose result is used can't be erased."),
            ("erase-with-inner-operations", b"erase #2", [], "An operation is erased with all operations inside it."),
            ("erase-used-by-next", b"erase #3", [22],
             "An operation in a block can't be erased while the next one uses it."),
            ("erase-user-then-definition", b"erase #5\nerase #1", [],
             "A definition can be erased after its last user."),
            ("erase-root", b"erase #0", [29], "The module can't be erased."),
            ("erase-unknown", b"erase #6", [20], "An operation that doesn't exist can't be erased."),
            ("erase-inner-after-outer", b"erase #2\nerase #3", [20],
             "An operation that was erased with its parent doesn't exist any more."),
            ("replace-by-block-argument", b"replace %v1.0 %a2.0.0", [23],
             "A value can't be replaced by a block argument that its users don't see."),
            ("replace-block-argument", b"replace %a2.0.0 %v1.0", [],
             "A block argument can be replaced by a value defined outside."),
            ("replace-then-erase", b"replace %v3.0 %v1.0\nerase #3", [],
             "An operation can be erased once its result was replaced."),
            ("replace-by-itself", b"replace %v1.0 %v1.0", [], "Replacing a value by itself changes nothing."),
            ("replace-unknown-by-unknown", b"replace %v9.0 %v8.0", [21], "An unknown value can't be replaced."),
            ("replace-by-unknown", b"replace %v1.0 %v8.0", [21], "A value can't be replaced by an unknown value."),
            ("replace-by-inner-value", b"replace %v1.0 %v3.0", [23],
             "A value can't be replaced by one inside a region that its users are outside of.")):
        title(name, sentence)
        due(over + words + b"\n" + shown, numbers)
    twice = (b'%a = "t.a"() : () -> i1\n%b = "t.b"() : () -> i1\n"t.c"(%a, %b, %a) : (i1, i1, i1) -> ()\n%d = '
             b'"t.d"(%a) : (i1) -> i8\n' + DIVIDER)
    title("replace-there-and-back", "All uses of a value are replaced, and replaced back they are one value's; another "
          "type is refused.")
    due(twice + b"replace %v1.0 %v2.0\nreplace %v2.0 %v1.0\nreplace %v1.0 %v4.0\n" + shown, [24])
    title("rollback-replace-and-erase",
          "Two nested rollbacks undo a replacement and two erasures, and a third has no mark.")
    due(twice + b"begin\nreplace %v1.0 %v2.0\nerase #1\nbegin\nerase #4\nrollback\nrollback\nrollback\n" + shown, [35])
    title("commit-erase-and-insert", "A commit keeps the edits since its mark, and a second commit has no mark.")
    due(twice + b"begin\nerase #4\ninsert end #0 0 %x = \"t.e\"() : () -> i1\ncommit\ncommit\ninsert end #0 0 "
                b"\"t.f\"(%v5.0) : (i1) -> ()\n" + shown, [35])
    title("marks-limit", "At most 16 marks are open: the 17th `begin` is refused by 34, and the 17th `rollback` by 35.")
    due(twice + b"begin\n" * 17 + b"set-attr #3 k 1 : i8\n" + b"rollback\n" * 17 + shown, [34, 35])
    title("rollback-four-kinds-of-edits",
          "A rollback undoes a move, an operand, and an attribute that was set and dropped.")
    due(twice + b"begin\nmove #2 before #1\nset-operand #3 0 %v2.0\ndrop-attr #3 k\nset-attr #3 k unit\ndrop-attr #3 "
                b"k\nrollback\n" + shown, [26])
    title("rollback-gives-ids-back", "An id that was given after a mark is given again after the rollback.")
    due(twice + b"begin\ninsert end #0 0 \"t.e\"() : () -> ()\nrollback\ninsert end #0 0 \"t.e\"() : () -> ()\n"
        + shown)
    title("insert-too-deep", "An inserted operation can have 128 operations around it, and is refused with 129.")
    deep = nested(128) + b"\n" + DIVIDER
    due(deep + b"insert end #127 0 \"t.a\"() : () -> ()\ninsert end #127 0 \"t.a\"() ({^a:}) : () -> ()\ninsert end "
               b"#128 0 \"t.a\"() : () -> ()\n"
        b"insert end #127 0 \"t.a\"() ({^a: \"t.b\"() : () -> ()}) : () -> ()\n", [33])


def panels():
    """Analyses are dropped and begun again."""
    over = TEXT + DIVIDER
    title("detach-then-report", "An analysis that was detached can't be reported, begun again or detached.")
    due(over + b"detach uses\nreport uses\nresync uses\ndetach uses\nset-operand #3 0 %v2.0\nresync "
               b"diagnostics\nreport diagnostics\n", [41])
    title("resync-around-edit", "An analysis that is begun again around an edit reports the edited module.")
    due(over + b"resync uses\nset-operand #3 0 %v2.0\nresync uses\nreport uses\ndetach diagnostics\nreport "
               b"diagnostics\nprint\n", [41])
    title("edit-without-analyses", "Edits go on when analyses are detached, and an unknown analysis is refused by 41.")
    due(over + b"detach kind9\nresync effects\ndetach uses\ndetach diagnostics\nmove #2 start #1 0\nprint\n", [41])


def attaching():
    """Analyses that were dropped are attached again."""
    over, boxes = TEXT + DIVIDER, script.BOXES
    for word in boxes:
        kind = word.encode()
        asked = b"report %s\n" % kind
        title(f"attach-{word}-again", f"`{word}` can't be attached twice, and can be attached after it was detached.")
        due(over + b"attach %s\ndetach %s\nattach %s\n" % (kind, kind, kind) + asked, [42], boxes)
        title(f"attach-{word}-after-edits",
              f"`{word}` attached after edits reports the edited module, and follows the edits after that.")
        due(BLOCKS + DIVIDER + b"detach %s\nreplace %%v3.0 %%v1.0\nerase #3\nset-attr #1 k unit\n" % kind
            + b"attach %s\n" % kind + asked + b"move #1 after #2\nerase #2\n" + asked
            + b"detach %s\n" % kind + asked, [23, 41], boxes)
    every = [kind.encode() for kind in boxes]
    title("attach-all-in-other-order", "All analyses are detached and attached in the reverse order.")
    due(over + b"".join(b"detach %s\n" % kind for kind in every) + b"set-operand #3 0 %v2.0\n"
        + b"".join(b"attach %s\n" % kind for kind in every[::-1]), (), boxes)
    title("attach-inside-mark",
          "A rollback undoes edits for an analysis attached inside the mark, but attaches and detaches "
          "nothing.")
    due(over + b"begin\ndetach uses\nset-operand #3 0 %v2.0\nattach uses\nrollback\nreport uses\nbegin\n"
               b"detach dead\nrollback\nreport dead\nattach dead\nreport dead\n", [41], boxes)
    title("attach-unknown-kind", "A kind without an analysis is refused by 41, and one that is attached by 42.")
    due(over + b"attach kind9\nattach kind255\ndetach kind9\nresync uses\nattach kind0\nattach dead\n", [41, 42],
        boxes)


def with_ids():
    """The module is printed with the ids of its operations."""
    for name, text, sentence in (
            ("print-ids-of-function", TEXT, "`print ids` writes each operation's id in a comment."),
            ("print-ids-of-regions", BLOCKS, "`print ids` numbers the operations of several regions."),
            ("print-ids-of-empty-module", b"", "`print ids` of an empty module shows the root's id alone."),
            ("print-ids-of-nested", nested(5) + b"\n" + BLOCKS, "`print ids` numbers operations at each depth."),
            ("divider-after-text-of-line", nested(128),
             "A divider that doesn't begin its line is a comment, so the script is read as the module's text."),
            ("print-ids-of-empty-regions",
             b'"t.a"() ({}, {}) : () -> ()\n"t.b"() ({\n^a(%x: i1, %y: i8):\n}) {k = "\\0A// #7"} : () -> ()\n',
             "`print ids` writes an operation's id on each line of its regions, also if these are empty.")):
        title(name, sentence)
        due(text + DIVIDER + b"print ids\nprint\n", (), script.BOXES)
    title("print-ids-after-edits",
          "`print ids` shows new ids, gaps of erased operations, and the old ids after a rollback.")
    due(BLOCKS + DIVIDER + b"insert start #2 0 \"t.n\"() ({\"t.m\"() : () -> ()}) : () -> ()\nerase #5\nprint ids\n"
                           b"begin\nmove #1 before #0\nerase #6\nprint ids\nrollback\nprint  ids\n", [29],
        script.BOXES)


def expecting():
    """Lines say how their command is to be refused: the status and the line below the reply."""
    over, boxes = TEXT + DIVIDER, script.BOXES
    right = (b"expect 22 erase #2\nexpect HasUses erase #2\nexpect 20 erase #9\nexpect 60 jump\n"
             b"expect 1 set-attr #3 k $\n")
    title("expect-refusals", "Refusals that are expected by number or by word leave the status 0.")
    due(over + right, [22, 20, 60, 1], boxes)
    title("expect-refused-conversions", "A refused conversion can be expected by number or by word.")
    due(over + b"expect 51 convert full illegal arith.addi\n"
               b"expect NotLegalised convert partial illegal arith.addi rules 25\n"
               b"expect 54 convert partial legal a,b illegal b,c\n", [51, 54], boxes)
    title("expect-refusals-of-other-commands", "Refusals of reports, attaching, marks and limits can be expected.")
    due(over + b"expect 41 report kind9\nexpect 42 attach uses\nexpect 35 commit\nexpect 50 canon limit 0\n",
        [41, 42, 35, 50], boxes)
    for name, line, sentence in (
            ("expect-other-number", b"expect 23 erase #2", "A refusal by another number than expected is reported."),
            ("expect-refusal-of-accepted", b"expect 22 erase #4",
             "An edit that isn't refused as expected is still made."),
            ("expect-refusal-of-print", b"expect 22 print", "`print` isn't refused, which an expectation reports."),
            ("expect-refusal-of-report", b"expect 22 report uses",
             "A report that isn't refused as expected prints its rows after the expectation."),
            ("expect-other-than-bad-command", b"expect 22 jump", "A bad command where 22 was expected is reported."),
            ("expect-without-command", b"expect 22",
             "`expect` without a command is a bad command that wasn't expected."),
            ("expect-unknown-number", b"expect 99 erase #2",
             "`expect` with a number of no refusal is a bad command as a whole."),
            ("expect-without-number", b"expect erase #2",
             "`expect` with a word of no refusal is a bad command as a whole."),
            ("expect-bad-command-of-print-ids", b"expect 60 print ids",
             "`print ids` is no bad command, which an expectation reports."),
            ("expect-other-fault-of-text", b"expect 2 set-attr #3 k $",
             "A text refused by 1 isn't the 2 that is expected."),
            ("expect-other-fault-of-conversion", b"expect 54 convert partial illegal arith.addi",
             "A conversion refused by 51 isn't the 54 that is expected."),
            ("expect-bad-expect", b"expect 60 expect 22",
             "An `expect` inside an `expect` is the expected bad command."),
            ("expect-twice", b"expect 22 expect 22 erase #2",
             "An `expect` inside an `expect` is a bad command, whatever is behind it."),
            ("expect-memory", b"expect 36 begin", "A mark that is made where 36 was expected is reported."),
            ("expect-refusal-of-insert", b"expect 35 insert end #0 0 \"t.a\"() : () -> ()",
             "An insertion that isn't refused as expected is made, and its id comes first."),
            ("expect-comment", b"expect 22 // x", "A comment is no command: `expect` alone is a bad command."),
            ("comment-with-expect", b"// expect 22 x", "An `expect` in a comment is skipped."),
            ("expect-command-with-more-words", b"expect 22 erase #2 #2",
             "A command with a word too many is a bad command where 22 was expected."),
            ("expect-refusal-of-canon", b"expect 22 canon", "`canon` converges where a refusal was expected."),
            ("expect-refusal-of-sweep", b"expect 22 sweep", "`sweep` succeeds where a refusal was expected.")):
        text = over + right + line + b"\nreport uses\n"
        title(name, sentence)
        for brief in (True, False):
            whole(text, brief)
    title("expect-beside-unexpected", "A refusal that isn't expected makes the status 1, also next to expected ones.")
    due(over + b"expect 22 erase #2\nerase #2\nexpect 22 erase #2\n", [22], boxes)
    title("expect-inside-mark", "An edit that wasn't refused as expected is undone by a rollback like any other.")
    due(over + b"begin\nexpect 22 erase #2\nexpect 22 erase #4\nrollback\nprint\n", [22], boxes)


def rewriting():
    """Some rules are tried, in an order of their own."""
    boxes = script.BOXES
    text = sums(6) + DIVIDER
    for name, rules, sentence in (
            ("rewrite-erase-unused", b"1", "`rewrite 1` alone finds no unused operation among sums that are used."),
            ("rewrite-fold", b"2", "`rewrite 2` folds six sums of constants, and leaves the constant unused."),
            ("rewrite-swap", b"3", "`rewrite 3` swaps no operands if both are constants."),
            ("rewrite-drop-zero", b"4", "`rewrite 4` drops no operand if no constant is zero."),
            ("rewrite-erase-or-fold", b"1,2", "`rewrite 1,2` folds six sums and erases the constant."),
            ("rewrite-fold-or-erase", b"2,1", "`rewrite 2,1` does the same in the other order of rules."),
            ("rewrite-four-rules", b"4,3,2,1", "Rules that don't apply change nothing in a list of four."),
            ("rewrite-by-names", b"fold-to-constant,swap-constant", "Rules can be called by their names."),
            ("rewrite-names-and-numbers", b"drop-zero,10,1", "Names and numbers of rules can be mixed in a list."),
            ("rewrite-last-rule", b"24", "`rewrite 24` finds nothing in sums of constants."),
            ("rewrite-rules-twice", b"1,1,2,2", "A rule may be in a list twice."),
            ("rewrite-all-rules", b",".join(b"%d" % number for number in range(1, 25)),
             "All 24 rules in their order fold the sums and erase the constant."),
            ("rewrite-all-rules-backwards", b",".join(b"%d" % number for number in range(24, 0, -1)),
             "All 24 rules in the reverse order come to the same module.")):
        title(name, sentence)
        due(text + b"begin\nrewrite %s\nprint\nrewrite %s\nrollback\ncanon only %s limit 2\n" % (rules, rules, rules)
            + b"report constants\nprint\n", (), boxes)
    title("rewrite-refused",
          "Numbers of conversion rules, unknown names, limits outside 1 to 1,000,000 and lists that end "
          "too early are refused.")
    due(text + b"rewrite 25\nrewrite 1,30\nrewrite lower-loop\nrewrite nope\nrewrite 1,nope\nrewrite nope,25\n"
               b"rewrite 1 limit 0\nrewrite nope limit 0\nrewrite 1 limit 1000001\nrewrite 1 limit 1000000\n"
               b"rewrite 1,\n"
               b"canon only\ncanon only 1 limit\nexpect 26 canon only nope\n", [60, 26, 50], boxes)
    title("rewrite-with-limit-of-run", "`--limit 1` limits each `rewrite` to one rewrite.")
    whole(text + b"rewrite 2\nrewrite 1,2,3,4\nprint\n", True, 1)


def sweeps():
    """A sweep erases all unreachable private symbols, or none."""
    shown = b"report unreached\nreport symbols\nprint\n"
    private = b'<{function_type = () -> (), sym_name = "%s", sym_visibility = "private"}>'
    one = b'"func.func"() ' + private + b" ({}) : () -> ()\n"
    call = b'"func.call"() <{callee = @%s}> : () -> ()\n'
    caller = b'"func.func"() ' + private + b" ({\n" + call + b'"func.return"() : () -> ()\n}) : () -> ()\n'
    boxes = script.BOXES
    title("sweep-empty-module", "`sweep` of an empty module sweeps nothing.")
    due(DIVIDER + b"sweep\nsweep\n" + shown, [41], boxes[:1])
    for name, text, sentence in (
            ("one-private", one % b"f", "a private function that nothing calls"),
            ("called-private", one % b"f" + call % b"f", "nothing if the private function is called"),
            ("private-cycle", caller % (b"f", b"g") + caller % (b"g", b"f") + one % b"h" + call % b"h",
             "two private functions that only call each other, and not one that is called"),
            ("second-of-one-name", one % b"f" + one % b"f" + call % b"f",
             "the second of two private functions of one name, since a call reaches the first")):
        title(f"sweep-{name}", f"`sweep` erases {sentence}.")
        due(text + DIVIDER + b"sweep\n" + shown + b"sweep\n", (), boxes)
        title(f"sweep-{name}-rolled-back", f"A rollback undoes `sweep`, which erases {sentence}.")
        due(text + DIVIDER + b"begin\nsweep\nset-attr #0 k unit\nrollback\n" + shown + b"sweep\nbegin\ncommit\n"
            + shown, (), boxes)
    title("sweep-nested-module",
          "A private module is swept with the two private functions inside it, which are counted.")
    due(b'"builtin.module"() <{sym_name = "m", sym_visibility = "private"}> ({\n' + one % b"f" + caller % (b"g", b"f")
        + b'}) : () -> ()\n"test.b"() : () -> ()\n' + DIVIDER + b"begin\nsweep\n" + shown + b"rollback\n" + shown, (),
        boxes)
    title("sweep-used-result", "If a private symbol's result is used, `sweep` is refused by 22 and erases nothing.")
    used = b'%0 = "func.func"() ' + private % b"p" + b' ({}) : () -> i32\n"test.u"(%0) : (i32) -> ()\n'
    due(one % b"f" + used + one % b"g" + DIVIDER + b"sweep\nbegin\nsweep\n" + shown + b"rollback\nerase #3\nsweep\n"
        + shown, [22], boxes)
    title("sweep-user-with-definition", "A private symbol whose user is a private symbol is swept, since the last one "
          "goes first.")
    due(used.replace(b"test.u", b"func.func").replace(b"(%0)",
                                                      b'(%0) <{sym_name = "q", sym_visibility = "private"}> ({})')
                                                      + DIVIDER + b"sweep\n" + shown, (), boxes)


def whole_cut(text):
    """A golden case of all beginnings of a module's text."""
    answers = [script.run(text[:count], True, script.BOXES, script.ALL) for count in range(len(text))]
    GOLDEN.case(["--brief"], text, golden.cut_text(answers), True)


def sums(count):
    """A module in which so many rewrites can be made: sums of two constants, each used."""
    one = b'%0 = "arith.constant"() <{value = 1 : i32}> : () -> i32\n'
    used = b'%%%d = "arith.addi"(%%0, %%0) : (i32, i32) -> i32\n"t.u"(%%%d) : (i32) -> ()\n'
    return one + b"".join(used % (number, number) for number in range(1, count + 1))


def command_lines():
    """What the words of a command line ask for, or what is printed of them, and whether that is a fault."""
    help_text = pathlib.Path("tools/help.txt").read_bytes()
    usage, more = b"\n\nUsage: mlir_work [OPTIONS] [MODULE]\n", b"\nFor more information, try '--help'.\n"

    def limited(words, limit, count):
        text = sums(count) + DIVIDER + b"canon\n"
        brief = "--brief" in words
        status, out = script.run(text, brief, script.BOXES, script.ALL, limit)
        # One rewrite folds a sum, and the last erases the constant.
        said = b"1 limit %d\n" % limit if count >= limit else b"1 converged %d\n" % (count + 1)
        assert out.startswith(said), out[:80]
        GOLDEN.case(words.split(), text, (status, out))

    def wrong(words, why):
        GOLDEN.case(words, b"", (2, b"error: " + why))

    def unread(name):
        """Why a file that can't be read isn't: there is none, or it is a folder or below a device."""
        there = "this file can't be read: name a file that you may read"
        return there if name in (".", "/dev/null/x") else "found no such file: correct the name"

    for name, words, limit, sentence in (
            ("limit-word", "--limit 5", 5, "`--limit 5` ends `canon` after five rewrites."),
            ("limit-with-equals-sign", "--limit=5", 5, "`--limit=5` is `--limit 5`."),
            ("limit-with-zeros", "--limit 0010", 10, "A limit may have zeros in front."),
            ("limit-of-one", "--limit 1", 1, "1 is the least limit."),
            ("limit-of-a-million", "--limit 1000000", 1000000, "1,000,000 is the largest limit."),
            ("limit-with-plus", "--limit +5", 5, "A limit may have a plus sign.")):
        title(name, sentence)
        limited(words, limit, 11)
        limited(words + " --brief", limit, 11)
    # (by hand, since the rules search a module from its root for each rewrite)
    for name, count, reply, sentence in (
            ("default-limit-kept", 999, b"1 converged 1000\n", "1,000 rewrites are within the default limit."),
            ("default-limit-reached", 1000, b"1 limit 1000\n", "The default limit is 1,000 rewrites.")):
        title(name, sentence)
        GOLDEN.case(["--brief"], sums(count) + DIVIDER + b"canon\n", (0, reply))
    title("no-words", "Without words the module and all reports follow each command.")
    limited("", script.LIMIT, 2)
    for name, words, why, sentence in (
            ("limit-out-of-range", ("0", "1000001", "4294967297", "-1"), "{} is not in 1..=1000000",
             "A limit outside 1 to 1,000,000 is a usage error."),
            ("limit-not-a-number", ("x", "1.5", "1_0"), "invalid digit found in string",
             "A limit that isn't an integer is a usage error."),
            ("limit-empty", ("",), "cannot parse integer from empty string", "An empty limit is a usage error."),
            ("limit-over-64-bits", ("99999999999999999999",), "number too large to fit in target type",
             "A limit of more than 64 bits is a usage error.")):
        title(name, sentence)
        for word in words:
            told = f"invalid value '{word}' for '--limit <N>': {why.format(word)}\n"
            wrong([f"--limit={word}"], told.encode() + more)
    title("limit-without-value", "`--limit` without a value is a usage error.")
    for words in ("--limit", "--limit --brief", "--brief --limit"):
        wrong(words.split(), b"a value is required for '--limit <N>' but none was supplied\n" + more)
    title("limit-twice", "`--limit` can be given once.")
    wrong("--limit 5 --limit 5".split(), b"the argument '--limit <N>' cannot be used multiple times" + usage + more)

    def unexpected(words, word):
        tip = f"\n\n  tip: to pass '{word}' as a value, use '-- {word}'"
        wrong(words.split(), f"unexpected argument '{word}' found{tip}".encode() + usage + more)

    title("unreadable-module-file",
          "A word that is no option is a module's file, and one that can't be read is reported.")
    wrong("--limit 5 6".split(), b"6: found no such file: correct the name\n")
    wrong(["x"], b"x: found no such file: correct the name\n")
    title("unknown-option", "An unknown option is a usage error, which says how to pass it as a value.")
    unexpected("--limit -1", "-1")
    unexpected("-l 5", "-l")
    unexpected("--nonsense", "--nonsense")
    unexpected("-b", "-b")
    title("help", "`--help` prints the help, whatever other options there are.")
    for words in ("--help", "-h", "--brief --help", "--format json --brief --help", "--patterns x --help"):
        GOLDEN.case(words.split(), b"", (0, help_text))
    title("version", "`--version` prints the program's name and version.")
    for words in ("--version", "-V"):
        GOLDEN.case([words], b"", (0, b"mlir_work %s\n" % VERSION))
    title("flag-twice", "A flag can be given once.")
    wrong(["--interactive", "--interactive"],
          b"the argument '--interactive' cannot be used multiple times" + usage + more)
    for word in ("--brief", "--opaque", "--explain"):
        wrong([word, word], f"the argument '{word}' cannot be used multiple times".encode() + usage + more)
    formats = b"\n  [possible values: text, json]\n" + more
    title("unknown-format", "`--format` takes `text` or `json`, and the error lists them.")
    for word in ("xml", "JSON"):
        wrong([f"--format={word}"], f"invalid value '{word}' for '--format <FORMAT>'".encode() + formats)
    title("format-without-value", "`--format` without a value is a usage error.")
    for word in ("--format", "--format="):
        wrong([word], b"a value is required for '--format <FORMAT>' but none was supplied" + formats)
    title("format-twice", "`--format` can be given once.")
    wrong("--format json --format text".split(),
          b"the argument '--format <FORMAT>' cannot be used multiple times" + usage + more)
    title("format-with-interactive", "`--interactive` takes `--format`.")
    looks = TEXT + DIVIDER + b"erase #2\nreport dead\n"
    status, out = live.run(looks)
    GOLDEN.case("--interactive --format text --brief".split(), looks, (status, out))
    status, out = live.run(looks, explained=True)
    GOLDEN.case("--interactive --format json --brief".split(), looks, (status, json_lines.json_of(out)))
    kinds = f"\n  [possible values: all, none, {', '.join(script.BOXES)}]\n".encode()
    title("unknown-analysis", "`--analyses` takes kinds, `all` and `none`, and the error lists them.")
    for words, word, tip in (("=ded", "ded", "dead"), (" uses,x", "x", ""), ("=Uses", "Uses", "uses"),
                             ("=kind9", "kind9", ""), ("=uses;dead", "uses;dead", "uses"),
                             (" all,nil", "nil", "")):
        more_of = f"\n  tip: a similar value exists: '{tip}'\n".encode() if tip else b""
        wrong(f"--analyses{words}".split(" "), f"invalid value '{word}' for '--analyses <LIST>'".encode() + kinds
              + more_of + more)
    title("analyses-without-value", "`--analyses` without a value, or with an empty item, is a usage error.")
    for words in ("--analyses", "--analyses=", "--analyses dead,,uses", "--analyses=uses,"):
        wrong(words.split(), b"a value is required for '--analyses <LIST>' but none was supplied" + kinds + more)
    title("analyses-twice", "`--analyses` can be given once.")
    wrong("--analyses uses --analyses dead".split(),
          b"the argument '--analyses <LIST>' cannot be used multiple times" + usage + more)
    # Types and attributes that aren't known, which are kept where that is asked for.
    kept = (b'%0 = "t.a"() {x = 1.0 : f32, y = #d.a<b>} : () -> tensor<4xf32>\n' + DIVIDER
            + b'insert end #0 0 "t.b"(%v1.0) : (tensor<4xf32>) -> !d.t\nset-attr #2 z dense<0.5> : tensor<4xf32>\n'
            + b"set-attr #1 x array<f32: 1.0>\nset-attr #1 y 1.0 : i32\nreport uses\nprint\n")
    title("opaque", "`--opaque` keeps types and attributes that aren't supported as they are written.")
    for words in ("--opaque", "--opaque --brief"):
        GOLDEN.case(words.split(), kept, script.run_opaque(kept, "--brief" in words))
    title("not-opaque", "Without `--opaque` a module with a float is refused.")
    GOLDEN.case(["--brief"], kept, script.run(kept))
    # The example of the help.
    example = re.search(rb"<<'END'\n(.*)  END\n(.*)", help_text, re.S)
    module, out = (re.sub(rb"(?m)^  ", b"", part) for part in example.groups())
    title("example-of-help", "The example of `--help` prints what the help says.")
    run("brief", module, 0, out, script.BOXES)
    # Files of patterns that can't be read, before whatever else (tools/tests/test_own_patterns.py has those that can).
    title("patterns-without-value", "`--patterns` without a value is a usage error.")
    for words in ("--patterns", "--patterns --brief", "--patterns x --patterns"):
        wrong(words.split(), b"a value is required for '--patterns <FILE>' but none was supplied\n" + more)
    title("patterns-with-option-as-value", "An option isn't taken for the value of `--patterns`.")
    unexpected("--patterns -x", "-x")
    title("unreadable-pattern-file",
          "A file of patterns that can't be read is reported before other words are looked at.")
    for words in ("--patterns x", "--patterns=x", "--patterns x y -s z", "--patterns x -o /dev/null/y -e print",
                  "--patterns x --patterns y", "--patterns x --interactive", "--patterns x --format json",
                  "--patterns x --interactive --format json"):
        wrong(words.split(), b"x: found no such file: correct the name\n")
    title("pattern-file-of-no-file", "An empty name, `-`, a folder and a path below a device are no files of patterns.")
    for name in ("", "-", ".", "/dev/null/x"):
        wrong([f"--patterns={name}"], f"{name}: {unread(name)}\n".encode())
    title("interactive-with-output-and-patterns", "A usage error is reported before files of patterns are read.")
    wrong("--patterns x --interactive --output y".split(),
          b"the argument '--interactive' cannot be used with '--output <FILE>'"
          + usage.replace(b"[OPTIONS]", b"--patterns <FILE> --interactive") + more)
    title("empty-pattern-file", "A file of patterns may be empty.")
    text = TEXT + DIVIDER + b"patterns\nreport uses\n"
    GOLDEN.case("--patterns /dev/null --brief".split(), text, script.run(text))


def interactive():
    """Runs that answer each line as soon as it arrives: the output, whenever it is written."""
    def lived(text, *words):
        limit = int(words[words.index("--limit") + 1]) if "--limit" in words else script.LIMIT
        answer = live.run(text, "--brief" in words, limit)
        # (a whole run writes the same, but for the ends)
        whole = script.run(text, "--brief" in words, limit=limit)
        assert answer[0] == whole[0] and answer[1].replace(b"\n\n", b"\n").lstrip(b"\n") == whole[1], text
        GOLDEN.case(["--interactive", *words], text, answer, name="brief" if "--brief" in words else "full")

    looks = b"report uses\n// none\n\nprint\njump\n\xff\nreport dead"
    edits = b"set-operand #3 0 %v2.0\nbegin\nerase #3\nset-attr #3 k 256 : i8\nmove #9 end #1 0\nrollback\nprint\n"
    for name, text, sentence in (
            ("empty-input", b"", "An empty input is a module, for which an empty line is written."),
            ("divider", DIVIDER, "A divider alone is an empty module."),
            ("divider-without-line-feed", DIVIDER[:-1], "A last line without a line feed is a divider too."),
            ("module", TEXT, "A module without a divider is read at the end of the input."),
            ("module-and-divider", TEXT + DIVIDER, "A module is read when its divider is there."),
            ("module-and-divider-without-line-feed", TEXT + DIVIDER[:-1],
             "A module is read when its divider ends the input."),
            ("module-refused", b'"a"(', "A module that ends too early is refused at the end of the input."),
            ("module-refused-before-script", b'"a"(\n' + DIVIDER + looks,
             "If the module is refused, no line of the script is answered."),
            ("last-line-without-line-feed", TEXT + DIVIDER + looks, "A last line without a line feed is answered."),
            ("last-line-with-line-feed", TEXT + DIVIDER + looks + b"\n",
             "A line feed after the last line changes no reply."),
            ("edits", TEXT + DIVIDER + edits, "Edits, refusals and a rollback are answered line by line."),
            ("divider-in-script", TEXT + DIVIDER + edits + DIVIDER + looks,
             "A second divider is a comment of the script."),
            ("two-dividers", DIVIDER + DIVIDER + b"print\n", "A divider right after the divider is a comment."),
            ("divider-with-space", b"// ----- \n" + DIVIDER + b"print\n",
             "A divider with a space after it is a comment of the module."),
            ("carriage-returns", TEXT.replace(b"\n", b"\r\n") + DIVIDER + b"print\r\nreport uses\r\n",
             "Lines of the module and of the script may end with a carriage return and a line feed.")):
        title(f"interactive-{name}", f"{sentence[:-1]}, with `--interactive`.")
        for words in ((), ("--brief",)):
            lived(text, *words)
    title("interactive-limits", "`--limit` limits each command of an interactive run, and `limit` one command.")
    for words in (("--limit", "2"), ("--brief", "--limit", "4"), ()):
        lived(sums(3) + DIVIDER + b"canon\ncanon limit 1\ncanon\nprint\n", *words)
    # All beginnings of a short input.
    title("interactive-prefixes", "Each prefix of a short input has the replies to the lines that are there.")
    short = b'%0 = "t.a"() : () -> i8\n' + DIVIDER + b"erase #1\nprint\n"
    answers = [live.run(short[:count]) for count in range(len(short))]
    GOLDEN.case(["--brief", "--interactive"], short, golden.cut_text(answers), True)
    # Both sides of the limit of a line, and a script that has no limit as a whole.
    line, told = b"1 ok\n\n", b"2 ok\n\n"
    for name, size, status, sentence in (
            ("interactive-line-of-16-mib", MOST_LINE, 0, "A line of 16,777,216 bytes is read."),
            ("interactive-line-over-16-mib", MOST_LINE + 1, 4,
             "A line of 16,777,217 bytes ends the run with status 4.")):
        title(name, sentence)
        pieces = [(1, DIVIDER + b"report dead\n//"), (size - 3, b" "), (1, b"\nreport dead\n")]
        GOLDEN.case(["--brief", "--interactive"], pieces, (status, b"\n" + line + told * (status == 0)))
    title("interactive-script-over-16-mib", "The script of an interactive run may have more than 16,777,216 bytes.")
    pieces = [(1, DIVIDER), (MOST_LINE // 8 + 2, b"//      \n"), (1, b"report dead\n")]
    GOLDEN.case(["--brief", "--interactive"], pieces, (0, b"\n" + line))
    title("interactive-module-over-16-mib", "A module of 16,777,217 bytes is refused at its last byte.")
    GOLDEN.case(["--brief", "--interactive"], [(16777217, b"\n")], (3, b"module refused 11 TooMany at 16777216\n"))


def interactive_json():
    """The same as JSON: an object a line, and one at the end of each answer."""
    def lived(text, *words, **options):
        status, out = live.run(text, "--brief" in words, explained=True, **options)
        objects = json_lines.json_of(out)
        # (each object ends a line, and an answer is as many objects as it has lines)
        assert objects.count(b"\n") == out.count(b"\n"), text
        GOLDEN.case(["--interactive", "--format", "json", *words], text, (status, objects),
                    name="brief" if "--brief" in words else "full")

    looks = b"report uses\n// none\n\nprint\njump\n\xff\nreport dead\nwhy #3"
    edits = (b"set-operand #3 0 %v2.0\nbegin\nerase #3\nset-attr #3 k 256 : i8\nmove #9 end #1 0\n"
             b"expect 22 erase #2\ninsert end #0 0 \"t.u\"(%v2.0\nrollback\nprint ids\n")
    patterns = (b"pattern p arith.muli(%a, 0) => 0\npattern q arith.addi(%a, %b) => %a\ncheck all\npatterns\n"
                b"rewrite q trace\ncanon fired limit 1\n")
    for name, text, sentence in (
            ("empty-input", b"", "An empty input is a module, whose answer is its end."),
            ("module-refused", b'"a"(\n' + DIVIDER + looks,
             "If the module is refused, its refusal is the only object."),
            ("module-unsupported", b'"a"() {x = 1.0 : f32} : () -> ()\n' + DIVIDER,
             "The refusal of a module names the unsupported construct."),
            ("looks", TEXT + DIVIDER + looks,
             "Reports, a module and refusals are objects, and each answer has an end."),
            ("edits", TEXT + DIVIDER + edits, "Edits have the objects of their replies and of all rows."),
            ("patterns", TEXT + DIVIDER + patterns, "Patterns, checks, traces and counts are objects."),
            ("divider-in-script", TEXT + DIVIDER + DIVIDER + b"print\n", "A comment has no answer, and no object.")):
        title(f"interactive-json-{name}", f"{sentence[:-1]}, with `--interactive --format json`.")
        for words in ((), ("--brief",)):
            lived(text, *words)
    title("interactive-json-strict", "With `--strict` an unproved pattern makes the status 1, also as JSON.")
    lived(TEXT + DIVIDER + patterns, "--brief", "--strict", strict=True)
    title("interactive-json-prefixes", "Each prefix of a short input has the objects of the lines that are there.")
    short = b'%0 = "t.a"() : () -> i8\n' + DIVIDER + b"erase #1\nprint\n"
    answers = [live.run(short[:count], explained=True) for count in range(len(short))]
    answers = [(status, json_lines.json_of(out)) for status, out in answers]
    GOLDEN.case(["--brief", "--interactive", "--format", "json"], short, golden.cut_text(answers), True)
    title("interactive-json-line-over-16-mib",
          "A line of 16,777,217 bytes ends the run with status 4, after the objects of the answers before it.")
    pieces = [(1, DIVIDER + b"report dead\n//"), (MOST_LINE - 2, b" "), (1, b"\nreport dead\n")]
    GOLDEN.case(["--brief", "--interactive", "--format", "json"], pieces,
                (4, b'{"end":true}\n{"n":1,"reply":"ok"}\n{"end":true}\n'))


def over_limits():
    """The texts of commands that pass a limit: of regions, of results, of entries."""
    regions = b", ".join([b"{}"] * 17)
    entries = b", ".join(b"k%d" % number for number in range(257))
    for name, line, sentence in (
            ("regions-over-limit", b'insert end #0 0 "a"() (' + regions + b") : () -> ()",
             "An inserted operation with 17 regions is refused by 11."),
            ("results-over-limit", b'insert end #0 0 %a:257 = "a"() : () -> ()',
             "An inserted operation with 257 results is refused by 11."),
            ("dictionary-over-limit", b"set-attr #0 x {" + entries + b"}",
             "A dictionary with 257 entries is refused by 11.")):
        title(name, sentence)
        text = DIVIDER + line + b"\nprint\n"
        status, out = script.run(text, True, BOXES, script.ALL)
        assert out.startswith(b"1 refused 11 TooMany at "), out
        run("brief", text, status, out)


def refused():
    """Each input of docs/REFUSALS.md, and of docs/VERIFIER.md."""
    for text, answer, _ in refusals.rows():
        number, word = re.search(r"refused ([0-9]+) ([A-Za-z0-9]+)", answer).groups()
        slug = re.sub("(?<=[a-z])(?=[A-Z0-9])", "-", word).lower()
        title(f"refusal-{number}-{slug}",
              f"Inputs of docs/REFUSALS.md are refused by {number} ({word}) as the page says.")
        run("brief", text, 3 if answer.startswith("module") else 1, answer.encode() + b"\n")
    for text, row, _ in refusals.broken():
        rule = row.split()[1]
        title(f"broken-{rule.lower()}", f"The module of docs/VERIFIER.md for {rule} breaks it as the page says.")
        run("brief", text + DIVIDER + b"report diagnostics\n", 0, f"1 ok\n{row}\n".encode())


def worked():
    """Each row of tests/generate/worked_rows.txt, with all listeners."""
    for row in worked_rows.rows():
        title(row.name, row.sentence)
        limit = re.search("--limit ([0-9]+)", row.options)
        status, out = script.run(row.input, "--brief" in row.options, script.BOXES, script.ALL, int(limit[1]) if limit
                                 else script.LIMIT)
        assert (status, worked_rows.is_output(row, out)) == (row.status, True), row.input
        words = row.options.replace("full", "").split()
        GOLDEN.case(words, row.input, (status, out))


def beginnings():
    """The first text, cut after each byte: a module, or none."""
    for count in range(len(TEXT)):
        status, out = script.run(TEXT[:count], True, script.BOXES, script.ALL)
        said = re.fullmatch(rb"module refused [0-9]+ [A-Z][A-Za-z0-9]+ at [0-9]+\n", out)
        assert (status, out) == (0, b"") or status == 3 and said, count
    title("prefixes-of-module", "Each prefix of a module's text is read or refused where it ends.")
    whole_cut(TEXT)


def analyses(kinds, text, brief=True, name=""):
    """A case of a run with some listeners; gives what is written."""
    _, out = script.run(text, brief, kinds, script.ALL)
    whole(text, brief, name=name)
    if b" 41 NoSuchKind" in out and set(kinds) != set(script.BOXES):
        whole(detached(text, kinds), brief, name=f"{name}-dropped".lstrip("-"))
    return out


GOLDEN_PARTS = {
    "runs": (runs, moves, entries, wholes, panels, attaching, with_ids, expecting, rewriting, sweeps, over_limits,
             beginnings, byte_limits, interactive),
    "pages": (refused, worked),
    "command_line": (command_lines,),
    "json": (interactive_json,),
}


def main():
    decided.name_program()
    print("seeds", analyses_cases.SEED, verifier_cases.SEED, heard_cases.SEED, conversion_cases.SEED,
          own_pattern_cases.SEED, trace_cases.SEED, fired_cases.SEED, convert_trace_cases.SEED, why_cases.SEED,
          show_cases.SEED, listed_cases.SEED)
    for area, parts in GOLDEN_PARTS.items():
        for part in parts:
            GOLDEN.begin(f"{area}/{part.__name__}")
            part()
    analyses_cases.all_cases(analyses, GOLDEN.begin, title)
    about_cases.all_cases(analyses, GOLDEN.begin, title)
    conversion_cases.all_cases(analyses, GOLDEN.begin, title)
    own_pattern_cases.all_cases(whole, GOLDEN.begin, GOLDEN.case, title)
    GOLDEN.begin("patterns/named")
    named_pattern_cases.all_cases(GOLDEN.case)
    for part in (trace_cases, fired_cases, convert_trace_cases, why_cases, show_cases, explained_cases, listed_cases):
        part.all_cases(GOLDEN.case, GOLDEN.begin, title)
    line_cases.all_cases(GOLDEN.case, GOLDEN.begin, title, TEXT)
    term_cases.all_cases(GOLDEN.case, GOLDEN.begin, title)
    heard_cases.all_cases(TABLE.case, GOLDEN.case, GOLDEN.begin, title)
    GOLDEN.begin("rules/applied")
    rule_cases.all_cases(GOLDEN.case, TABLE.case)
    TABLE.write("mlir_work_cases")
    GOLDEN.write()
    decided.write()


if __name__ == "__main__":
    main()
