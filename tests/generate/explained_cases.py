"""Inputs whose refusals are explained, with `--explain` and as JSON: each refusal that lists operations and values, and
each unsupported construct, in modules and in commands; and that nothing is explained without the flag.
mlir_work_cases.py makes golden files of them. Most explanations are written by hand; all answers are those of the rules
in Python."""
import re

from oracle import aliases, culprits, json_lines, live, rules, script

DIVIDER = b"// -----\n"
# Two functions, one with a loop that uses a value from outside; a module in the module; an operation with a region.
MODULE = b"""%a = "t.a"() : () -> i1
%b = "t.b"(%a) : (i1) -> i8
"t.c"(%a, %a, %b) : (i1, i1, i8) -> ()
"t.loop"(%b) ({
^bb0(%i: index):
  %d = "t.d"(%i, %a) : (index, i1) -> i1
  "t.e"(%d, %b) : (i1, i8) -> ()
}) : (i8) -> ()
"builtin.module"() ({
  %m = "t.m"() : () -> memref<2x?xi32>
  "t.n"(%m) : (memref<2x?xi32>) -> ()
}) : () -> ()
%f = "t.f"() ({^bb0: }) : () -> (() -> i32)
"""
EXPECTED = ('about "found `memref.load`, expected an operation of arith that folds, as arith.addi: '
            'docs/PATTERNS.md lists them"')
# A name, a sentence, a line, and what its reply says after its number, by hand.
LINES = [
    ("erase-used", "The users of an erased operation's result are listed.",
     "erase #1", "22 HasUses about #2 #3 #5"),
    ("erase-used-by-several", "All users of a result are listed, also those inside other operations.",
     "erase #2", "22 HasUses about #3 #4 #6"),
    ("erase-used-inside", "A user in the same block is listed.",
     "erase #5", "22 HasUses about #6"),
    ("erase-with-region", "Nothing is explained if the operation with its region is erased.",
     "erase #4", None),
    ("erase-module", "Nothing is explained if a module is erased.",
     "erase #7", None),
    ("erase-root", "The root is named if it can't be erased.",
     "erase #0", "29 IsRoot about #0"),
    ("erase-unknown", "An unknown operation is named.",
     "erase #77", "20 NoSuchOp about #77"),
    ("move-unknown-before-unknown", "An unknown operation and its unknown place are both named.",
     "move #77 before #78", "20 NoSuchOp about #77 #78"),
    ("move-before-unknown", "An unknown place of a move is named.",
     "move #3 before #78", "20 NoSuchOp about #78"),
    ("move-before-root", "The root is named if nothing can be before it.",
     "move #3 before #0", "29 IsRoot about #0"),
    ("move-into-itself", "The operation is named twice if it is moved into itself.",
     "move #4 end #4 0", "27 IntoItself about #4 #4"),
    ("move-before-inner", "The operation and the one inside it are named.",
     "move #4 before #6", "27 IntoItself about #4 #6"),
    ("move-into-other-table", "The operation and the one whose symbol table differs are named.",
     "move #3 end #7 0", "28 OtherTable about #3 #7"),
    ("move-to-missing-region", "The operation without the region is named.",
     "move #3 end #1 0", "25 NoSuchIndex about #1"),
    ("move-before-definition", "A move before a definition names nothing.",
     "move #2 before #1", "23 NotVisible"),
    ("insert-into-unknown", "The unknown operation of a place is named.",
     'insert end #99 0 "t.x"() : () -> ()', "20 NoSuchOp about #99"),
    ("insert-into-missing-region", "The operation without the region of a place is named.",
     'insert end #1 4 "t.x"() : () -> ()', "25 NoSuchIndex about #1"),
    ("insert-after-root", "The root is named if nothing can be after it.",
     'insert after #0 "t.x"() : () -> ()', "29 IsRoot about #0"),
    ("insert-before-definition", "An insertion before a definition names nothing.",
     'insert before #1 "t.x"(%v2.0) : (i8) -> ()', "23 NotVisible"),
    ("set-operand-not-visible", "The value and the operation that doesn't see it are named.",
     "set-operand #9 0 %v1.0", "23 NotVisible about %v1.0 #9"),
    ("set-operand-to-own-result", "An operation's own result is named if it can't be its operand.",
     "set-operand #2 0 %v2.0", "23 NotVisible about %v2.0 #2"),
    ("set-operand-index", "The operation without the operand is named.",
     "set-operand #3 7 %v1.0", "25 NoSuchIndex about #3"),
    ("set-operand-to-missing-result", "The value that isn't there is named.",
     "set-operand #3 0 %v1.1", "21 NoSuchValue about %v1.1"),
    ("set-operand-to-missing-argument", "The block argument that isn't there is named.",
     "set-operand #3 0 %a4.0.1", "21 NoSuchValue about %a4.0.1"),
    ("set-operand-of-unknown", "An unknown operation is named, and not the unknown value.",
     "set-operand #99 0 %v99.0", "20 NoSuchOp about #99"),
    ("replace-unknown-by-unknown", "Both unknown values are named.",
     "replace %v99.0 %v98.1", "21 NoSuchValue about %v99.0 %v98.1"),
    ("replace-by-unknown", "The unknown value is named.",
     "replace %v1.0 %v9.9", "21 NoSuchValue about %v9.9"),
    ("replace-by-other-type", "Both values are named with their types.",
     'replace %v1.0 %v2.0', '24 TypeDiffers about %v1.0 "i1" %v2.0 "i8"'),
    ("replace-memref-by-function", "Types of several words are in quotes.",
     'replace %v8.0 %v10.0', '24 TypeDiffers about %v8.0 "memref<2x?xi32>" %v10.0 "() -> i32"'),
    ("replace-result-by-argument", "A result and an argument are named with their types.",
     'replace %v1.0 %a4.0.0', '24 TypeDiffers about %v1.0 "i1" %a4.0.0 "index"'),
    ("replace-not-visible", "The value and the users that don't see it are named.",
     "replace %v1.0 %v5.0", "23 NotVisible about %v5.0 #2 #3 #5"),
    ("replace-by-itself", "Nothing is explained if a value is replaced by itself.",
     "replace %v5.0 %v5.0", None),
    ("drop-missing-key", "The operation without the key is named.",
     "drop-attr #1 k", "26 NoSuchKey about #1"),
    ("drop-key-of-unknown", "An unknown operation is named, and not its key.",
     "drop-attr #99 k", "20 NoSuchOp about #99"),
    ("apply-to-unknown", "An unknown operation of `apply` is named.",
     "apply 1 #99", "20 NoSuchOp about #99"),
    ("apply-unknown-rule", "An unknown rule names nothing.",
     "apply nope #1", "26 NoSuchKey"),
    ("rewrite-unknown-rule", "An unknown rule of `rewrite` names nothing.",
     "rewrite nope", "26 NoSuchKey"),
    ("set-attribute-of-unknown", "An unknown operation of `set-attr` is named.",
     "set-attr #99 k unit", "20 NoSuchOp about #99"),
    ("set-attribute-left-out", "The construct that isn't supported is named.",
     "set-attr #1 k f", "13 LeftOut at 0 about word"),
    ("set-attribute-bad-token", "A bad token names nothing.",
     'set-attr #1 k "', "1 BadToken at 0"),
    ("set-attribute-too-short", "An attribute that ends too early names nothing.",
     "set-attr #1 k (", "2 Unexpected at 1"),
    ("commit-without-mark", "A missing mark names nothing.",
     "commit", "35 NoMark"),
    ("canon-limit", "A bad limit names nothing.",
     "canon limit 0", "50 BadLimit"),
    ("convert-illegal", "The operation of a refused conversion is named without the flag too.",
     "convert partial illegal t.a", "51 NotLegalised #1"),
    ("bad-command", "A bad command names nothing.",
     "nothing", "60 BadCommand"),
    ("report-unknown", "An unknown analysis names nothing.",
     "report kind9", "41 NoSuchKind"),
    ("check-unknown", "An unknown pattern of `check` names nothing.",
     "check nope", "26 NoSuchKey"),
    ("attach-twice", "An analysis that is attached already names nothing.",
     "attach uses", "42 KindTaken"),
    ("pattern-left-out", "A pattern with an operation that patterns can't match says what was expected.",
     "pattern p memref.load(%a) => %a", f"13 LeftOut at 2 {EXPECTED}"),
    ("pattern-replaced-left-out", "The same is said in place of another pattern.",
     "pattern! p memref.load(%a) => %a", f"13 LeftOut at 2 {EXPECTED}")]
# Unsupported constructs in the type of a result, as the value of an attribute, as an operation, after one, or before
# all.
TYPES = {"f32": "float-type", "bf16": "float-type", "f8E4M3FN": "float-type", "f33": "word",
         "tensor<4xi32>": "tensor-type", "vector<4xi32>": "vector-type", "complex<i32>": "other-type",
         "tuple<i32>": "other-type", "none": "other-type",
         "!t": "alias", "!d.t": "dialect-type", "!d.t<i32>": "dialect-type", "memref<4xf32>": "float-type",
         "memref<4xi32, 1>": None, "memref<*xi32>": "other"}
ATTRIBUTES = {"1.5 : f32": "float", "-1.5": "float", "dense<1> : tensor<4xi32>": "dense",
              "sparse<0, 1> : tensor<4xi32>": "dense", "affine_map<(a) -> (a)>": "affine", "affine_set<(a) : (a >= 0)>":
              "affine", "#a": "alias", "#d.a": "dialect-attribute", "loc(unknown)": "location", "f": "word",
              "array<f32: 1.0>": "float-type", "d.e": "pretty-form"}
WHOLE = {"a": "word", "module {": "pretty-form", "%a = arith.constant 1 : i32": "pretty-form",
         "\"a\"() : () -> () loc(unknown)": "location", "#a = 1 : i32": "alias", "!a = i32": "alias",
         "func.func @f()": "pretty-form"}
# With opaque terms, what is left out between brackets.
BETWEEN = {"#d.a<x\ny>": "between-lines", "#d.a<x\ty>": "between-lines", "#d.a<x // y\n>": "between-lines",
           "#d.a<@f>": "symbol", "#d.a<#m>": "alias", "f33": "word", "!t": "alias"}


def with_type(ty):
    return f'"a"() : () -> {ty}\n'.encode()


def with_attribute(attribute):
    return f'"a"() {{k = {attribute}}} : () -> ()\n'.encode()


class Cases:
    """Hands runs on with what the rules give; `case` takes the program's words, an input and an answer."""

    def __init__(self, case, title):
        self.case, self.title = case, title

    def run(self, text, *words, form="text"):
        """Hands a run on, explained or not, and gives its output."""
        explained, is_json = "--explain" in words, form == "json"
        reader = aliases.Reader if "--opaque" in words else rules.Reader
        status, out = script.run(text, "--brief" in words, reader=reader, explained=explained or is_json)
        words = [*words, *["--format", "json"] * is_json]
        self.case(words, text, (status, json_lines.json_of(out) if is_json else out))
        return out.decode()


def line_by_line(cases):
    """Each line alone, and all of them, one after the other, where what was accepted is taken back."""
    for name, sentence, line, wanted in LINES:
        cases.title(f"explain-{name}", sentence)
        out = cases.run(MODULE + DIVIDER + line.encode() + b"\n", "--brief", "--explain")
        assert out == (f"1 refused {wanted}\n" if wanted else "1 ok\n"), (line, out)
    lines = "".join(f"begin\n{line}\n{'rollback' if wanted is None else 'commit'}\n" for _, _, line, wanted in LINES)
    cases.title("explain-all-lines", "All these lines in one script, with `--explain` and without.")
    for words in (("--brief",), ("--brief", "--explain")):
        out = cases.run(MODULE + DIVIDER + lines.encode(), *words)
        replies = [line.split(" refused ")[1] for line in out.splitlines() if " refused " in line]
        told = [reply for reply in replies if not reply.startswith("35 ")]
        wanted = [it for *_, it in LINES if it and "35 " not in it]
        if "--explain" not in words:
            wanted = [it.partition(" about ")[0] for it in wanted]
        assert told == wanted, [pair for pair in zip(told, wanted) if pair[0] != pair[1]]


def together(cases):
    """With listings, with what lines expect, line by line, and after edits."""
    cases.title("explain-together", "Explanations come with expectations, with listings, and line by line.")
    lines = b"expect 22 erase #1\nexpect 22 erase #99\nerase #3\nerase #1\nset-operand #6 1 %v99.0\nprint\n"
    for words in (("--explain",), (), ("--brief", "--explain")):
        cases.run(MODULE + DIVIDER + lines, *words)
        cases.case(["--interactive", *words], MODULE + DIVIDER + lines,
                   live.run(MODULE + DIVIDER + lines, "--brief" in words, explained="--explain" in words))
    cases.title("explain-in-empty-module", "A refusal over an empty module is explained.")
    cases.run(DIVIDER + b"erase #1\nprint\n", "--explain")
    cases.title("explain-no-refusal", "With `--explain` a run without refusals is as without it.")
    cases.run(DIVIDER + b"print\n", "--explain")


def named(cases, kind, text):
    """Names the next cases by a text with a construct that isn't supported."""
    slug = re.sub("[^a-z0-9]+", "-", text.lower()).strip("-")
    cases.title(f"left-out-{kind}-{slug}",
                f"The {kind} `{text}` is refused by 13, and `--explain` names the construct.")


def causes(cases):
    """The construct at the byte of a 13."""
    texts = [(("type", it), with_type(it), cause) for it, cause in TYPES.items()]
    texts += [(("attribute", it), with_attribute(it), cause) for it, cause in ATTRIBUTES.items()]
    texts += [(("text", it), f"{it}\n".encode(), cause) for it, cause in WHOLE.items()]
    for what, text, cause in texts:
        named(cases, *what)
        out = cases.run(text, "--brief", "--explain")
        assert out.startswith("module refused ") and (not cause or out.endswith(f" about {cause}\n")), (text, out)
        assert cases.run(text, "--brief") == culprits.untold(out.encode()).decode()
        cases.case(["--explain", "--interactive"], text, live.run(text, False, explained=True))
    for what, text, cause in texts[:len(TYPES)]:
        named(cases, *what)
        cases.run(DIVIDER + b"insert end #0 0 " + text, "--brief", "--explain")
    for attribute in ATTRIBUTES:
        named(cases, "attribute", attribute)
        line = f"set-attr #1 \"a b\" {attribute}\n".encode()
        cases.run(b'"a"() : () -> ()\n' + DIVIDER + line, "--brief", "--explain")
    cases.title("left-out-between-brackets",
                "With `--opaque` an explanation says what between brackets isn't supported.")
    for term, cause in BETWEEN.items():
        text = with_attribute(term) if term[0] == "#" else with_type(term)
        out = cases.run(text, "--brief", "--opaque", "--explain")
        assert out.endswith(f" about {cause}\n"), (text, out)


def opaque(cases):
    """Types that are kept as they are spelled, with blanks, quotes and what isn't ASCII, in quotes."""
    cases.title("explain-opaque-types", "Opaque types are written in quotes, as text and as JSON.")
    text = ('%a = "a"() : () -> !d.t<"a\\"b c">\n%b = "b"() : () -> tensor<4 x f32>\n'
            '%c = "c"() : () -> !d.u<"\u00e4">\n'
            '"u"(%a, %b, %c) : (!d.t<"a\\"b c">, tensor<4 x f32>, !d.u<"\u00e4">) -> ()\n').encode()
    lines = b"replace %v1.0 %v2.0\nreplace %v3.0 %v1.0\nerase #2\n"
    for form in ("text", "json"):
        cases.run(text + DIVIDER + lines, "--brief", "--opaque", "--explain", form=form)


def as_json(cases):
    """The same as JSON, in which refusals are explained without the flag too."""
    lines = "".join(f"{line}\n" for _, _, line, wanted in LINES if wanted).encode()
    cases.title("refusals", "JSON explains refusals with `--explain` and without.")
    first = cases.run(MODULE + DIVIDER + lines, "--brief", form="json")
    assert first == cases.run(MODULE + DIVIDER + lines, "--brief", "--explain", form="json")
    cases.title("refused-modules", "JSON explains for what a module is refused.")
    for text in (with_type("f32"), with_attribute("dense<1> : tensor<4xi32>"), b'"a"\n'):
        cases.run(text, "--brief", form="json")
    cases.title("refusals-with-listings", "JSON has the module and all reports after each command.")
    cases.run(MODULE + DIVIDER + b"erase #1\nerase #3\nerase #99\n", form="json")


FILES = {"runs/explained": (line_by_line, together), "texts/explained": (causes,), "opaque/explained": (opaque,),
         "json/explained": (as_json,)}


def all_cases(case, begin, title):
    """Adds each input: `case` takes the program's words, an input and an answer, `begin` a file, and `title` the name
    and the sentence of the next cases."""
    for name, parts in FILES.items():
        begin(name)
        for part in parts:
            part(Cases(case, title))
