#!/usr/bin/env python3
"""Writes the golden files of tests/golden/opaque: the texts of opaque_cases.py, with the answers that are there; the
scripts of opaque_scripts.py; and texts that are cut, deep, long or hostile. All answers are those of the rules in
Python too, as are those of tests/golden/opaque/values.cases, which are written by hand. Run it at the top of the
repository."""

from checkout import ROOT

from oracle import aliases, json_lines, live, script
from tests.compare import refusals
from tests.generate import ir_text_expansion_cases, opaque_cases, opaque_scripts, opaque_texts
from tests.generate.ir_text_golden import DIVIDER, HOLDER, is_held
from tests.generate.opaque_cases import ATTRIBUTE, OPAQUE, TYPE
from tests.golden import golden

GOLDEN = golden.Collected()
title = GOLDEN.title
PRINT = b"\n// -----\nprint\n"
CUT = b"""%0 = "t.v"() : () -> memref<2xtensor<?xf32>>
"t.u"(%0) {x = [#d.a<"}>", (a -> b)> : !d.t, - 0x7F : f16], y = dense<[1.0]> : vector<1xf32>, z = distinct[0]<1>}
  : (memref<2xtensor<?xf32>>) -> memref<1xi8, affine_map<(d0) -> (d0)>>
"""
FLAGGED, PLAIN = ("--brief", OPAQUE), ("--brief",)


def form_of(words):
    """The name of a case in its group."""
    return words[-1].removeprefix("--") if words[1:] else "plain" if words[0] == "--brief" else "full"


def whole(text, words=FLAGGED, pieces=None):
    """A case of a run, with what the rules give."""
    ran = script.run_opaque if OPAQUE in words else script.run
    answer = ran(text, "--brief" in words, explained="json" in words)
    if "json" in words:
        answer = answer[0], json_lines.json_of(answer[1])
    GOLDEN.case(words, pieces or text, answer, name=form_of(words))


def texts():
    """Each text by hand, with the flag and without."""
    titles = {text: it for it, text, _ in opaque_cases.titled_texts()}
    for text, words, answer in opaque_cases.asked_texts():
        title(*titles[text])
        given, status, out = opaque_cases.case_of(text, answer)
        answer = status, out.encode()
        assert opaque_cases.by_rules(words, given.encode()) == answer, text
        words = ("--brief", *words)
        GOLDEN.case(words, given.encode(), answer, name=form_of(words))


def scripts():
    """Each script, with the flag and without; the first ones also as they are written otherwise."""
    given, wanted = opaque_cases.whole_script()
    assert script.run_opaque(given.encode()) == (1, wanted.encode())
    by_hand = "script-by-hand", "A script over opaque terms whose output is written by hand."
    for *named, text in ((*by_hand, given), *opaque_scripts.SCRIPTS):
        title(*named)
        for words in (FLAGGED, PLAIN, (*FLAGGED, "--format", "json")):
            whole(text.encode(), words)
        words = (*FLAGGED, "--interactive")
        GOLDEN.case(words, text.encode(), live.run(text.encode(), reader=aliases.Reader), name=form_of(words))
    whole(opaque_scripts.EDITS.encode(), (OPAQUE,))


def attributes():
    """Attributes after `set-attr`, printed if they are accepted, or in a module if no line can hold them."""
    lines = []
    title("attributes-in-a-module", "Attributes that no line of a script can have are read or refused in a module.")
    for text, read in opaque_texts.asked():
        if is_held(text) and text.strip(b" \t\r") == text:
            lines += [b"set-attr #1 a " + text, *[b"print"] * read]
        else:
            whole(b'"a"() {a = ' + text + b"\n} : () -> ()" + PRINT)
    title("set-attributes",
          "Attributes by hand and random ones are set by `set-attr`, and printed if they are accepted.")
    whole(HOLDER + DIVIDER + b"".join(line + b"\n" for line in lines))


def nested(form, begin, opens, closes, end):
    """A text with a part inside so many brackets; many equal brackets are one piece."""
    front, behind = (part.replace("%%", "%") for part in form.split("%s"))
    text = [(1, front + begin), (len(opens), opens[:1]), (len(closes), closes[:1]), (1, end + behind)]
    pieces = [(count, part.encode()) for count, part in text]
    pieces[-1] = 1, pieces[-1][1] + PRINT
    given = b"".join(count * part for count, part in pieces)
    whole(given, pieces=pieces if len(opens) > 200 else None)


def deep():
    """Brackets, memrefs, attributes and types in one another, at the limit and one more."""
    title("depth-of-brackets",
          "Brackets in a body may be in one another up to 32 levels, the outermost included.")
    for count in (31, 32, 200, 100000):
        for one, other in ("<>", "()", "[]", "{}"):
            for form, front in ((ATTRIBUTE, "#d.a<"), (TYPE, "!d.t<"), (TYPE, "tensor<")):
                nested(form, front, one * count, other * count, ">")
    title("depth-of-types-and-attributes",
          "An opaque term may be inside memrefs, function types and arrays up to the limit of 32.")
    for count in (31, 32, 33):
        for form, text in ((TYPE, "memref<4x" * count + "f32" + ">" * count),
                           (TYPE, "memref<4x" * count + "f32, 1" + ">" * count),
                           (TYPE, "(" * (2 * count) + "f32" + ") -> !d.t)" * count),
                           (ATTRIBUTE, "[" * count + "#d.a" + "]" * count),
                           (ATTRIBUTE, "[" * count + "1.0 : f32" + "]" * count),
                           (ATTRIBUTE, "1.0 : " + "memref<4x" * count + "f32, 1" + ">" * count)):
            whole((form % text).encode() + PRINT)


BODIES = (b'"\xff"', b"\xff", b'"\xc3\xa4"', b"\xc3\xa4", b"\r", b"\x00", b"\x7f", b'"\x00"', b'"a\\', b'"\\"', b'"\n"',
          b"a//b", b"/ /", b'"//"', b"->", b"-->", b"- >", b"a->>", b">", b"=>", b"<>", b"#", b"!", b"#d", b"#d.e",
          b"#d<>", b"!1", b"!d.e<", b"@", b'"@"', b"a b  c", b" ", b"")
# What begins a text that is long, what is there many times, how often, and what ends it.
LONG = ((b"#d.a<", 200000, b"x ", b">"), (b"dense<[", 200000, b"1.0, ", b"1.0]> : tensor<200001xf32>"),
        (b'#d.a<"', 200000, b"\\\\", b'">'), (b"[", 250, b"#d.a<(x)>, ", b"1.5]"))


def hostile():
    """Texts that are cut, bodies of all bytes, and long ones."""
    assert script.run_opaque(CUT)[0] == 0
    title("prefixes", "Each prefix of a text with opaque types and attributes is read or refused.")
    answers = [script.run_opaque(CUT[:count]) for count in range(len(CUT))]
    GOLDEN.case(FLAGGED, CUT, golden.cut_text(answers), True)
    begin, end = (part.encode() for part in ATTRIBUTE.split("%s"))
    title("bodies-of-bytes",
          "A body is read or refused by its control bytes, quotes, comments, arrows and UTF-8.")
    for body in BODIES:
        for front in (b"#d.a", b"dense_resource", b"affine_map"):
            whole(begin + front + b"<" + body + b"> : f32" + end + PRINT)
        whole(TYPE.replace("%%", "%").encode().replace(b"%s", b"tensor<" + body + b">") + PRINT)
    title("long-bodies", "A body may have 200,000 parts, and an array 250 attributes.")
    for front, count, piece, behind in LONG:
        pieces = [(1, begin + front), (count, piece), (1, behind + end + PRINT)]
        whole(b"".join(times * part for times, part in pieces), pieces=pieces)


# Of a text with aliases and locations only what is left of it has to be UTF-8.
ALIASED = (b'#a = \n"t"() : () -> ()\xff', b'// \xff\n#a = 1 : i8\n"t"() {x = #a} : () -> ()\n',
           b'"t"() : () -> () loc("\xff")', b'#a = "\xff"\n"t"() {x = #a} : () -> ()', b'// \xff\n"t"() : () -> ()',
           b'"t"() : () -> ()\n#l = loc("\xff")\n', b'#a = 1 // \xff\n"t"() : () -> ()',
           b'!t = tensor<4xf32> !u = memref<2x!t> !v = (!u) -> !t "t"() {x = !v, y = [!u, !d.t<!t>]} : () -> (!t, !u)',
           b'#m = affine_map<(d0) -> (d0)>\n#n = #d.a<[#m, #m]>\n"t"() {x = #n : i8, y = memref<4xi8, #m>} : () -> ()',
           b'#a = 1 : i8\n#b = [#a, {k = #a}]\n#c = #d.a<#a>\n"t"() {x = #b, y = #c} : () -> () loc(unknown)')


def aliases_and_locations():
    """Texts with aliases and locations, by hand, with the flag and without; aliases that are long chains, and that
    grow."""
    tables = ((("aliases-and-locations",
                "Aliases and locations are read with `--opaque` alone, and refused at a fault in them."),
               ir_text_expansion_cases.TEXTS),
              (("aliases-and-bytes", "Only what is left of a text with aliases and locations has to be UTF-8."),
               ALIASED),
              (("arrows-in-bodies",
                "An arrow after a name in a body isn't part of the name, and a body has no location."),
               ir_text_expansion_cases.ARROWS))
    for named, text in ((named, text) for named, texts_of in tables for text in texts_of):
        title(*named)
        for words in (FLAGGED, PLAIN):
            whole(text + PRINT, words)
    title("chains-of-aliases",
          "A chain of 500 aliases is read, an unknown alias is refused, and aliases that double 32 times are too "
          "large.")
    chain = b"#a0 = 1 : i8\n" + b"".join(b"#a%d = #a%d\n" % (number, number - 1) for number in range(1, 500))
    grown = b"#a0 = 1 : i8\n" + b"".join(b"#a%d = [#a%d, #a%d]\n" % (it, it - 1, it - 1) for it in range(1, 32))
    for front, name in ((chain, b"#a499"), (chain, b"#a500"), (grown, b"#a4"), (grown, b"#a31")):
        whole(front + b'"t"() {x = ' + name + b"} : () -> ()" + PRINT)
    title("aliases-in-commands",
          "The text of a command has no aliases and no operation's location, but an attribute may be a location.")
    for line in (b"set-attr #1 k #a", b"set-attr #1 k !t", b'insert end #0 0 "u"() : () -> !t',
                 b"set-attr #1 k #d.a<!t>", b'insert end #0 0 "u"() : () -> i8 loc("f")',
                 b'set-attr #1 k loc("f":1:2)'):
        whole(b'#a = 1 : i8\n!t = f32\n"t"() {x = #a} : () -> !t\n// -----\n' + line + b"\nprint\n")


def refused():
    """Each input of docs/REFUSALS.md that goes with the flag, and that of docs/VERIFIER.md."""
    title("refusals-of-page", "Inputs of docs/REFUSALS.md are refused with `--opaque` as the page says.")
    for text, answer in refusals.opaque_rows():
        told = 3 if answer.startswith("module") else 1, answer.encode() + b"\n"
        assert script.run_opaque(text) == told, text
        GOLDEN.case(FLAGGED, text, told)
    title("beyond-the-table",
          "The module of docs/VERIFIER.md with operations outside the table has the diagnostics of the page.")
    text, rows = refusals.beyond()
    told = 0, b"1 ok\n" + b"".join(row + b"\n" for row in rows)
    assert script.run_opaque(text + b"// -----\nreport diagnostics\n") == told
    GOLDEN.case(FLAGGED, text + b"// -----\nreport diagnostics\n", told)


def check_values():
    """The cases of values.cases are written by hand, and have the answers of the rules."""
    for case, answer in golden.cases_in(ROOT / "tests/golden/opaque/values.cases")[0]:
        assert answer == golden.out_text(case.name, *script.run_opaque(case.given())), case.name


def main():
    check_values()
    for part in (texts, scripts, attributes, deep, hostile, aliases_and_locations, refused):
        GOLDEN.begin(f"opaque/{part.__name__}")
        part()
    GOLDEN.write()


if __name__ == "__main__":
    main()
