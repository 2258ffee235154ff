"""Lines of scripts, and inputs that a divider cuts: each form of each command, with blanks and numbers at their limits;
each form with a word too few, too many or wrong; lines that differ from a command by one character; and words that are
numbers, operations or values, or nearly so. mlir_work_cases.py makes golden files of them. Forms are run with
`--explain`, so that a refusal shows the operations and values that a line names. The answers are those of the rules in
Python."""
import itertools
import re

from oracle import script

DIVIDER = b"// -----\n"
REFUSALS = """1 BadToken|2 Unexpected|3 UnknownValue|4 Redefined|5 TypeMismatch|6 BadWidth|7 BadValue|8 MultipleBlocks
9 Successors|10 TooDeep|11 TooMany|12 DuplicateKey|13 LeftOut|14 NotUtf8|20 NoSuchOp|21 NoSuchValue|22 HasUses
23 NotVisible|24 TypeDiffers|25 NoSuchIndex|26 NoSuchKey|27 IntoItself|28 OtherTable|29 IsRoot|30 NotEmpty|31 Full
32 IdsExhausted|33 TooDeepHere|34 TooManyMarks|35 NoMark|36 Memory|40 Stale|41 NoSuchKind|42 KindTaken|50 BadLimit
51 NotLegalised|52 ChainTooDeep|53 Unreconciled|54 BadTarget|60 BadCommand|61 NotProved""".replace("\n", "|").split("|")
NOTHING = ("", " ", "\t\r", "//", "// x", "  //x\r", "//report uses")
REPORTS = ("report uses", "report symbols", "report diagnostics", "report effects", "report dead", "report constants",
           "report unreached", "report kind0", "report kind8", "report kind9", "report kind255",
           " \treport \t kind10\t\r")
PRINTS = ("print", "  print", "print\t", "print \r")
SETS = ("set-operand #3 0 %v2.0", "set-operand\t#3\t\t0 %v2.1\r", "set-operand #003 01 %v02.0010",
        "set-operand #4294967295 4294967295 %v4294967295.4294967295", "set-operand #3 0 %a1.0.0",
        "set-operand #3 1 %a1.2.3", "set-operand #0 00 %a001.000.4294967295")
MOVES = ("move #3 before #2", "move\t#3  after\t#002\r", "move #3 start #1 0", "move #3 end #1 00",
         "move #4294967295 end #4294967295 4294967295")
ATTACHED = ("detach uses", "resync uses", "detach kind9", "\tresync  kind255 \r", "detach constants",
            "resync unreached", "attach uses", "\tattach  unreached \r", "attach kind9")
EDITS = ("begin", "\tcommit \r", "rollback\t", "sweep", " sweep\t\r", "erase #1", " erase\t#0004294967295",
         "replace %v1.0 %a2.0.1", "replace\t%a1.2.3  %v01.00\r", "replace %v1.0 %v1.0", "apply 1 #2",
         "\tapply  030\t#0004294967295 \r", "apply drop-zero #3", "apply no_rule.x #0", "apply -1 #3", "apply #1 #2")
INSERTS = ("insert end #0 0 x", 'insert before #3 "test.a"() : () -> ()', "insert\tafter\t#03\t\t%a  =  \r",
           "insert start #1 00 // x", "insert end #1 2 0", "insert before #3 #4", "insert before #1 a\rb")
ENTRIES = ("set-attr #3 k 1 : i32", "set-attr\t#03\t k.a$_9\t\t unit ", "drop-attr #3 k", 'set-attr #3 "a b" 1',
           'drop-attr #3 ""', 'drop-attr #3 "\\n\\t\\\\\\"\\4aZ"', 'set-attr #0 "" unit', "set-attr #3 _ // x",
           "set-attr #3 k =", 'set-attr #3 "k"\t"v"', "set-attr #3 k a\rb")
CHANGES = ("canon", "\tcanon \r", "canon limit 1", "canon\tlimit  0010\r", "canon limit 0", "canon limit 1000001",
           "canon limit 4294967295", "convert partial", " convert\tfull\r",
           "convert partial illegal arith.maxsi,arith.select rules 25",
           "convert full legal builtin.module,func.func,func.return illegal arith.maxsi rules 25",
           "convert partial dynamic arith.constant,scf.for rules 28,29",
           "convert partial illegal arith.remsi,arith.subi rules 27,26 depth 1",
           "convert full depth 016\t rules 2,0030,2  dynamic c illegal b legal a",
           "convert partial legal legal illegal depth", "convert full legal a.b,a.b", "convert partial rules 1",
           "convert partial depth 17", "convert partial depth 0",
           "convert partial rules 4294967295,0 depth 4294967295", 'convert full legal "a",#1,//',
           "convert full legal a\rb,é")
COMMANDS = ("report uses of #3", "\treport  unreached\tof  #0003 \r", "report kind9 of %v2.0",
            "report constants of %a01.2.003", "report dead of #4294967295", "expect 20 report symbols of #9",
            "rewrite 1", "rewrite 4,drop-one,0024", "\tcanon  only\t1,2  limit 007\r", "rewrite nope,#1 limit 0",
            "canon only limit", "canon only 1,1", "rewrite -1,_", "canon trace", "\tcanon \t trace\tlimit  0007 \r",
            "canon trace limit 0", "canon trace limit 4294967295", "rewrite 1 trace",
            "rewrite 4,drop-one\ttrace  limit 10", "canon only 024,nope trace", "canon only trace limit 2",
            "rewrite trace", "rewrite trace trace limit 3", "canon only trace trace", "rewrite 1 proved",
            "rewrite proved", "\trewrite  1-3,x\tproved  limit 07 \r", "rewrite proved proved",
            "rewrite canon,p proved trace", "rewrite trace proved trace limit 0",
            "canon only 4,p proved trace limit 2", "canon fired", "\tcanon \t fired\tlimit  0007 \r",
            "canon fired limit 4294967295", "rewrite 1 fired", "rewrite 4,drop-one\tfired  limit 10",
            "canon only 024,nope fired", "canon only fired limit 2", "rewrite fired", "rewrite fired fired limit 3",
            "rewrite trace fired", "rewrite fired trace", "rewrite canon,p proved fired",
            "canon only 4,p proved fired limit 2", "expect 50 canon fired limit 0", "expect 61 rewrite p proved",
            "expect 50 canon trace limit 0", "expect 26 rewrite x trace", "why #3", "\twhy \t #0004294967295 \r",
            "why #3 4", "why #3 0030", "why\t#03\tdrop-zero\r", "why #0 no_rule.x", "why #3 -1", "why #3 #4",
            "why #3 //", "why #3 all", "expect 20 why #9", "expect NoSuchKey why #3 nope", "canon at #3",
            "\tcanon \t at\t#003  limit\t07 \r", "canon at #4294967295 limit 4294967295", "canon at #0 limit 0",
            "expect 50 canon at #3 limit 0", "convert trace partial", " convert\ttrace \t full\r",
            "convert trace partial illegal arith.remsi,arith.subi rules 27,26 depth 1",
            "convert trace full depth 016\t rules 2,0030,2  dynamic c illegal b legal a",
            "convert trace partial legal trace rules 1 depth 17", "expect 51 convert trace full", "show all",
            "\tshow \t all \r", "show #3", "\tshow \t#0003  007 \r", "show #0 0", "show #4294967295 4294967295",
            "expect 20 show #9 2", "print ids", "\tprint  ids \r", "expect 22 erase #3", "expect HasUses erase #3",
            "\texpect  0060\tnonsense\r", "expect 22", "expect 22 // x", "expect 60 expect 60 print",
            "expect 1 print ids", "expect 42 attach dead", "expect 2 insert end #0 0 x")
PATTERNS = ("pattern p", "\tpattern \t p\targ => %a // x \r", "pattern //", "pattern 1", "pattern pattern", "patterns",
            " patterns\t\r", "check p", "\tcheck  a-b.c \r", "check width", "check p\twidth  008\r",
            "check width width 0", "check #1 width 4294967295", "check p width 8 sampled",
            "\tcheck width\twidth  00  sampled \r", "check sampled width 4294967295 sampled", "check sampled",
            "check sampled width 9", "expect 50 check p width 129 sampled", "expect 26 check nope",
            "expect 4 pattern p q", "pattern! p", "\tpattern! \t p\targ => %a \r", "pattern !", "pattern! pattern!",
            "pattern ! p", "check all", "\tcheck \t all \r", "check all width 8", "check alls", "check All",
            "check all width 8 sampled", "check !", "expect 2 pattern! p q")
BAD = """move|move #3|move #3 before|move 3 before #2|move #3 before 2|move #3 before #2 x|move #3 start #1
move #3 start #1 0 0|move #3 end #1 x|move #3 under #1|move #3 Before #2|move #3 before# 2|move #3 start#1 0
move #4294967296 before #2|move #3 before #4294967296|move #3 end #1 4294967296|moves #3 before #2|set-attr|set-attr #3
set-attr #3 k|set-attr #3 k \t|set-attr 3 k 1|set-attr #3 9k 1|set-attr #3 k-a 1|set-attr #3 "k 1|set-attr #3 "k"1
set-attr #3 "k"" 1|set-attr #3 "\\q" 1|set-attr #3 "\\4" 1|set-attr #3 "k"\r 1|set-attr #3 \r"k" 1|set-attr #3 k\r 1
set-attr #3 \xe9 1|set-attr # k 1|set_attr #3 k 1|set-attr #3 "a\rb" 1|set-attr #3 "a\x0bb" 1|set-attr #3 @k 1
set-attr #3 = 1|set-attr #3 // 1|drop-attr|drop-attr #3|drop-attr #3 k x|drop-attr #3 "k" x|drop-attr #3 "k
drop-attr 3 k|drop-attr #3 9|drop-attr #3 k k|drop-attr #3 //|detach|detach uses uses|detach Uses|detach kind1
detachuses|resync|resync uses x|resync use|resync kind256|canon x|canon 1|canon limit|canon limit x|canon limit -1
canon limit +1|canon limit 1 x|canon limit 1 limit 1|canon limit limit|canon limits 1|canon Limit 1
canon limit 4294967296|canon limit 1,2|canon limit #1|canon //|canonlimit 1|canonicalize|Canon|cano|canon\xa0|convert
convert x|convert Partial|convert partial x|convert partial,full|convert partial full|convert legal a
convert legal a partial|convert partially|converts partial|Convert full|convert partial legal|convert partial legal ,
convert partial legal a,|convert partial legal ,a|convert partial legal a,,b|convert partial legal a, b
convert partial legal a b|convert partial legal a legal b|convert partial legal a legal a
convert partial legal a illegal|convert partial illegal|convert partial illegal b,,|convert partial illegal a illegal b
convert partial dynamic|convert partial dynamic ,,|convert partial dynamic a dynamic b|convert partial rules
convert partial rules x|convert partial rules ,|convert partial rules 1,|convert partial rules ,1
convert partial rules 1,,2|convert partial rules 1 2|convert partial rules 1,x|convert partial rules -1
convert partial rules +1|convert partial rules 4294967296|convert partial rules 1,4294967296
convert partial rules 2 rules 2|convert partial rules #2|convert partial depth|convert partial depth x
convert partial depth 1,2|convert partial depth 1 depth 1|convert partial depth 4294967296|convert partial depth -1
convert partial depth 1 x|convert partial Legal a|convert partial legals a|convert partial rule 2
convert partial limit 1|convert partial depth 1 legal|erase|erase 1|erase #|erase #1 x|erase #1 #2|erase #4294967296
Erase #1|erase#1|replace|replace %v1.0|replace %v1.0 %v1|replace %v1.0 %v2.0 x|replace 1.0 %v2.0|replace %v1.0 #2
replace %v4294967296.0 %v1.0|insert|insert end|insert end #0|insert end #0 0|insert end #0 0 \t|insert end #0 x y
insert end 0 0 x|insert before #1|insert before #1 \t|insert before 1 x|insert under #1 x|insert end #0 4294967296 x
insert "test.a"() : () -> ()|begin x|begin //|Begin|commit 1|commits|rollback #1|rollback  x|roll back|undo|report
report nonsense|report Uses|report use|report uses uses|report uses \r x|reportuses|Report uses|report kind|report kind1
report kind6|report kind07|report kind00|report kind256|report kind4294967305|report kind-1|report kind9x|report 1
report kind7|report Unreached|report uses of|report uses of 3|report uses of #|report uses of #3 x|report of #3
report uses #3|report uses Of #3|report uses of #3 #4|report uses of %v2|report uses of %a1.0|report use of #3
report uses off #3|report uses of#3|report usesof #3|report uses of of #3|report kind1 of #3|report uses of #4294967296
report uses of %v4294967296.0|report uses of %v2.0.0|report uses of @f|reports uses of #3|print of #3
resync uses of #3|sweep x|sweep //|Sweep|sweeps|swee|sweep #1|apply|apply 1|apply #1|apply 1 #|apply 1 2
apply 0 #1|apply 31 #1|apply 00031 #1|apply 1x #1|apply 1 #1 x|apply 4294967297 #1|apply drop-zero|apply drop-zero 3
apply drop-zero #3 #4|apply drop zero #3|Apply 1 #2|applies 1 #2|apply 1 #4294967296|rewrite|rewrite 25|rewrite 0
rewrite 1,|rewrite ,1|rewrite 1,,2|rewrite 1, 2|rewrite 1 2|rewrite 1,30|rewrite 1 limit|rewrite 1 limit x
rewrite 1 limit 2 3|rewrite limit 3|rewrite 1x|rewrite 1 limits 2|rewrites 1|Rewrite 1|rewrite 4294967297
rewrite 1 limit 4294967296|canon only|canon only 25|canon only 1 limit|canon only limit 3|canononly 1|canon Only 1
canon only 1,|canon 1 only|canon trace x|canon trace limit|canon trace limit x|canon trace limit 1 2|canon trace 1
canon trace limit 4294967296|canon trace only 1|canon limit 1 trace|canontrace|canon trace trace|canon Trace
canon tracelimit 1|rewrite 1 tracelimit 1|rewrite 1trace|canon trace,1|rewrite trace limit|canon trace limit -1
canon traces|rewrite 1 traces|rewrite 1 trace x|rewrite 1 trace trace|rewrite 1 trace limit|rewrite 1 limit 1 trace
rewrite 25 trace|rewrite 1, trace|rewrite 1 trace limit -1|rewrite 1 trace 1|canon only 1 trace only|trace|trace limit 1
canon only 30 trace|canon only trace limit|canon only trace x|canon at|canon at 3|canon at #|canon at #3 x
canon at #3 limit|canon at #3 limit x|canon at #3 limit 1 2|canon at #3 limit 4294967296|canon at #3 trace|canon at#3
canonat #3|canon At #3|canon at #4294967296|canon trace at #3|canon limit 1 at #3|canon at at #3|canon at #3 #4|why
why 3|why #|why #3 0|why #3 31|why #3 4x|why #3 4 5|why #3 drop-zero 4|why #3 4294967300|why #4294967296|Why #3|whys #3
show|show 3|show #|show #3 x|show #3 1 2|show #3 4294967296|show #4294967296|show all 1|show all all|Show all|showall
show#3|show #3 all|show #3 #4|show -1|show %v1.0|shows all|show ALL
why#3|why of #3|why drop-zero #3|why #3 of 4|why %v3.0|convert trace|convert trace trace|convert trace trace partial
convert trace Partial|convert partial trace|convert traces partial|convert tracepartial|converttrace partial
convert Trace partial|convert trace,partial|convert trace partial x|convert trace partial legal
convert trace partial legal a,|convert trace partial legal a legal b|convert trace partial rules x
convert trace partial rules 4294967296|convert trace partial depth 1,2|convert trace full limit 1|trace convert partial
convert trace legal a|convert trace full trace|converts trace full
attach|attach uses uses|attach Uses|attach kind1
attachuses|attach x|attach #1|attach all
print id|print idss|print ids x|print ids ids|print Ids|printids|print ids //|expect|expect print|expect 99 print
expect 0 print|expect 22x erase #3|expect Hasuses erase #3|expect hasuses erase #3|expect -22 erase #3|Expect 22 print
expect 4294967318 erase #3|expect22 print|expects 22 print|expect 22,23 print|expect 15 print|expect 39 print|print x
print //|Print|prin|prints|/print|print\x0b|\x0cprint|jump|set-operand|set-operand #3|set-operand #3 0
set-operand #3 0 %v2.0 x|set-operand 3 0 %v2.0|set-operand # 0 %v2.0|set-operand ##3 0 %v2.0|set-operand # 3 0 %v2.0
set-operand #3 x %v2.0|set-operand #3 -1 %v2.0|set-operand #3 +1 %v2.0|set-operand #0x3 0 %v2.0|set-operand #3 0 #2
set_operand #3 0 %v2.0|set-operand #3 0 v2.0|set-operand #3 0 %|set-operand #3 0 %v|set-operand #3 0 %v2
set-operand #3 0 %v2.|set-operand #3 0 %v.0|set-operand #3 0 %v2.0.0|set-operand #3 0 %v2..0|set-operand #3 0 %V2.0
set-operand #3 0 %v 2.0|set-operand #3 0 %a1.0|set-operand #3 0 %a1.0.|set-operand #3 0 %a1..0|set-operand #3 0 %a.0.0
set-operand #3 0 %a1.0.0.0|set-operand #3 0 %b1.0.0|set-operand #4294967296 0 %v2.0|set-operand #3 4294967296 %v2.0
set-operand #3 0 %v4294967296.0|set-operand #3 0 %v2.4294967296|set-operand #3 0 %a1.4294967296.0
pattern|Pattern p|patterns x|patterns //|pattern|patternsp|check|check 4|check 4x|check p x|check p width
check p width x|check p width -1|check p width 4294967296|check p width 1 2|check p Width 1|check p q width 1
check 1 width 2|Check p|checks p|check p sampled|check p sampled width 8|check p width sampled|check 1 width 2 sampled
check p width sampled 8|check p width 8 sample|check p width 8 Sampled|check p width 8 sampled 9|check p 8 sampled
pattern!|pattern!p q|pattern!! p|Pattern! p|pattern!s p|!pattern p|check all all|check all x|check all width|checkall
check! p|patterns!|check all sampled|rewrite 1 trace proved|rewrite 1 limit 1 proved|rewrite 1 proved proved
rewrite 1 proved x|rewrite 1 Proved|rewrite 1proved|rewrite 1 proven|rewrite 1, proved|rewrite 25 proved
rewrite 1 proved limit|rewrite 1 proved limit x|rewrite 1 proved trace limit|rewrite 1 proved trace trace|canon proved
canon fired x|canon fired limit|canon fired limit x|canon fired fired|canon fired trace|canon trace fired|canonfired
canon Fired|canon fire|canon fired only 1|canon limit 1 fired|rewrite 1 fired trace|rewrite 1 trace fired|rewrite 1fired
rewrite 1 fired fired|rewrite 25 fired|rewrite 1 fired x|rewrite 1 fired limit|rewrite 1 fired proved|canon fired at #3
canon at #3 fired|fired|fired limit 1|convert fired partial|canon fired limit 4294967296|rewrite 1 proved fired trace
canon trace proved|canon proved trace|canon at #3 proved|apply 1 #3 proved|rewrite 1 proved 3|canon only proved limit
check p width 8 sampled sampled|check p width x sampled|check p width 4294967296 sampled|check p width 8 sampled //
set-operand #42949672950 0 %v2.0|set-operand #99999999999999999999999 0 %v2.0""".replace("\n", "|").split("|")


# Lines with near misses: each with a byte removed, a byte inserted, and another byte at each place.
NEAR_MISSES = ("report uses", "report kind10", "print", "// x", "set-operand #3 10 %v2.0", "set-operand #3 0 %a1.0.2",
               "move #3 after #2", "move #3 end #1 0", "set-attr #3 k.a 1", "set-attr #3 \"a\\n\" 1", "drop-attr #3 k",
               "detach uses", "resync kind10", "canon limit 10", "convert full depth 2 legal a,b rules 2,25",
               "attach dead", "print ids", "expect 22 print", "rewrite 2,drop-one limit 10", "report uses of #10",
               "report kind10 of %v2.0", "canon trace limit 10", "rewrite 2,x trace limit 3",
               "convert trace full depth 2", "why #3", "why #3 10", "why #3 drop-one", "canon at #3 limit 10",
               "show all", "show #3 10",
               "pattern p x", "patterns", "check p width 10", "check p width 10 sampled", "pattern! p x", "check all",
               "rewrite 2,x proved trace limit 3")
NOT_UTF8 = ((b"// \xff", "bad"), (b"\xc3", "bad"), (b"print\xff", "bad"), (b"// \xc3\xa9", "nothing"),
            (b"print \xc3\xa9", "bad"), (b"// \xed\xa0\x80", "bad"), (b"// \xf4\x90\x80\x80", "bad"),
            (b"// \xf4\x8f\xbf\xbf", "nothing"), (b"// \xc0\x80", "bad"))


def near_misses(text):
    """A line with a byte removed, inserted, or changed, at each place."""
    text = text.encode()
    for place in range(len(text) + 1):
        yield text[:place] + text[place + 1:]
        for byte in b" \t\r/x0#.%\"\\":
            yield text[:place] + bytes([byte]) + text[place:]
            yield text[:place] + bytes([byte]) + text[place + 1:]

# Names of kinds that aren't the names of a number, and of the seven.
KINDS = ("", "kind", "Uses", "use", "usess", "kind-1", "kind007", "1", "kind 9", *script.BOXES)
NUMBERS = (0, 1, 9, 10, 255, 256, 4294967294, 4294967295, 4294967296, 4294967305, 42949672950, 2 ** 64, 10 ** 40)
FORMS = (("report", "Reports of analyses, by each form of a name.", REPORTS + PRINTS),
         ("set-operand", "Operands are set by numbers with leading zeros and up to 4294967295.", SETS),
         ("move", "Operations are moved to each kind of insertion point.", MOVES),
         ("attach", "Analyses are detached, begun again and attached.", ATTACHED),
         ("edit", "Marks, `sweep`, `erase`, `replace` and `apply` take operations, values and rules.", EDITS),
         ("insert", "What follows the insertion point of `insert` is the text of an operation.", INSERTS),
         ("entry", "Keys are words or strings with escapes, and the rest of the line is the attribute.", ENTRIES),
         ("change", "`canon` has a limit, and `convert` lists, rules and a depth.", CHANGES),
         ("command", "Forms of `rewrite`, `why`, `show`, `print ids`, `convert trace` and `expect`.", COMMANDS),
         ("pattern", "Forms of the commands on patterns.", PATTERNS))


def slug(text):
    """A line as a name of a case."""
    return re.sub("[^a-z0-9]+", "-", text.lower()).strip("-") or "comment"


def number_words():
    """Words that are numbers, or nearly so."""
    words = [b"%s%d%s" % (front, number, back) for number in NUMBERS for front in (b"", b"0", b"000", b"-", b"+", b" ")
             for back in (b"", b" ", b"x", b"_0")]
    return words + [b"", b"x", b"0x1", b"\xd9\xa3"]


def value_words():
    """Words that are results or arguments, or nearly so."""
    parts = (b"", b"0", b"07", b"4294967295", b"4294967296", b"x")
    for start, one, two in itertools.product((b"%v", b"%a", b"%", b"v", b"%V"), parts, parts):
        yield from (start + one + b"." + two, start + one + b"." + two + b".3", start + one + b".3." + two,
                    start + one + two)


def blank_words():
    """Blanks, line feeds and other bytes, which a line has before and after its words."""
    return map(b"".join, itertools.product((b"", b" ", b"\t\r", b"\n", b"x", b"\xc3"), repeat=3))


def divided():
    """Inputs with dividers, and with lines that are nearly dividers."""
    op = b'"t.a"() : () -> ()'
    pieces = (b"// -----", b"// -----\r", b"", op, b"// -----x", b"// ----", b"/", b" // -----", b"// ----- ",
              b"//-----", b"// ------", op + b"// -----", op + b"\r// -----")
    for count, kinds in ((1, pieces), (2, pieces), (3, pieces[:5])):
        for parts in itertools.product(kinds, repeat=count):
            yield from (b"\n".join(parts), b"\n".join(parts) + b"\n")


class Cases:
    """Golden cases of a module with lines after it."""

    def __init__(self, case, title, module):
        self.case, self.title, self.module = case, title, module

    def replied(self, name, sentence, texts, member="", explained=False):
        """A case of these lines, none of them twice, and of the module after them. Returns what is written."""
        lines = [text.encode() if isinstance(text, str) else text for text in dict.fromkeys(texts)]
        text = self.module + DIVIDER + b"".join(line + b"\n" for line in lines) + b"print\n"
        answer = script.run(text, True, script.BOXES, script.ALL, explained=explained)
        self.title(name, sentence)
        self.case(["--brief", "--explain"][:1 + explained], text, answer, name=member or "brief")
        return answer[1]


def replies_to_lines(cases):
    """The replies to lines that say nothing or are no command, by the names of their cases:

    - no-command: each form of command with a word too few, too many, or wrong, is refused by 60;
    - nothing: empty lines and comments aren't counted;
    - not-utf8: a line that isn't UTF-8 is refused by 60, also where it is a comment;
    - kind-names: `report` of each name `kindN` is refused by 41, and by 60 where N is no number of a kind;
    - near-LINE: each near miss of a line; most are refused by 60."""
    out = cases.replied("no-command", "Each form of command with a word too few, too many or wrong is refused by 60.",
                        BAD)
    assert out.count(b" refused 60 BadCommand\n") == len(set(BAD)), out
    out = cases.replied("nothing", "Empty lines and comments get no reply and aren't counted.", NOTHING)
    assert out.startswith(b"1 ok\n"), out
    cases.replied("not-utf8", "A line that isn't UTF-8 is refused by 60, a comment too.",
                  [text for text, _ in NOT_UTF8])
    cases.replied("kind-names", "A report of an unknown kind is refused by 41, and of a number that is no kind by 60.",
                  [f"report kind{number}" for number in range(260)])
    for text in NEAR_MISSES:
        cases.replied("near-misses", "A line that differs from a command by one character is no command, or another "
                      "one.", near_misses(text), slug(text))


def forms_of_lines(cases):
    """Each form of command, words of each kind, and the number and word of each refusal."""
    for name, sentence, texts in FORMS:
        cases.replied(f"forms-{name}", sentence, texts, explained=True)
    cases.replied("other-kind-names", "A report of a word that is no name of a kind is refused by 60.",
                  [f"report {word}" for word in KINDS])
    for name, line, sentence in (
            ("numbers", b"set-operand #3 %s %%v2.0", "The index of an operand is a number up to 4294967295."),
            ("limits", b"canon limit %s", "A limit is a number up to 4294967295; 1000000 is the greatest accepted."),
            ("operations", b"erase #%s", "The number of an operation is at most 4294967295.")):
        cases.replied(f"words-{name}", sentence, [line % word for word in number_words()], explained=True)
    cases.replied("words-values", "A value has two numbers, or three if it is an argument.",
                  [b"replace %s %s" % (word, word) for word in value_words()], explained=True)
    cases.replied("words-blanks", "Blanks around a line are left out, and other bytes aren't.",
                  [blanks + b"print" + blanks for blanks in blank_words()])
    words = [f"expect {word} sweep" for refusal in REFUSALS for word in refusal.split()]
    out = cases.replied("refusals", "The number and the word of each refusal belong together.", words)
    assert all(out.count(b" expected %s\n" % refusal.encode()) == 2 for refusal in REFUSALS), out


def cuts(cases):
    """Inputs with dividers, and with lines that are nearly dividers."""
    cases.title("divided", "The first line that is a divider ends the module, and a line that is nearly one doesn't.")
    for text in divided():
        cases.case(["--brief"], text, script.run(text, True, script.BOXES, script.ALL))


def all_cases(case, begin, title, module):
    """Makes all cases, over a module."""
    cases = Cases(case, title, module)
    for part in (replies_to_lines, forms_of_lines, cuts):
        begin(f"runs/{part.__name__}")
        part(cases)
