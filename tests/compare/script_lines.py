"""Random lines of scripts: edits, rewrites, conversions that fit a module, marks, and lines that are no commands.
by_chance.py makes its scripts of them."""
import re

from tests.compare import pattern_lines
from oracle import rewrites, script
from oracle.module import value_text, walk

MOST_COMMANDS, MOST_OPS = 24, 18
# Lines that are no commands, or say what isn't there; and blanks, comments and lines that stay what they are.
ODD = [
    "jump", "erase", "erase 3", "erase #3 x", "erase #4294967296", "move #1", "move #2 before", "insert end #0 0",
    "insert end #0", "set-operand #1 0", "set-attr #1 k", 'set-attr #1 "a"b 1', 'set-attr #1 "" 1', "set-attr #1 k f32",
    'set-attr #1 k [1, "a", {b, c = @f}]', 'drop-attr #1 "k"', "drop-attr #1 k l", "replace %v1.0",
    "replace %v1.0 %a1.0",
    "begin x", "commit 1", "rollback #1", 'insert before #1 %0 = "test.a"() : () -> ()', "// a comment", "",
    " \terase\t#2  \r", 'insert end #0 0 "test.a"(%v99.0) : (i32) -> ()',
    'insert end #0 0 "test.a"() : () -> () "test.b"() : () -> ()', 'insert end #0 0 "test.a"()', "report uses",
    "report kind9", "report use", "report uses of", "report kind9 of #1", "report dead of %v1", "print",
    "print ids", "print id", "resync kind7", "detach kind7", "attach kind9", "attach kind7", "attach uses dead",
    "canon trace only 1", "canon limit 1 trace", "rewrite trace", "canon fired 1", "canon fired trace", "rewrite fired",
    "rewrite 1 trace fired", "fired", "expect 22", "canon at", "canon at 3",
    "canon at #3 trace", "canon at #3 limit",
    "convert trace", "convert trace trace full", "convert full trace", "convert Trace full", "convert trace full legal",
    "convert trace partial legal a legal b", "trace convert full", "why", "why 3", "why #3 31",
    "why #3 4 drop-zero", "why #3 never", "why #99", "patterns",
    "show", "show 3", "show all 3", "show #99", "show #3 x", "show #3 2 1",
    "expect 99 print", "expect expect", "expect 60 expect 60 print",
    'insert start #0 0 %a:2 = "test.a"() ({ ^bb0(%b: i8): "test.b"(%b) : (i8) -> () }, {}) {k} : () -> (i1, i2)']

RULES = [2, 25, 26, 27, 28, 29, 30]
CAST = "builtin.unrealized_conversion_cast"
NAMES ="""arith.maxsi arith.minui arith.subi arith.remsi arith.remui arith.addi arith.constant arith.cmpi scf.for scf.if
func.func func.return builtin.module scf.yield test.a arith.index_cast memref.load""".split()
INDEXED = ",".join(f"arith.{word}" for word in"""constant addi subi muli cmpi select divsi divui remsi andi ori xori
shli shrsi shrui maxsi minui""".split())
TARGETS = ["illegal arith.remsi,arith.remui rules 27",
           "illegal arith.maxsi,arith.maxui,arith.minsi,arith.minui rules 25", "illegal arith.subi rules 26",
           "illegal arith.remsi,arith.remui,arith.subi rules 2,27,26", f"dynamic {INDEXED} rules 28",
           f"dynamic {INDEXED},scf.for,scf.if rules 28,29,30", "dynamic scf.for rules 29", "dynamic scf.if rules 30",
           "dynamic scf.for,scf.if,arith.constant rules 30,29,28", "legal test.a rules 2",
           "illegal arith.subi,arith.xori rules 2,26", "illegal arith.maxsi,arith.minui,arith.select rules 25",
           "illegal arith.remsi,arith.divui rules 26,27", "illegal arith.addi,arith.subi"]
# What rules replace at any type, what they replace where something is an index, and what they make.
ALWAYS = {f"arith.{word}" for word in "remsi remui subi maxsi maxui minsi minui".split()}
REPLACED = set(INDEXED.split(",")) | ALWAYS | {"scf.for", "scf.if"}
MADE = {f"arith.{word}" for word in "constant cmpi select xori addi subi muli divsi divui index_cast".split()}
MADE |= {"scf.for", "scf.if", "scf.yield"}


def rewriting(maker):
    """A canonicalization, a conversion, or a rule at an operation."""
    if maker.random() < 0.2:
        rule = maker.choice([maker.randrange(32), maker.choice(rewrites.WORDS), "1", "2"])
        return f"apply {rule} #{maker.randrange(20)}"
    if maker.random() < 0.2:
        return asking(maker, maker.randrange(20))
    if maker.random() < 0.2:
        rules = ",".join(str(maker.choice([1, 2, 3, maker.randrange(1, 25), maker.choice(rewrites.WORDS)]))
                         for _ in range(maker.randrange(1, 9)))
        word, behind = maker.choice(["rewrite", "canon only"]), maker.choice(["", "", " limit 2", " limit 0", " limit"])
        return counted(maker, f"{word} {rules}{maker.choice(['', ' trace'])}{behind}")
    if maker.random() < 0.5:
        word = maker.choice(["canon", "canon", "canon trace"])
        return counted(maker, word + maker.choice(["", "", " limit 1", " limit 3", " limit 0", " limit"]))
    return conversion(maker)


def counted(maker, line):
    """A line as it is, or one that counts what fired in place of a trace, now and then in more than a hundred
    rewrites."""
    if " trace" not in line or maker.random() < 0.4:
        return line
    most = maker.choice([None, None, None, 7, 12, 130])
    line = line.replace(" trace", " fired", 1)
    return line if most is None else re.sub(r"( limit \d+)?$", f" limit {most}", line, count=1)


def asking(maker, op):
    """A question about the rules at an operation, or their repeated application there."""
    if maker.random() < 0.3:
        return f"canon at #{op}" + maker.choice(["", "", " limit 1", " limit 0"])
    return f"why #{op}" + maker.choice(["", "", f" {maker.randrange(1, 31)}", f" {maker.choice(rewrites.WORDS)}"])


def converting(maker):
    """The word of a conversion, or the words of a traced one."""
    return "convert trace" if maker.random() < 0.4 else "convert"


def conversion(maker):
    if maker.random() < 0.7:
        behind = maker.choice(["", "", ",2", " depth 1", " depth 2"])
        return f"{converting(maker)} partial {maker.choice(TARGETS)}{behind}"
    mode = maker.choice(["partial", "partial", "full"])
    return f"{converting(maker)} {mode} {clauses(maker, *parts(maker, NAMES))}"


def parts(maker, names):
    """Three lists of some names, without duplicates."""
    names = maker.sample(names, maker.randrange(1, min(len(names), 12) + 1))
    cuts = sorted(maker.randrange(len(names) + 1) for _ in range(2))
    return names[:cuts[0]], names[cuts[0]:cuts[1]], names[cuts[1]:]


def clauses(maker, legal, illegal, dynamic):
    """The clauses of a target, in any order, with some rules, now and then none, and maybe a depth."""
    lists = {"legal": legal, "illegal": illegal, "dynamic": dynamic}
    words = [f"{word} {','.join(them)}" for word, them in lists.items() if them]
    count = maker.choice([len(RULES)] * 3 + [*range(len(RULES) + 1)])
    words += ["rules " + ",".join(map(str, maker.sample(RULES, count)))] if count else []
    words += [f"depth {maker.choice([1, 2, 3, 4, 16])}"] * (maker.random() < 0.6)
    maker.shuffle(words)
    return " ".join(words)


def fitting(maker, module):
    """A conversion with operations of a module in all three lists: some of those that rules replace are illegal or
    dynamic, and of the others most are legal."""
    names = {op.name.decode() for op in walk(module.root)} | MADE
    names.discard(CAST)
    illegal = set(maker.sample(sorted(ALWAYS & names), maker.randrange(len(ALWAYS & names) + 1)))
    dynamic = set(maker.sample(sorted(REPLACED - illegal), maker.randrange(len(REPLACED - illegal) + 1)))
    if maker.random() < 0.2:
        illegal |= {maker.choice(sorted(names - dynamic))}
    mode = maker.choice(["partial", "full"])
    others = sorted(names - illegal - dynamic)
    left_out = maker.choice([0, 0, 0, 1]) if mode == "full" else maker.randrange(len(others) + 1)
    legal = maker.sample(others, max(0, len(others) - left_out))
    return f"{converting(maker)} {mode} {clauses(maker, legal, sorted(illegal), sorted(dynamic))}"


def conversions(maker, module):
    """A conversion, which fits the module most of the time, and the lines around it."""
    line = fitting(maker, module) if maker.random() < 0.8 else conversion(maker)
    behind = maker.choice([[], ["rollback"], ["report constants"], ["report dead"]])
    return maker.choice([[], [], ["begin"]]) + [line] + behind


def subject(maker, scripter):
    """What a report may be asked about."""
    return f"#{scripter.any_op()}" if maker.random() < 0.5 else value_text(scripter.value())


def line_of(maker, scripter):
    """A line of a script, one of ten with a refusal that it expects, which is the right one now and then."""
    line = plain_line(maker, scripter)
    if maker.random() >= 0.1:
        return line
    often = [22, 23, 20, 60, 21, 24, 25, 26, 42, 50, 51, "HasUses", "BadCommand", "None"]
    return f"expect {maker.choice([*often, *script.REFUSALS])} {line}"


def plain_line(maker, scripter):
    """A line without a conversion; `scripter` makes edits and marks."""
    part = maker.random()
    if maker.random() < 0.25:
        return rewriting(maker)
    if maker.random() < 0.05:
        return counted(maker, pattern_lines.renewed(maker, scripter.run, pattern_lines.registered(maker, scripter.run)))
    if maker.random() < 0.15:
        if scripter.run.book and maker.random() < 0.3:
            return pattern_lines.widely_checked(maker, scripter.run)
        return counted(maker, pattern_lines.renewed(maker, scripter.run, pattern_lines.line_of(maker, scripter.run)))
    if part < 0.62:
        return scripter.edit()
    if part < 0.8:
        return scripter.mark()
    if part < 0.9:
        return maker.choice(ODD)
    if part < 0.98:
        word = maker.choice(["resync", "resync", "resync", "report", "attach"])
        about = f" of {subject(maker, scripter)}" if word == "report" and maker.random() < 0.7 else ""
        return f"{word} {maker.choice(script.BOXES)}{about}"
    return f"{maker.choice(['detach', 'detach', 'attach'])} {maker.choice(script.BOXES)}"
