"""Modules by shape and number of operations, for what is timed: those that `canon` rewrites, those that a conversion
does, each with its command, and those that are swept. Used by rewrites.py and session_times.py."""
OPEN = ('"func.func"() <{function_type = (i32, i32) -> i32, sym_name = "f"}> ({\n'
        '^bb0(%a: i32, %b: i32):\n')
CLOSE = '}) : () -> ()\n'


def body(lines, last):
    return OPEN + "".join(lines) + f'"func.return"({last}) : (i32) -> ()\n' + CLOSE


def added(name, left, right):
    return f'{name} = "arith.addi"({left}, {right}) : (i32, i32) -> i32\n'


def constant(name, value, ty="i32"):
    return f'{name} = "arith.constant"() <{{value = {value} : {ty}}}> : () -> {ty}\n'


def sums_of_sums(n):
    """A sum of arguments, and sums of the last sum and an argument."""
    return [added("%x0", "%a", "%b")] + [added(f"%x{k}", f"%x{k - 1}", "%b") for k in range(1, n)]


def flat(n):
    """Sums of arguments and of sums, each used: no rule applies."""
    return body(sums_of_sums(n), f"%x{n - 1}")


def unlisted(n):
    """Operations that the table doesn't have: no rule applies."""
    return body(['"t.a"(%a, %b) : (i32, i32) -> ()\n' for _ in range(n)], "%a")


def addzero(n):
    """A chain of sums with zero."""
    begun = [constant("%z", 0), added("%x0", "%a", "%z")]
    return body(begun + [added(f"%x{k}", f"%x{k - 1}", "%z") for k in range(1, n)], f"%x{n - 1}")


def foldchain(n):
    """A chain of sums of constants."""
    begun = [constant("%z", 1), added("%x0", "%z", "%z")]
    return body(begun + [added(f"%x{k}", f"%x{k - 1}", "%z") for k in range(1, n)], f"%x{n - 1}")


def deadchain(n):
    """A chain of sums whose last one is unused."""
    return body(sums_of_sums(n), "%a")


def consts(n):
    """Constants that nothing uses."""
    return body([constant(f"%x{k}", k) for k in range(n)], "%a")


def ifs(n):
    """Choices by a constant, side by side, of five operations each."""
    one = ('%x{0} = "scf.if"(%c) ({{\n  %y{0} = "arith.addi"(%a, %b) : (i32, i32) -> i32\n'
           '  "scf.yield"(%y{0}) : (i32) -> ()\n}}, {{\n  "scf.yield"(%b) : (i32) -> ()\n}}) : (i1) -> i32\n'
           '"t.u"(%x{0}) : (i32) -> ()\n')
    return body([constant("%c", 1, "i1")] + [one.format(k) for k in range(n // 5)], "%a")


def nested(n):
    """Choices by a constant, a hundred inside each other."""
    start = '"scf.if"(%c) ({\n'
    end = '"scf.yield"() : () -> ()\n}, {\n}) : (i1) -> ()\n'
    deep = start * 100 + '"t.u"(%a) : (i32) -> ()\n' + end * 100
    return body([constant("%c", 1, "i1")] + [deep for _ in range(max(1, n // 201))], "%a")


CANON = {it.__name__: it for it in (flat, unlisted, addzero, foldchain, deadchain, consts, ifs, nested)}

# What conversions rewrite, each with its command.

LOWER = "convert partial dynamic arith.constant,arith.addi,arith.muli,scf.for,scf.if,scf.yield rules 28,29,30"
EXPAND = "convert partial illegal arith.remsi,arith.subi rules 27,26 depth 2"


def converted(ins, outs, args, lines, last):
    """A function of these types of arguments and results, with these lines and what it returns."""
    types = ", ".join(ins), ", ".join(outs)
    return (f'"func.func"() <{{function_type = ({types[0]}) -> ({types[1]}), sym_name = "f"}}> ({{\n'
            f'^bb0({", ".join(args)}):\n' + "".join(lines)
            + f'"func.return"({last[0]}) : ({last[1]}) -> ()\n}}) : () -> ()\n')


def cast(name, values, ins, out):
    return f'{name} = "builtin.unrealized_conversion_cast"({values}) : ({ins}) -> {out}\n'


def loops(n):
    """Loops over index side by side, of five operations each, with a sum of the counter: all is lowered to i64."""
    one = ('%r{0} = "scf.for"(%l, %u, %s, %l) ({{\n^bb0(%i{0}: index, %x{0}: index):\n'
           '  %y{0} = "arith.addi"(%x{0}, %i{0}) : (index, index) -> index\n'
           '  %z{0} = "arith.muli"(%y{0}, %s) : (index, index) -> index\n'
           '  "scf.yield"(%z{0}) : (index) -> ()\n}}) : (index, index, index, index) -> index\n'
           '"t.u"(%r{0}) : (index) -> ()\n')
    consts = [constant("%l", 0, "index"), constant("%u", 9, "index"), constant("%s", 1, "index")]
    return converted(["i64"], [], ["%a: i64"], consts + [one.format(k) for k in range(max(1, n // 5))], ("", "")), LOWER


def sums(n):
    """A chain of sums of index in one function: each link's casts collapse."""
    lines = [constant("%c", 1, "index"), '%x0 = "arith.addi"(%c, %c) : (index, index) -> index\n']
    lines += [f'%x{k} = "arith.addi"(%x{k - 1}, %c) : (index, index) -> index\n' for k in range(1, n)]
    return converted([], ["index"], [], lines, (f"%x{n - 1}", "index")), LOWER


def remainders(n):
    """Remainders in one function: each becomes a quotient, a product and a difference, and that a sum."""
    lines = [f'%x{k} = "arith.remsi"(%a, %b) : (i32, i32) -> i32\n' for k in range(n)]
    return converted(["i32", "i32"], ["i32"], ["%a: i32", "%b: i32"], lines, ("%a", "i32")), EXPAND


def refused(n):
    """Remainders, and a cast at the end that can't be reconciled: all is taken back."""
    lines = [f'%x{k} = "arith.remsi"(%a, %b) : (i32, i32) -> i32\n' for k in range(n)]
    lines += [cast("%q", "%a", "i32", "i8"), '"t.u"(%q) : (i8) -> ()\n']
    return converted(["i32", "i32"], ["i32"], ["%a: i32", "%b: i32"], lines, ("%a", "i32")), EXPAND


def unused(n):
    """A chain of casts whose last one is unused: each frees the one before it."""
    lines = [cast("%x0", "%a, %a", "i64, i64", "index")]
    lines += [cast(f"%x{k}", f"%x{k - 1}, %a", "index, i64", "index") for k in range(1, n)]
    return converted(["i64"], [], ["%a: i64"], lines, ("", "")), "convert partial"


def back(n):
    """Casts to index and back. Each pair collapses."""
    lines, last = [], "%a"
    for k in range(n // 2):
        lines += [cast(f"%x{k}", last, "i64", "index"), cast(f"%y{k}", f"%x{k}", "index", "i64")]
        last = f"%y{k}"
    return converted(["i64"], ["i64"], ["%a: i64"], lines, (last, "i64")), "convert partial"


CONVERT = {"loops": loops, "sums": sums, "flat": remainders, "refused": refused, "unused": unused, "back": back}

# What is swept.

EMPTY = '"builtin.module"() ({\n^b:\n}) : () -> ()\n'


def function(name, calls, is_private):
    """A function of six operations, which calls another or none."""
    visibility = ', sym_visibility = "private"' if is_private else ""
    last = (f'"func.call"(%y) <{{callee = @{calls}}}> : (i32) -> i32' if calls
            else '"arith.xori"(%y, %x) : (i32, i32) -> i32')
    return (f'"func.func"() <{{function_type = (i32) -> i32, sym_name = "{name}"{visibility}}}> ({{\n^bb0(%a: i32):\n'
            '  %x = "arith.muli"(%a, %a) : (i32, i32) -> i32\n  %y = "arith.addi"(%x, %a) : (i32, i32) -> i32\n'
            f'  %z = {last}\n  "t.u"(%z) : (i32) -> ()\n  "func.return"(%z) : (i32) -> ()\n}}) : () -> ()\n')


def module(functions):
    return '"builtin.module"() ({\n^b:\n' + "".join(functions) + "}) : () -> ()\n"


def halves(n):
    """Private functions. Every second one is called by the one before it, the others by none."""
    count = n // 6
    return module(function(f"s{k}", f"s{k + 2}" if k % 2 == 0 and k + 2 < count else "", k > 0) for k in range(count))


def all_reached(n):
    """A chain of private functions, the first called from outside: nothing is swept."""
    count = n // 6
    return module(function(f"s{k}", f"s{k + 1}" if k + 1 < count else "", k > 0) for k in range(count))


def none_reached(n):
    """A chain of private functions, the first called by none: all is swept."""
    count = n // 6
    return module(function(f"s{k}", f"s{k + 1}" if k + 1 < count else "", True) for k in range(count))


SWEEP = {it.__name__: it for it in (halves, all_reached, none_reached)}
