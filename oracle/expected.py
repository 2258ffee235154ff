"""What a refused pattern should have at the refused byte: the sentence of a run with `--explain`, which says what was
found, what was expected and what to do. The text before the byte decides what the grammar expects there."""
import re

TOKEN = re.compile(r'"[ !#-~]*"?|[%^#!@][A-Za-z0-9_$.-]*|[A-Za-z0-9_$.]+|[-=]>|[ !-~]')
MOST_SHOWN, EDGES = 60, " \t\r"
CONDITION = "power_of_two(c), eq(c, d) or another predicate, or narrower(S, T)"
ARROW = "expected `=>`: write NAME OLD => NEW"
TERM = "expected a value, a number or an operation: write %a, 0 or arith.addi(%a, 1)"
CORRECT_BOTH, CORRECT_ONE = "correct the operands or the types", "correct the operand or the types"
# What is expected after a text with such an end.
AFTER_MARKS = [
    (r"^$", "expected a name without a dot: write NAME OLD => NEW"),
    (r"<$", "expected `none`, or a predicate of arith.cmpi, as eq: patterns match no flags"),
    (r"(?::|narrower\()$", "expected a type: write iN, index or a name"),
    (r"-$", "expected digits: write a number, as -1"),
    (r"=$", ARROW),
]
# What operations need, by their names.
OPERANDS = [
    ("arith.cmpi$", f"two operands of one type, and i1 as the result: {CORRECT_BOTH}"),
    ("arith.select$", f"an i1 and two operands of the result's type: {CORRECT_BOTH}"),
    ("arith.ext", f"one operand of a narrower type than the result: {CORRECT_ONE}"),
    ("arith.trunci$", f"one operand of a wider type than the result: {CORRECT_ONE}"),
    ("arith.index_cast", f"one operand, and index as the type of either end: {CORRECT_ONE}"),
    ("", f"two operands of the result's type: {CORRECT_BOTH}"),
]
ALONE = {
    1: "expected a token: remove the byte",
    4: "expected a new name: rename one of the two patterns, or forget the other",
    6: "expected 1 to 128 bits: correct the width",
    7: "expected a number in the range of its type: correct the number, or its type",
    10: "expected at most 3 levels left of `=>`, and 16 right of it: nest less",
    11: "expected fewer: docs/PATTERNS.md has the limits",
    14: "expected UTF-8: save the file as UTF-8",
}


class Place:
    """A byte of a text: the text before it and after its token, without spaces at their ends, and the token."""

    def __init__(self, text, at):
        it = TOKEN.match(text, at)
        whole = it.group() if it else ""
        self.before, self.token, self.is_end = text[:at].strip(EDGES), whole[:MOST_SHOWN], at >= len(text)
        self.after = text[at + len(whole):].strip(EDGES)
        self.is_right, self.is_nested = "=" in self.before, self.before.count("(") > self.before.count(")")
        # (a pattern has `where` only after its arrow; other words with it count too)
        self.has_where = "where" in self.before

    def is_condition(self):
        """Whether a condition may begin here."""
        return self.is_right and self.has_where and not self.is_nested

    def is_in_angles(self):
        """Whether an angle bracket is open."""
        return self.before.count("<") > self.before.count(">") - self.is_right


def after_operation(it):
    """What is expected after the name of an operation."""
    if it.token == "<":
        return "expected `(`: remove `<..>`, since patterns match no flags"
    if it.before.endswith("arith.cmpi"):
        return "expected `<`: write a predicate, as in arith.cmpi<eq>(%a, %b)"
    return "expected `(`: write the operands in parentheses, as in arith.addi(%a, 0)"


def in_parentheses(it):
    """What is expected inside parentheses."""
    if it.before[-1] not in "(,":
        return "expected `,` or `)`: write commas between operands, and close the parentheses"
    if it.token.startswith("%") or "." in it.token or it.has_where:
        return "expected a number or a constant's name, as c: conditions and number functions take no values"
    return TERM


def outside(it):
    """What is expected outside parentheses: on the left, among conditions, or on the right."""
    if not it.is_right:
        return ARROW if "(" in it.before else \
            "expected an operation: begin the left side with one, as arith.addi(%a, 0)"
    if it.has_where:
        if re.search(r"(?:where|,)$", it.before):
            return f"expected a condition: {CONDITION}"
        if it.before.endswith(")"):
            return "expected `,` or the end of the line: conditions are joined by commas, and all must be true"
        return f"expected `(`: a condition is {CONDITION}"
    return TERM if it.before.endswith(">") else "expected `where` or the end of the line: write one term after `=>`"


def unexpected(it):
    """What is expected in place of a token that the grammar doesn't allow."""
    for end, says in AFTER_MARKS:
        if re.search(end, it.before):
            return says
    if "." in re.search(r"[A-Za-z0-9_$.]*\Z", it.before).group():
        return after_operation(it)
    if it.is_in_angles():
        return "expected `>`: close the angle brackets, as in arith.cmpi<eq>(%a, %b)"
    if it.token == "<":
        return "expected iN, index or a name as the type: patterns have no vectors"
    return in_parentheses(it) if it.is_nested else outside(it)


def unknown(it):
    """What is expected in place of an unknown name."""
    if it.token.startswith("%"):
        return "expected a value of the left side: correct the name, or match the value on the left"
    if it.is_condition():
        return f"expected a condition: {CONDITION}"
    if it.after.startswith("("):
        return "expected add, sub, mul, and, or, xor, neg, not, log2 or width: correct the function"
    return "expected a number of the left side: correct the name, or match the number on the left"


def mismatch(it):
    """What is expected in place of operands or a type that don't fit."""
    if it.token.startswith("arith."):
        return "expected " + next(says for name, says in OPERANDS if re.match(name, it.token))
    if it.token in ("true", "false"):
        return "expected a number of the type there: write 1 or 0, since true and false have type i1"
    if it.is_condition():
        return ("expected one number for power_of_two, and two numbers or types for the others: correct the operands")
    if it.after.startswith("("):
        return "expected one number for neg, not, log2 and width, and two for the others: correct the operands"
    return "expected a type that fits each use: correct the types"


def left_out(it):
    """What is expected in place of an operation that patterns can't match."""
    if it.token == "arith.constant":
        return "expected the number of the constant: write it alone, as 0 or c"
    return "expected an operation of arith that folds, as arith.addi: docs/PATTERNS.md lists them"


def sentence(text, number, at):
    """What is found at a byte of a pattern's text that is refused by a number, what is expected, and what to do."""
    it = Place(text, at)
    found = "the end of the text" if it.is_end else f"`{it.token}`" if it.token else "another byte"
    says = {2: unexpected, 3: unknown, 5: mismatch, 13: left_out}.get(number)
    told = says(it) if says else ALONE.get(number, "expected another text: docs/PATTERNS.md says which")
    return f"found {found}, {told}"
