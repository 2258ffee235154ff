"""What a refusal of a command is about, by the table of docs/REFUSALS.md: after `about` come operations, values, types
in quotes, the unsupported construct of a 13, or a sentence on a pattern, as in a run with `--explain`."""
import re

from . import expected
from .edits import all_seen
from .module import printing, value_text, walk
from .parts import Bad, cut, cut_key, cut_place, op_of, value_of

ON_OPERATION = {"erase", "move", "set-operand", "set-attr", "drop-attr"}
# The unsupported construct at the byte of a 13, by the word there.
CAUSES = {"loc": "location", "tensor": "tensor-type", "vector": "vector-type", "complex": "other-type",
          "tuple": "other-type", "none": "other-type", "dense": "dense", "dense_resource": "dense", "sparse": "dense",
          "affine_map": "affine", "affine_set": "affine", "module": "pretty-form"}
FLOAT = re.compile(rb"f32|f64|f16|bf16|tf32|f80|f128|f[864]E.*", re.S)
NAME = re.compile(rb"[A-Za-z0-9_$.]*")
TOLD = re.compile(rb"(?m)^((?:\d+|module) refused \d+ \w+(?: at \d+| #\d+)?) about .*$")


class Named:
    """What a command names: the operation that it is to change, that of a place, and values."""

    def __init__(self, line):
        self.word, rest = cut(line)
        self.subject, self.place, self.old, self.new = None, None, None, None
        if self.word in ON_OPERATION:
            self.subject = op_of(cut(rest)[0])
        if self.word == "apply":
            self.subject = op_of(cut(cut(rest)[1])[0])
        if self.word in ("move", "insert"):
            self.place = cut_place(cut(rest)[1] if self.word == "move" else rest)[0][1]
        if self.word == "replace":
            self.old, self.new = (value_of(it) for it in rest.split())
        if self.word == "set-operand":
            self.new = value_of(rest.split()[2])

    def ops(self):
        """The operations that it names."""
        return [number for number in (self.subject, self.place) if number is not None]

    def values(self):
        """The values that it names."""
        return [value for value in (self.old, self.new) if value is not None]


def text_in(line):
    """The text of an operation or an attribute in a command; None for a command that defines a user pattern."""
    word, rest = cut(line)
    if word == "insert":
        return cut_place(rest)[1]
    return cut_key(cut(rest)[1])[1] if word == "set-attr" else None


def cause_at(text, offset):
    """The cause of a 13 at a byte of a text."""
    rest = text[offset:]
    word = NAME.match(rest).group()
    if rest[:1] in (b"#", b"!"):
        of_dialect = "dialect-attribute" if rest[:1] == b"#" else "dialect-type"
        return of_dialect if b"." in NAME.match(rest, 1).group() else "alias"
    if re.match(rb"[A-Za-z_]", rest):
        if FLOAT.fullmatch(word):
            return "float-type"
        return CAUSES.get(word.decode(), "pretty-form" if b"." in word else "word")
    if re.match(rb"[-+0-9]", rest):
        return "float"
    return {b"@": "symbol", b"\t": "between-lines", b"\n": "between-lines", b"\r": "between-lines",
            b"/": "between-lines"}.get(rest[:1], "other")


def users_outside(module, number):
    """The operations that use a value of an operation, or of one inside it, and are outside it."""
    inside = {op.id for op in walk(module.ops()[number])}
    return [op.id for op in walk(module.root) if op.id not in inside and any(it[1] in inside for it in op.operands)]


def sees(module, number, value):
    """Whether a value would dominate an operation: whether it does as its only operand."""
    tried = module.copy()
    for op in walk(tried.root):
        op.operands = [value] if op.id == number else []
    return all_seen(tried.root)


def typed(module, value):
    """A value with its type."""
    text = printing.type_text(module.type_of(value)).encode()
    return [value_text(value), printing.string_text(text)]


def unseen(module, named):
    """The value that doesn't dominate its uses, and the operations that it doesn't dominate."""
    if named.word == "set-operand":
        return [value_text(named.new), f"#{named.subject}"]
    if named.word != "replace":
        return []
    users = [op.id for op in walk(module.root) if named.old in op.operands]
    return [value_text(named.new)] + [f"#{it}" for it in users if not sees(module, it, named.new)]


def listed(module, number, named):
    """What a refusal with a number is about, where no text is refused."""
    ops = module.ops()
    if number == 20:
        return [f"#{it}" for it in named.ops() if it not in ops]
    if number == 21:
        return [value_text(it) for it in named.values() if module.type_of(it) is None]
    if number == 22:
        return [f"#{it}" for it in users_outside(module, named.subject)] if named.word == "erase" else []
    if number == 23:
        return unseen(module, named)
    if number == 24:
        return [text for value in named.values() for text in typed(module, value)]
    if number == 29:
        return [f"#{it}" for it in named.ops() if it == module.root.id]
    holder = named.subject if named.word == "set-operand" else named.place
    one = {25: holder, 26: named.subject if named.word == "drop-attr" else None,
           31: named.subject if named.word == "set-attr" else None, 33: named.place}
    found = named.ops() if number in (27, 28) else [one.get(number)]
    return [f"#{it}" for it in found if it is not None]


def cause_told(text, number, offset):
    """What follows the refusal of a text."""
    return f" about {cause_at(text, offset)}" if number == 13 else ""


def about_text(text, fault):
    """The same, of a module's."""
    return cause_told(text, fault.number, fault.at)


def about(module, line, number, offset=None):
    """What follows the refusal of a line other than 60."""
    if offset is not None:
        word, rest = cut(line)
        if word in ("pattern", "pattern!"):
            return " about " + printing.string_text(expected.sentence(rest, number, offset).encode())
        text = text_in(line)
        return "" if text is None else cause_told(text.encode("latin-1"), number, offset)
    try:
        found = listed(module, number, Named(line))
    except Bad:  # an order, or one about patterns
        return ""
    return " about " + " ".join(found) if found else ""


def untold(output):
    """An output without what refusals are about."""
    return TOLD.sub(rb"\1", output)


