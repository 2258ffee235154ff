"""Turns what the program prints of a nested module into regions with several blocks, as mlir-opt prints them."""
import re
from typing import Dict, Iterator, List, Sequence, Tuple

from ..errors import FormBroken
from . import form, trees
from .scopes import SCOPE, SUCCESSORS
from .trees import Block, Operation

_VALUE = re.compile(r"%\w+")
_STRING = re.compile(r'"(?:[^"\\]|\\.)*"')
# A part of an attribute: a string, an arrow, a bracket, or the type that mlir-opt leaves out in lists.
_PART = re.compile(rf"{_STRING.pattern}|->|[()\[\]{{}}<>]|(?<=[0-9]) : i64(?=[],])")
Labels = Dict[int, str]


def is_nested(text: str) -> bool:
    """Whether what the program prints of a module has scopes or numbers of successors."""
    return f'"{SCOPE}"(' in text or SUCCESSORS in text and SUCCESSORS in _STRING.sub("", text)


def _under(block: Block, order: int = 0) -> Iterator[Tuple[int, Block]]:
    """Yields a block and those in its scopes, each with its number."""
    coming = [(order, block)]
    while coming:
        number, it = coming.pop()
        yield number, it
        coming += [(scope.order or 0, scope.regions[0][0]) for scope in it.scopes]


def _flat(blocks: List[Block]) -> List[Block]:
    """Returns the blocks of a region without scopes, in the order of their numbers."""
    found: List[Block] = []
    for number, block in sorted((it for block in blocks for it in _under(block)), key=lambda it: it[0]):
        flat = Block()
        flat.arguments, flat.operations, flat.order = block.arguments, block.own, number
        found.append(flat)
    return found


def _flatten_regions(root: Operation) -> None:
    """Replaces the blocks of each region by those without scopes."""
    coming = [root]
    while coming:
        operation = coming.pop()
        operation.regions = [_flat(region) for region in operation.regions]
        coming += [it for region in operation.regions for block in region for it in block.operations]


def _elided(text: str) -> str:
    """Returns the text of attributes without the types of `i64` numbers that are members of lists. Brackets `<..>` have
    the texts of types and of other attributes, which are unchanged."""
    opened: List[str] = []

    def part(found: "re.Match[str]") -> str:
        if found[0] in ("(", "[", "{", "<"):
            opened.append(found[0])
        elif found[0] in (")", "]", "}", ">") and opened:
            opened.pop()
        elif found[0] == " : i64" and opened[-1:] == ["["] and "<" not in opened:
            return ""
        return found[0]

    return _PART.sub(part, text) if " : i64" in text and "[" in text else text


class _Names:
    """The names of values as mlir-opt gives them in generic form: `%0` and so on for results and for arguments of
    further blocks, and `%arg0` and so on for arguments of entries. A region's values come before those of the regions
    inside it, and the last of these comes first."""

    def __init__(self, root: Operation) -> None:
        self.names: Dict[str, str] = {}
        self.values, self.arguments = 0, 0
        self.result(root)
        coming = list(root.regions)
        while coming:
            region = coming.pop()
            for place, block in enumerate(region):
                for argument in block.arguments:
                    self.argument(argument.name, place == 0)
                for operation in block.operations:
                    self.result(operation)
            coming += [inner for block in region for it in block.operations for inner in it.regions]

    def result(self, operation: Operation) -> None:
        """Names the results of an operation, which share a name."""
        if operation.result:
            self.names[operation.result] = f"%{self.values}"
            self.values += 1

    def argument(self, name: str, is_of_entry: bool) -> None:
        """Names an argument of a block."""
        if is_of_entry:
            self.names[name] = f"%arg{self.arguments}"
            self.arguments += 1
        else:
            self.names[name] = f"%{self.values}"
            self.values += 1

    def renamed(self, operands: str) -> str:
        """Returns a list of operands with the new names."""
        return _VALUE.sub(lambda it: self.names[it[0]], operands)


class _Printer:
    """Prints a flat tree."""

    def __init__(self, root: Operation) -> None:
        self.names, self.lines = _Names(root), []  # type: _Names, List[str]
        self.operation(root, "", {})

    def operation(self, it: Operation, margin: str, labels: Labels) -> None:
        """Adds the lines of an operation."""
        results = f"{self.names.names[it.result]}{':' * bool(it.count)}{it.count} = " if it.result else ""
        those = ", ".join(labels[number] for number in it.successors or [])
        middle = f" <{_elided(it.middle[2:-1])}>" if it.middle else ""
        line = f"{margin}{results}{it.quoted}({self.names.renamed(it.operands)})" + f"[{those}]" * bool(those) + middle
        for place, region in enumerate(it.regions):
            self.lines.append(line + (" ({" if place == 0 else "{"))
            self.region(region, margin)
            line = margin + "}" + (", " if place + 1 < len(it.regions) else ")")
        entries = f" {{{_elided(', '.join(it.entries))}}}" if it.entries else ""
        self.lines.append(line + entries + it.type)

    def region(self, blocks: Sequence[Block], margin: str) -> None:
        """Adds the lines of a region."""
        labels = {block.order: f"^bb{place}" for place, block in enumerate(blocks)}
        predecessors: Dict[int, List[str]] = {block.order: [] for block in blocks}
        for block in blocks:
            for number in (block.operations[-1].successors or []) if block.operations else []:
                predecessors[number].append(labels[block.order])
        for place, block in enumerate(blocks):
            if place or block.arguments or not block.operations:
                names = self.names.names
                those = ", ".join(f"{names[it.name]}: {it.type}" for it in block.arguments)
                about = _comment(predecessors[block.order]) if place else ""
                self.lines.append(f"{margin}{labels[block.order]}" + f"({those})" * bool(those) + ":" + about)
            for it in block.operations:
                self.operation(it, margin + "  ", labels)


def _comment(labels: List[str]) -> str:
    """Returns the comment on the predecessors of a block."""
    if not labels:
        return "  // no predecessors"
    return f"  // pred: {labels[0]}" if len(labels) == 1 else f"  // {len(labels)} preds: {', '.join(labels)}"


def check(text: str, is_numbered: bool = False) -> Operation:
    """Returns the root of a module that `print` shows, or `print ids` if it is numbered. Raises FormBroken if the
    module isn't in the nested form."""
    try:
        root = trees.read(text, is_numbered)
    except ValueError as fault:
        raise FormBroken([str(fault)]) from None
    wrong = form.faults(root)
    if wrong:
        raise FormBroken([str(it) for it in wrong])
    return root


def flatten(text: str, is_numbered: bool = False) -> str:
    """Returns a module that `print` shows, or `print ids` if it is numbered, with its blocks as mlir-opt prints them,
    and without numbers. Raises FormBroken if the module isn't in the nested form."""
    root = check(text, is_numbered)
    _flatten_regions(root)
    return "".join(line + "\n" for line in _Printer(root).lines)
