"""Nests the blocks of a module's text. It looks at tokens and brackets, and not at types and attributes."""
import bisect
import re
from typing import Dict, List, NamedTuple, Optional, Set, Tuple, Union

from ..errors import ModuleRefused
from . import dominators
from .scopes import NUMBERS, ONE_BLOCK, ORDER, SCOPE, SUCCESSORS, UNREACHABLE
from .tokens import Cursor, Token, unexpected

# How deep regions may be in each other. The program's own limit is lower.
MOST_DEPTH = 200
_NUMBER = re.compile(rb"[0-9]+|0x[0-9a-fA-F]+")


class _Copied(NamedTuple):
    """A part of the text that is copied."""

    start: int
    end: int


class _Written(NamedTuple):
    """New bytes, and the place in the text that a fault in them is about."""

    text: bytes
    at: int


_Piece = Union[_Copied, _Written]


class _Operation:
    """An operation: where it begins, its text in pieces, its name, and the tokens of its results and of the rest. If
    it has a list of successors, `slot` is the place among the pieces for their numbers, and `around` what is written
    before and after them."""

    def __init__(self, start: int) -> None:
        self.start, self.pieces = start, [_Copied(start, start)]  # type: Tuple[int, List[_Piece]]
        self.name, self.results, self.rest = b"", range(0), range(0)
        self.successors: Optional[List[Token]] = None
        self.slot, self.around = 0, (b"", b"")

    def numbered(self, numbers: Dict[bytes, int]) -> List[_Piece]:
        """Returns the pieces with the successors by their numbers."""
        if self.successors is None:
            return self.pieces
        those = ", ".join(str(numbers[it.text]) for it in self.successors)
        entry = f"{SUCCESSORS} = {NUMBERS}: {those}>" if those else f"{SUCCESSORS} = {NUMBERS}>"
        written = _Written(self.around[0] + entry.encode() + self.around[1], self.start)
        return [*self.pieces[:self.slot], written, *self.pieces[self.slot:]]


class _Block:
    """A block: its label, its list of arguments, the names of these, and its operations."""

    def __init__(self, at: int, label: Optional[Token] = None) -> None:
        self.at, self.label = at, label
        self.heading: List[_Piece] = []
        self.arguments: List[bytes] = []
        self.operations: List[_Operation] = []

    @property
    def successors(self) -> List[Token]:
        """The successors of the last operation."""
        return (self.operations[-1].successors or []) if self.operations else []

    def header(self, label: bytes) -> List[_Piece]:
        """Returns the line with a label and the arguments."""
        return [_Written(b"\n" + label, self.at), *self.heading, _Written(b":", self.at)]


class Walk:
    """Goes over the tokens of a text, and builds the nested text in pieces."""

    def __init__(self, text: bytes) -> None:
        self.cursor, self.text = Cursor(text), text
        self.count, self.depth = 0, 0
        self.first_scope: Optional[Token] = None
        self.is_nested = False

    # Operations.

    def module(self) -> List[_Piece]:
        """Returns the pieces of the whole text. Definitions of aliases between operations are copied."""
        found: List[_Piece] = []
        cursor = self.cursor
        while cursor.now.text:
            start = cursor.now.start
            if cursor.begins_operation():
                operation = self.operation()
                if operation.successors is not None:
                    raise ModuleRefused(9, "Successors", operation.start)
                found += operation.pieces
            else:
                while cursor.now.text and not cursor.begins_operation():
                    self.beyond()
                found.append(_Copied(start, cursor.last.end))
            found.append(_Written(b"\n", cursor.last.end))
        if self.is_nested and self.first_scope:
            raise unexpected(self.first_scope)
        return found

    def beyond(self) -> None:
        """Goes past a token, or past a bracket and everything inside it."""
        if self.cursor.now.text in (b"(", b"[", b"{", b"<"):
            self.cursor.skip()
        else:
            self.cursor.step()

    def operation(self) -> _Operation:
        """Reads an operation."""
        cursor = self.cursor
        found, first = _Operation(cursor.now.start), cursor.place
        while cursor.now.sign != b'"':
            if cursor.now.sign not in (b"%", b":", b",", b"=") and not _NUMBER.fullmatch(cursor.now.text):
                raise unexpected(cursor.now)
            cursor.step()
        name = cursor.step()
        found.name, found.results = name.text.strip(b'"'), range(first, cursor.place - 1)
        if found.name.decode("utf-8", "replace") == SCOPE and self.first_scope is None:
            self.first_scope = name
        begins = cursor.place
        if cursor.now.text != b"(":
            raise unexpected(cursor.now)
        cursor.skip()
        start = self.labels(found)
        if cursor.now.text == b"<":
            cursor.skip()
        start = self.regions(found, start)
        start = self.attributes(found, start)
        self.type_of(found, start)
        found.rest = range(begins, cursor.place)
        return found

    def labels(self, found: _Operation) -> int:
        """Reads the list of successors, if there is one. Returns the place from which on the text isn't copied yet."""
        cursor = self.cursor
        if cursor.now.text != b"[":
            return found.start
        found.pieces.append(_Copied(found.start, cursor.step().start))
        found.successors = []
        while cursor.now.text != b"]":
            token = cursor.step()
            if token.sign == b"^":
                found.successors.append(token)
            elif token.text != b",":
                raise unexpected(token)
        return cursor.step().end

    def regions(self, found: _Operation, start: int) -> int:
        """Reads the regions of an operation."""
        cursor = self.cursor
        if cursor.now.text != b"(":
            return start
        cursor.step()
        while True:
            found.pieces.append(_Copied(start, cursor.need(b"{").end))
            found.pieces += self.region(found.name)
            start = cursor.need(b"}").start
            if cursor.now.text != b",":
                break
            cursor.step()
        cursor.need(b")")
        return start

    def attributes(self, found: _Operation, start: int) -> int:
        """Goes past the dictionary of an operation, and notes where the numbers of its successors go."""
        cursor = self.cursor
        if cursor.now.text == b"{":
            opened = cursor.now
            cursor.skip()
            if found.successors is not None:
                found.pieces.append(_Copied(start, opened.end))
                is_empty = not self.text[opened.end:cursor.last.start].strip()
                start, found.around = opened.end, (b"", b"" if is_empty else b", ")
                found.slot = len(found.pieces)
        elif found.successors is not None:
            found.pieces.append(_Copied(start, cursor.last.end))
            start, found.around = cursor.last.end, (b" {", b"}")
            found.slot = len(found.pieces)
        return start

    def type_of(self, found: _Operation, start: int) -> None:
        """Goes past the type of an operation, and past what follows up to the next operation or the end of a block."""
        cursor = self.cursor
        cursor.need(b":")
        while cursor.now.text and cursor.now.sign not in (b"^", b"}") and not cursor.begins_operation():
            self.beyond()
        found.pieces.append(_Copied(start, cursor.last.end))

    # Regions.

    def region(self, name: bytes) -> List[_Piece]:
        """Reads a region up to its closing bracket, and returns its pieces."""
        self.depth += 1
        if self.depth > MOST_DEPTH:
            raise ModuleRefused(10, "TooDeep", self.cursor.now.start)
        blocks = self.blocks()
        self.depth -= 1
        if not blocks:
            return []
        if len(blocks) == 1 and all(it.successors is None for it in blocks[0].operations):
            return self.one_block(blocks[0])
        if name.decode("utf-8", "replace") in ONE_BLOCK and len(blocks) > 1:
            raise ModuleRefused(8, "MultipleBlocks", blocks[1].at)
        self.is_nested = True
        return self.scopes(blocks, _labels(blocks))

    def blocks(self) -> List[_Block]:
        """Reads the blocks of a region."""
        cursor = self.cursor
        blocks: List[_Block] = []
        while cursor.now.text != b"}":
            if cursor.now.sign == b"^":
                blocks.append(self.labelled())
                continue
            if not blocks:
                blocks.append(_Block(cursor.now.start))
            blocks[-1].operations.append(self.operation())
        return blocks

    def labelled(self) -> _Block:
        """Reads the label and the arguments of a block."""
        cursor = self.cursor
        label = cursor.step()
        block = _Block(label.start, label)
        if cursor.now.text == b"(":
            first, start = cursor.place, cursor.now.start
            cursor.skip()
            block.heading.append(_Copied(start, cursor.last.end))
            block.arguments = [it.text for it in cursor.tokens[first:cursor.place] if it.sign == b"%"]
        cursor.need(b":")
        return block

    def one_block(self, block: _Block) -> List[_Piece]:
        """Returns the pieces of a region with one block and no successors."""
        found = block.header(block.label.text) if block.label else []
        for it in block.operations:
            found += [_Written(b"\n", it.start), *it.pieces]
        return [*found, _Written(b"\n", block.at)]

    def scopes(self, blocks: List[_Block], places: Dict[bytes, int]) -> List[_Piece]:
        """Returns the pieces of a region with several blocks: the entry, with the scopes of the others inside it."""
        parents, is_reached = dominators.tree([[places[it.text] for it in block.successors] for block in blocks])
        if not all(is_reached):
            self.hang(blocks, parents, is_reached)
        children: List[List[int]] = [[] for _ in blocks]
        for place in range(1, len(blocks)):
            children[parents[place]].append(place)
        base, self.count = self.count, self.count + len(blocks) - 1
        numbers = {label: base + place for label, place in places.items()}
        found = blocks[0].header(b"^bb0") if blocks[0].label else []
        # Blocks still to write; a block below 0 is the end of a scope.
        coming = [0]
        while coming:
            place = coming.pop()
            if place < 0:
                is_root = is_reached[parents[-place]] and not is_reached[-place]
                entries = f"{ORDER} = {base - place} : i32" + f", {UNREACHABLE}" * is_root
                found.append(_Written(f"\n}}) {{{entries}}} : () -> ()".encode(), blocks[-place].at))
                continue
            if place:
                found += [_Written(f'\n"{SCOPE}"() ({{'.encode(), blocks[place].at), *blocks[place].header(b"^bb0")]
                coming.append(-place)
            for it in blocks[place].operations:
                found += [_Written(b"\n", it.start), *it.numbered(numbers)]
            coming += reversed(children[place])
        return [*found, _Written(b"\n", blocks[0].at)]

    def hang(self, blocks: List[_Block], parents: List[int], is_reached: List[bool]) -> None:
        """Changes the parents of unreachable blocks, in which MLIR allows the use of any value: each is put below the
        deepest block whose values it uses, if these blocks are on one path of the tree."""
        homes, uses = self.homes(blocks), [set() for _ in blocks]  # type: Dict[bytes, int], List[Set[int]]
        for place, block in enumerate(blocks):
            for operation in block.operations:
                uses[place] |= {homes[it.text] for it in self.cursor.tokens[operation.rest.start:operation.rest.stop]
                                if it.text in homes}
        for place, is_it in enumerate(is_reached):
            if is_it:
                continue
            inside = {it for it in range(len(blocks)) if place in dominators.path(parents, it)}
            needed = {it for member in inside for it in uses[member] if it not in inside} | {parents[place]}
            deepest = max(needed, key=lambda it: len(dominators.path(parents, it)))
            if needed <= set(dominators.path(parents, deepest)):
                parents[place] = deepest

    def homes(self, blocks: List[_Block]) -> Dict[bytes, int]:
        """Returns the block of each value of a region, by its name."""
        found = {name: place for place, block in enumerate(blocks) for name in block.arguments}
        for place, block in enumerate(blocks):
            for operation in block.operations:
                names = self.cursor.tokens[operation.results.start:operation.results.stop]
                found.update((it.text, place) for it in names if it.sign == b"%")
        return found


def _labels(blocks: List[_Block]) -> Dict[bytes, int]:
    """Returns the place of each label of a region. Raises ModuleRefused if a label is there twice, or a successor has
    none."""
    found: Dict[bytes, int] = {}
    for place, block in enumerate(blocks):
        if block.label and block.label.text in found:
            raise ModuleRefused(4, "Redefined", block.at)
        if block.label:
            found[block.label.text] = place
    for block in blocks:
        for operation in block.operations:
            for it in operation.successors or []:
                if it.text not in found:
                    raise ModuleRefused(3, "UnknownValue", it.start)
                if not found[it.text] or operation is not block.operations[-1]:
                    raise ModuleRefused(9, "Successors", it.start)
    return found


class Nested(bytes):
    """The text of a module in nested form. `source` is the text that was nested."""

    source: bytes
    _starts: List[int]
    _places: List[Tuple[int, bool]]

    def place(self, at: int) -> int:
        """Returns the place in the source for a place in this text."""
        found = bisect.bisect_right(self._starts, at) - 1
        if found < 0:
            return 0
        place, is_copied = self._places[found]
        return min(place + (at - self._starts[found]) * is_copied, len(self.source))

    def refusal(self, refused: ModuleRefused) -> ModuleRefused:
        """Returns the refusal of this text with its place in the source."""
        return refused if refused.at is None else ModuleRefused(refused.number, refused.word, self.place(refused.at))


def nest(text: bytes) -> Nested:
    """Returns a module in nested form. Regions with one block and no successors are unchanged, except that blanks and
    comments between operations go. Raises ModuleRefused if the text can't be nested: 2 at a token that can't be there,
    3 at a successor without a label, 4 at a label that is there twice, 8 at a second block where the operation allows
    one, 9 at successors that aren't at the end of a block or name the entry."""
    parts: List[bytes] = []
    starts: List[int] = []
    places: List[Tuple[int, bool]] = []
    size = 0
    for piece in Walk(text).module():
        is_copied = isinstance(piece, _Copied)
        part = text[piece.start:piece.end] if isinstance(piece, _Copied) else piece.text
        if not part:
            continue
        starts.append(size)
        places.append((piece.start if isinstance(piece, _Copied) else piece.at, is_copied))
        parts.append(part)
        size += len(part)
    nested = Nested(b"".join(parts))
    nested.source, nested._starts, nested._places = text, starts, places
    return nested
