"""Tests whether a nested module is in the form that `flatten` needs.

F1: a scope has no operands and no results, one region with one block, and no entries but its number, which no other
block has, and `unreachable`. F2: scopes are after all other operations of their block. F3: only the last operation of
a block has successors. F4: a terminator names only blocks whose scopes are children of its own block or of a block
around it, and that are reachable; inside an unreachable scope it may name any block of its region but the entry. F5:
no scope is right in a region of an operation that allows one block.

In this form, each value that is visible at a reachable operation dominates it in the flat module."""
from typing import Dict, Iterator, List, NamedTuple, Set

from .scopes import ONE_BLOCK, ORDER, SCOPE, UNREACHABLE
from .trees import Block, Operation


class Fault(NamedTuple):
    """A condition that doesn't hold, such as `F4`, the operation, and what is wrong with it."""

    condition: str
    operation: Operation
    words: str

    def __str__(self) -> str:
        number = "" if self.operation.number is None else f"#{self.operation.number} "
        return f"{number}{self.operation.quoted}: {self.words} ({self.condition})"


def _shape(scope: Operation) -> Iterator[Fault]:
    """Yields what is wrong with a scope by itself."""
    if scope.operands or scope.result or len(scope.regions) != 1 or len(scope.regions[0]) != 1:
        yield Fault("F1", scope, "a scope has no operands, no results, and one region with a block")
    if scope.order is None:
        yield Fault("F1", scope, f"a scope has a number `{ORDER} = N : i32` above 0")
    if scope.middle or scope.successors is not None or len(scope.entries) != 1 + scope.is_unreachable:
        yield Fault("F1", scope, f"a scope has no entries but `{ORDER}` and `{UNREACHABLE}`")


class _Region:
    """A region, and whether each of its blocks is inside an unreachable scope, by the block's number."""

    def __init__(self, taken: Dict[int, Operation]) -> None:
        self.taken = taken
        self.labels: Dict[int, bool] = {}
        # The numbers that the block at hand sees.
        self.sight: Set[int] = set()
        self.faults: List[Fault] = []

    def gather(self, block: Block, is_unreachable: bool) -> None:
        """Notes the scopes of a block and their numbers, which are unique in the module."""
        for scope in block.scopes:
            wrong = list(_shape(scope))
            order, inside = scope.order, is_unreachable or scope.is_unreachable
            if order is not None and order in self.taken:
                wrong.append(Fault("F1", scope, f"another scope has the number {order} too"))
            elif order is not None:
                self.taken[order], self.labels[order] = scope, inside
            self.faults += wrong
            for it in [it for region in scope.regions for it in region]:
                self.gather(it, inside)

    def look(self, block: Block, is_unreachable: bool) -> None:
        """Tests a block and those in its scopes."""
        children = {it.order for it in block.scopes if it.order is not None} - self.sight
        self.sight |= children
        own, is_behind = block.own, False
        for it in block.operations:
            if it.is_scope:
                is_behind = True
                for inner in [inner for region in it.regions for inner in region]:
                    self.look(inner, is_unreachable or it.is_unreachable)
                continue
            if is_behind:
                self.faults.append(Fault("F2", it, "it is after a scope of its block"))
            self.terminator(it, it is own[-1], is_unreachable)
        self.sight -= children

    def terminator(self, it: Operation, is_last: bool, is_unreachable: bool) -> None:
        """Tests the successors of an operation."""
        if it.fault:
            self.faults.append(Fault("F3", it, it.fault))
        if it.successors is None:
            return
        if not is_last:
            self.faults.append(Fault("F3", it, "it has successors, and isn't the last operation of its block"))
        for number in it.successors:
            if number not in self.labels:
                self.faults.append(Fault("F4", it, f"it names the block {number}, which its region doesn't have"))
            elif not is_unreachable and (number not in self.sight or self.labels[number]):
                self.faults.append(Fault("F4", it, f"it names the block {number}, which its own block doesn't see"))


def faults(root: Operation) -> List[Fault]:
    """Returns what is wrong with the form of a module."""
    found: List[Fault] = []
    taken: Dict[int, Operation] = {}
    coming = [root]
    if root.successors is not None or root.is_scope:
        found.append(Fault("F3", root, f"the root is no `{SCOPE}` and has no successors"))
    while coming:
        operation = coming.pop()
        if operation.name in ONE_BLOCK:
            found += [Fault("F5", operation, "its regions have one block each, but a scope is in one")
                      for region in operation.regions for block in region if block.scopes]
        if not operation.is_scope:
            for blocks in operation.regions:
                region = _Region(taken)
                for block in blocks:
                    region.gather(block, False)
                    region.look(block, False)
                found += region.faults
        coming += [it for region in operation.regions for block in region for it in block.operations]
    return found
