"""Memory of functions that are run: a buffer of elements for each allocation and each memref argument.

An access out of bounds, through poison, or after the buffer was freed is undefined behaviour. An element that nothing
wrote is poison. Buffers never overlap in part: two memrefs have one buffer or two."""
from .evaluator import Undefined, Unmodelled, is_number

# An allocation of more elements than this isn't modelled, since it may fail; a copy of more isn't made.
MOST_ELEMENTS, MOST_COPIED = 1 << 32, 1 << 16
OPERATIONS = {"alloc", "alloca", "dealloc", "load", "store", "dim", "cast", "copy"}


class Buffer:
    """Elements by their place in row-major order. `fill` gives those that nothing wrote; `place` is the number of the
    argument, if the buffer is one."""
    __slots__ = ("shape", "cells", "fill", "place", "is_live", "is_local")

    def __init__(self, shape, fill=None, place=None, is_local=False):
        self.shape, self.cells, self.fill, self.place = tuple(shape), {}, fill, place
        self.is_live, self.is_local = True, is_local

    def element(self, at):
        """An element, or none if it is poison."""
        if at in self.cells:
            return self.cells[at]
        return self.fill(at) if self.fill else None

    def count(self):
        """How many elements there are."""
        found = 1
        for size in self.shape:
            found *= size
        return found


def usable(buffer, what):
    """A buffer that an operation may access."""
    if buffer is None:
        raise Undefined(f"{what} of a memref that is poison")
    if not buffer.is_live:
        raise Undefined(f"{what} of freed memory")
    return buffer


def found_at(values, buffer, places, what):
    """The place of the element that indices name."""
    at = 0
    for place, size in zip(places, buffer.shape):
        index = values[place]
        if index is None:
            raise Undefined(f"{what} at an index that is poison")
        if index >= size:
            raise Undefined(f"{what} out of bounds")
        at = at * size + index
    return at


def is_modelled(ty):
    """Whether a memref has elements that are numbers."""
    return ty[0] == "memref" and is_number(ty[2])


def memref_of(op, types):
    """The type of the memref that an operation is on, or none if it isn't modelled."""
    word = op.name[7:].decode("utf-8", "replace")
    wanted = {"load": types[:1], "store": types[1:2], "dim": types[:1], "dealloc": types, "alloc": op.results,
              "alloca": op.results, "cast": [*types, *op.results], "copy": types}[word]
    return wanted[0] if wanted and all(map(is_modelled, wanted)) else None


def step(op, operands, results, types, allocated):
    """What runs an operation of memref on the values of its function, or none if it isn't modelled. `allocated` is
    given each new buffer."""
    word = op.name[7:].decode("utf-8", "replace")
    if word not in OPERATIONS:
        return None
    ty = memref_of(op, types)
    if ty is None:
        return None
    if word in ("alloc", "alloca"):
        return allocation(op, ty, operands, results, allocated)
    makers = {"load": load, "store": store, "dim": dimension, "dealloc": deallocation, "cast": cast, "copy": copy}
    return makers[word](op, ty, operands, results)


def load(_op, ty, operands, results):
    memref, *indices = operands
    if len(indices) != len(ty[1]):
        return None

    def run(values):
        buffer = usable(values[memref], "memref.load")
        values[results[0]] = buffer.element(found_at(values, buffer, indices, "memref.load"))
    return run


def store(_op, ty, operands, _results):
    value, memref, *indices = operands
    if len(indices) != len(ty[1]):
        return None

    def run(values):
        buffer = usable(values[memref], "memref.store")
        buffer.cells[found_at(values, buffer, indices, "memref.store")] = values[value]
    return run


def dimension(_op, _ty, operands, results):
    memref, index = operands

    def run(values):
        buffer, at = values[memref], values[index]
        if at is None or buffer is not None and at >= len(buffer.shape):
            raise Undefined("memref.dim of a dimension that isn't there")
        values[results[0]] = None if buffer is None else buffer.shape[at]
    return run


def allocation(op, ty, operands, results, allocated):
    if len(operands) != ty[1].count(None):
        return None
    is_local = op.name == b"memref.alloca"

    def run(values):
        sizes = iter([values[it] for it in operands])
        shape = [next(sizes) if it is None else it for it in ty[1]]
        if None in shape or any(it >> 63 for it in shape):
            raise Undefined("an allocation whose size is negative or poison")
        made = values[results[0]] = Buffer(shape, is_local=is_local)
        if made.count() > MOST_ELEMENTS:
            raise Unmodelled("an allocation that may be too large")
        allocated(made)
    return run


def deallocation(_op, _ty, operands, _results):
    def run(values):
        buffer = usable(values[operands[0]], "memref.dealloc")
        if buffer.is_local:
            raise Undefined("memref.dealloc of a memref.alloca")
        buffer.is_live = False
    return run


def cast(op, _ty, operands, results):
    wanted = op.results[0][1]

    def run(values):
        buffer = values[operands[0]]
        if buffer is not None and (len(buffer.shape) != len(wanted) or any(
                size is not None and size != it for size, it in zip(wanted, buffer.shape))):
            raise Undefined("memref.cast to another shape")
        values[results[0]] = buffer
    return run


def copy(_op, _ty, operands, _results):
    def run(values):
        source, target = (usable(values[it], "memref.copy") for it in operands)
        if source.shape != target.shape:
            raise Undefined("memref.copy between two shapes")
        if source.count() > MOST_COPIED:
            raise Unmodelled("a memref.copy of many elements")
        target.cells.update({at: source.element(at) for at in range(source.count())})
    return run
