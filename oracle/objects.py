"""Operations as JSON objects, one a line: what `show` prints, by docs/JSON.md."""
import json

from .module import value_text, walk
from .printing import attr_text, string_text, type_text


def name_text(name):
    """A name or a key as it is printed between quotes."""
    return string_text(name)[1:-1]


def entries(dictionary):
    return {name_text(key): attr_text(it) for key, it in sorted(dictionary.items())}


def object_of(op, where):
    """The object of an operation at its position; the root has none."""
    return {"kind": "operation", "id": f"#{op.id}", "name": name_text(op.name),
            "operands": [value_text(it) for it in op.operands], "results": [type_text(it) for it in op.results],
            "properties": entries(op.props), "attributes": entries(op.attrs),
            "regions": [[type_text(it) for it in block.args] if block else [] for block in op.regions],
            "parent": where and f"#{where.parent.id}", "region": where and where.region,
            "place": where and where.index}


def line_of(op, where):
    # (the keys of a dictionary stay in the order of their bytes)
    found = object_of(op, where)
    return json.dumps({key: found[key] for key in sorted(found)}, ensure_ascii=False, separators=(",", ":")) + "\n"


def lines_from(module, first=None, count=None):
    """The lines of the operations in pre-order, or of at most so many from an operation on."""
    places, ops = module.places(), list(walk(module.root))
    if first is not None:
        begin = [op.id for op in ops].index(first)
        ops = ops[begin:begin + count]
    return "".join(line_of(op, places.get(op.id)) for op in ops)
