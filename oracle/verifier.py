"""The verifier's rules V1 to V24."""
from .module import I1, INDEX
from .operations import (BINARY, CONDITION, EXTENSIONS, FOR, FUNC, IF, INDEX_CASTS, MODULE, RETURN, ROWS, WHILE, YIELD,
                         has_kind, is_beyond, is_listed, is_signless, is_T, is_terminator, result_count)

BASIC = (1, 3, 5, 12, 13)
# (what an operation beyond the table doesn't break)
OF_INTEGERS = {2, 4, 14, 18, 19, 20, 24}


def is_memref(ty):
    return ty[0] == "memref"


class Here:
    """An operation with what its rules look at."""

    def __init__(self, module, op, ops, places):
        self.module, self.op, self.ops, self.places = module, op, ops, places
        self.where = places.get(op.id)
        self.parent = self.where and self.where.parent
        self.row = ROWS.get(op.name)
        self.types = [module.type_of(value, ops) for value in op.operands]
        self.is_beyond = is_beyond(op, self.types)

    def at(self, op):
        return Here(self.module, op, self.ops, self.places)


def basic(here):
    """Which of V1, V3, V5, V12 and V13 an operation breaks."""
    op, row, found = here.op, here.row, set()
    if row is None:
        return found
    least, most = row.operands
    if not least <= len(op.operands) <= most:
        found.add(1)
    least, most = result_count(op)
    if not least <= len(op.results) <= most:
        found.add(3)
    if len(op.regions) != row.regions:
        found.add(5)
    if any(key not in op.props for key in row.required):
        found.add(12)
    asked = [(key, attr) for key, attr in op.props.items() if key in row.props]
    if any(not has_kind(key, attr) for key, attr in asked if not (key == b"value" and here.is_beyond)):
        found.add(13)
    return found


def has_bad_operand(here):
    """V2, where the number of operands is right."""
    name, types = here.op.name, here.types
    if name in BINARY or name == b"arith.cmpi":
        return not is_T(types[0]) or types[1] != types[0]
    if name == b"arith.select":
        return types[0] != I1 or types[2] != types[1]
    if name in EXTENSIONS or name == b"arith.trunci":
        return not is_signless(types[0])
    if name in INDEX_CASTS:
        return not is_T(types[0])
    if name == FOR:
        return not is_T(types[0]) or types[1] != types[0] or types[2] != types[0]
    if name in (IF, CONDITION):
        return types[0] != I1
    if name == b"memref.alloc":
        return any(ty != INDEX for ty in types)
    if name == b"memref.dealloc":
        return not is_memref(types[0])
    if name == b"memref.load":
        return not is_memref(types[0]) or any(ty != INDEX for ty in types[1:])
    if name == b"memref.store":
        return not is_memref(types[1]) or any(ty != INDEX for ty in types[2:])
    return False


def has_bad_result(here):
    """V4, where the numbers of operands and results are right."""
    name, types, results = here.op.name, here.types, here.op.results
    if name == b"arith.constant" or name in INDEX_CASTS:
        return not is_T(results[0])
    if name in BINARY:
        return results[0] != types[0]
    if name == b"arith.cmpi":
        return results[0] != I1
    if name == b"arith.select":
        return results[0] != types[1]
    if name in EXTENSIONS or name == b"arith.trunci":
        return not is_signless(results[0])
    if name == FOR:
        return results != types[3:]
    if name == b"memref.alloc":
        return not is_memref(results[0])
    return False


def wanted_arguments(here):
    """The argument types of the block of each region, by the row; none if the row says nothing."""
    op, types = here.op, here.types
    if op.name == MODULE:
        return [[]]
    if op.name == FUNC:
        return [list(op.props[b"function_type"][1][1])]
    if op.name == FOR:
        return [types[:1] + types[3:]]
    if op.name == IF:
        return [[], []]
    if op.name == WHILE:
        return [types, op.results]
    return []


def wanted_last(op, region):
    return CONDITION if op.name == WHILE and region == 0 else YIELD


def is_without_block(here):
    """V6."""
    op = here.op
    wanted = op.regions if op.name in (MODULE, FOR, WHILE) else op.regions[:1] if op.name == IF else []
    return None in wanted


def breaks_function(here):
    """V8: the block of a function is empty or ends in a listed operation that is no terminator."""
    block = here.op.regions[0]
    if block is None:
        return False
    return not block.ops or is_listed(block.ops[-1]) and not is_terminator(block.ops[-1])


def breaks_last(here):
    """V9."""
    op = here.op
    if op.name not in (FOR, IF, WHILE):
        return False
    return any(not block.ops or block.ops[-1].name != wanted_last(op, region)
               for region, block in enumerate(op.regions) if block)


def memref_and_indices(here):
    """The memref that is looked into, how many indices there are, and the type of what is read or written."""
    types = here.types
    if here.op.name == b"memref.load":
        return types[0], len(types) - 1, here.op.results[0]
    return types[1], len(types) - 2, types[0]


def breaks_shape(here):
    """V20."""
    if here.op.name in (b"memref.load", b"memref.store"):
        ty, indices, value = memref_and_indices(here)
        return is_memref(ty) and (indices != len(ty[1]) or value != ty[2])
    if here.op.name == b"memref.alloc":
        ty = here.op.results[0]
        return is_memref(ty) and len(here.types) != sum(dim is None for dim in ty[1])
    return False


def breaks_width(here):
    """V18."""
    if here.op.name not in EXTENSIONS | {b"arith.trunci"}:
        return False
    one, two = here.types[0], here.op.results[0]
    if not (is_signless(one) and is_signless(two)):
        return False
    return one[1] >= two[1] if here.op.name in EXTENSIONS else one[1] <= two[1]


def wanted_of_terminator(here):
    """The types that the parent wants of a terminator's operands, and the rule that says so; none if no rule
    does."""
    op, parent = here.op, here.parent
    if parent is None or not here.where.is_last() or parent.name not in here.row.parents or basic(here.at(parent)):
        return None
    if op.name == RETURN:
        return 15, list(parent.props[b"function_type"][1][2])
    if op.name == CONDITION:
        return 17, parent.results
    if parent.name == WHILE:
        return None if parent.regions[0] is None else (16, parent.regions[0].args)
    return 16, parent.results


def breaks_segments(op):
    """V24."""
    sizes = op.props.get(b"operandSegmentSizes")
    return op.name == b"memref.alloc" and sizes is not None and sizes[2] != (len(op.operands), 0)


def others(here):
    """The rules that are reported only if none of V1, V3, V5, V12 and V13 is broken."""
    op, found = here.op, set()
    if has_bad_operand(here):
        found.add(2)
    if has_bad_result(here):
        found.add(4)
    if is_without_block(here):
        found.add(6)
    if any(block is not None and block.args != wanted for block, wanted in zip(op.regions, wanted_arguments(here))):
        found.add(7)
    if op.name == FUNC and breaks_function(here):
        found.add(8)
    if breaks_last(here):
        found.add(9)
    if op.name == b"arith.constant" and not here.is_beyond and op.props[b"value"][1] != op.results[0]:
        found.add(14)
    wanted = wanted_of_terminator(here) if is_terminator(op) else None
    if wanted and (here.types[1:] if op.name == CONDITION else here.types) != wanted[1]:
        found.add(wanted[0])
    if breaks_width(here):
        found.add(18)
    if op.name in INDEX_CASTS and (here.types + op.results).count(INDEX) != 1:
        found.add(19)
    if breaks_shape(here):
        found.add(20)
    if op.name == IF and op.results and op.regions[1] is None:
        found.add(21)
    visibility = op.props.get(b"sym_visibility", ("str", b"public"))
    if op.name == FUNC and op.regions[0] is None and visibility[1] == b"public":
        found.add(22)
    if breaks_segments(op):
        found.add(24)
    return found - OF_INTEGERS if here.is_beyond else found


def broken(here):
    """The rules that an operation breaks."""
    op, parent, found = here.op, here.parent, basic(here)
    if here.row is None:
        return set()
    if not found:
        found = others(here)
    if is_terminator(op) and parent is not None:
        if not here.where.is_last():
            found.add(10)
        if is_listed(parent) and parent.name not in here.row.parents:
            found.add(11)
    if op.name == FUNC and parent is not None and is_listed(parent) and parent.name != MODULE:
        found.add(23)
    return found


def diagnostics(module):
    """The pairs of an operation and a rule that it breaks, by id and number."""
    ops, places = module.ops(), module.places()
    pairs = [(op.id, rule) for op in ops.values() for rule in broken(Here(module, op, ops, places))]
    return [f"#{op} V{rule}" for op, rule in sorted(pairs)]
