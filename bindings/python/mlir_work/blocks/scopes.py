"""The words of the nested form, and what a scope must be."""

# The name of a scope, which holds one block.
SCOPE = "cf.block"
# The entry of a terminator that has the numbers of its successors, and its type.
SUCCESSORS, NUMBERS = "cf.successors", "array<i32"
# The entries of a scope: its number, and whether no path leads to its block.
ORDER, UNREACHABLE = "order", "unreachable"
# Operations whose regions have at most one block.
ONE_BLOCK = frozenset(["builtin.module", "scf.for", "scf.forall", "scf.if", "scf.index_switch", "scf.parallel",
                       "scf.reduce", "scf.while"])
# The refusals of a module whose regions have several blocks: MultipleBlocks and Successors.
NESTABLE = frozenset([8, 9])
