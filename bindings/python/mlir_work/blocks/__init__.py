"""Regions with several blocks, held as nested scopes along the dominator tree.

The program reads regions with one block each. `nest` writes each further block of a region as an operation `cf.block`,
a scope, inside the block that immediately dominates it. So a value is visible in the nested module exactly where it
dominates. `flatten` turns what the program prints back into blocks, with the value names of mlir-opt. Both are tested,
not proved. `Session(text, blocks=True)` uses them."""
from .flattening import check, flatten, is_nested
from .nesting import Nested, nest
from .scopes import NESTABLE, SCOPE, SUCCESSORS

__all__ = ["NESTABLE", "Nested", "SCOPE", "SUCCESSORS", "check", "flatten", "is_nested", "nest"]
