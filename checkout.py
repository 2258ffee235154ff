"""Finds the checkout of a script: `ROOT` is its top folder.

Importing this module puts the top and the folder of the Python package on the import path. A script that is started by
its path imports this module first, and then finds `mlir_work`, `oracle`, `tests`, `benchmarks`, `gate` and `tools`.
Each folder with such scripts has a checkout.py of its own that runs this one."""
import pathlib
import sys

sys.dont_write_bytecode = True
ROOT = pathlib.Path(__file__).resolve().parent
PACKAGE = ROOT / "bindings/python"
sys.path[:0] = [str(it) for it in (ROOT, PACKAGE) if str(it) not in sys.path]
