"""Edits an MLIR module in generic form and reads its analyses, through the library or the program `mlir_work`.

    with mlir_work.Session(text) as s:
        for row in s.report("dead"):
            s.erase(row.operation)
        print(s.print())

docs/EMBED.md has a tour."""
from .data import OperationData
from .errors import Error, FormBroken, ModuleRefused, ProcessLost, Refused, SessionClosed, Stays, Unproved
from .handles import BlockHandle, OperationHandle, RegionHandle, UseHandle, ValueHandle
from .library import Library
from .numbers import Cell, Numbers
from .operations import Operation
from .patterns import Checked, Pattern
from .process import Process
from .reader import TableResult, TableRow
from .reply import Reply
from .rewrites import Canonicalized, Fired, Firing, Reason, Rewrite, Traced
from .rows import KINDS, Constant, Dead, Diagnostic, Effect, Row, Symbol, Unreached, Use
from .session import Session
from .values import Argument, Result, Value, after, before, end, quoted, start
from .way import Way

__all__ = ["Argument", "BlockHandle", "Canonicalized", "Cell", "Checked", "Constant", "Dead", "Diagnostic", "Effect",
           "Error", "Fired", "Firing", "FormBroken", "KINDS", "Library", "ModuleRefused", "Numbers", "Operation",
           "OperationData", "OperationHandle", "Pattern", "Process", "ProcessLost", "Reason", "Refused",
           "RegionHandle", "Reply", "Result", "Rewrite", "Row", "Session", "SessionClosed", "Stays", "Symbol",
           "TableResult", "TableRow", "Traced", "Unproved", "Unreached", "Use", "UseHandle", "Value", "ValueHandle",
           "Way", "after", "before", "end", "quoted", "start"]
