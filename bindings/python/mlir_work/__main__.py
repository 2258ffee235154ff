"""Starts the command line: `python -m mlir_work COMMAND`."""
from .cli.main import start

start()
