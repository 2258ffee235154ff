"""The command line: `python -m mlir_work COMMAND`."""
