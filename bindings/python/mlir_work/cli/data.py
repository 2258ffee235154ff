"""The files that the command line reads: pages of docs/, and the parts of the page for a browser."""
import pathlib

HERE = pathlib.Path(__file__).resolve().parent
# An installed package has PAGES next to this file. A checkout has them in docs/ at its top.
DOCS = HERE / "docs" if (HERE / "docs").is_dir() else HERE.parents[3] / "docs"
WEB = HERE / "web"
PAGES = ("CANONICALIZE.md", "CONVERT.md", "PATTERNS.md", "REFUSALS.md", "REPORTS.md", "VERIFIER.md", "commands.json")
