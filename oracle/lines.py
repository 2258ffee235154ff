"""Tables of cases: each case is a call, the lines of a text, and a line that ends the case."""
import pathlib

END = b"====\n"


class Table:
    """Cases, none of them twice."""

    def __init__(self):
        self.cases = {}

    def case(self, call, text, want):
        """Adds a case, with what is printed for it. The text ends with a line feed."""
        self.cases.setdefault(call.encode() + b"\n" + text, want)

    def write(self, crate):
        folder = pathlib.Path("crates") / crate
        (folder / "stdin").write_bytes(b"".join(case + END for case in self.cases))
        (folder / "stdout").write_bytes(b"".join(want + b"\n" + END for want in self.cases.values()))
        print(f"{crate}: {len(self.cases)} cases, {sum(map(len, self.cases))} bytes")
