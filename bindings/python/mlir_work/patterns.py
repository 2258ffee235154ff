"""User patterns (docs/PATTERNS.md), and the results of their checks."""
import re
from typing import Dict, List, NamedTuple, Tuple

from .reply import Reply, lines_of


_CHECKED = re.compile(r"checked (\S+) (holds|empty|fails|unrefuted|refused)(?: (\d+))?.*")


class Pattern(NamedTuple):
    """A defined pattern: its name; its text, from which it can be defined again; and the result of its last check, such
    as `holds`, `holds 8` or `not checked`."""

    name: str
    text: str
    said: str


class Checked(NamedTuple):
    """The result of a check. `verdict` is `holds`, `empty` (the pattern never applies), `fails`, or `unrefuted` if it
    was sampled; in the results of all checks also `refused`. `width` is the width up to which, or at which, it was
    checked, or 0 if it holds at every width or was refused. If it fails, `rows` has a name and an outcome for each
    variable, and for `old` and `new`: an attribute, `poison` or `undefined`."""

    verdict: str
    width: int
    rows: Tuple[Tuple[str, str], ...] = ()

    @property
    def is_right(self) -> bool:
        """Whether no counterexample was found."""
        return self.verdict != "fails"


def patterns_of(text: str) -> List[Pattern]:
    """Returns the patterns that a text lists."""
    found = []
    for line in lines_of(text):
        pattern, _, said = line.partition(" // ")
        found.append(Pattern(pattern.partition(" ")[0], pattern, said))
    return found


def _rows_of(lines: List[str]) -> Tuple[Tuple[str, str], ...]:
    """Returns the rows of a counterexample."""
    return tuple((name, outcome) for name, _, outcome in (line.partition(" ") for line in lines))


def checked_of(reply: Reply) -> Checked:
    """Returns the result of a check from its reply."""
    return Checked(reply.outcome, reply.number or 0, _rows_of(reply.lines))


def all_checked_of(reply: Reply) -> Dict[str, Checked]:
    """Returns the result of each check from the reply to `check all`."""
    found: Dict[str, Checked] = {}
    lines, name = reply.lines, ""
    for line in lines:
        it = _CHECKED.fullmatch(line)
        if it:
            name = it[1]
            width = int(it[3]) if it[3] and it[2] != "refused" else 0
            found[name] = Checked(it[2], width)
        else:
            found[name] = found[name]._replace(rows=found[name].rows + _rows_of([line]))
    return found
