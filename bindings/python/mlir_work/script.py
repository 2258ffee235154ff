"""The input of the program: a module, a line `// -----`, and the lines of a script."""
import os
import pathlib
from typing import Iterable, Iterator, List, Tuple, Union

DIVIDER = b"// -----"
BLANKS = b" \t\r"
File = Union[str, os.PathLike[str]]


def joined(module: bytes, script: bytes = b"") -> bytes:
    """Returns the input of a module and a script."""
    return module + (b"" if module.endswith(b"\n") or not module else b"\n") + DIVIDER + b"\n" + script


def has_divider(module: bytes) -> bool:
    """Whether a line of a text ends the module."""
    return DIVIDER in module.split(b"\n")


def parted(text: bytes) -> Tuple[bytes, bytes, int]:
    """Returns the module and the script of an input, and the number of the line at which the script begins."""
    lines = text.split(b"\n")
    if DIVIDER not in lines:
        return text, b"", len(lines) + 1
    place = lines.index(DIVIDER)
    module = b"".join(line + b"\n" for line in lines[:place])
    return module, b"\n".join(lines[place + 1:]), place + 2


def is_text(line: bytes) -> bool:
    """Whether a line is UTF-8."""
    try:
        line.decode()
    except UnicodeDecodeError:
        return False
    return True


def is_counted(line: bytes) -> bool:
    """Whether the program replies to a line: it isn't empty and isn't a comment. A line that isn't UTF-8 is no
    comment."""
    bare = line.strip(BLANKS)
    return not is_text(line) or bool(bare) and not bare.startswith(b"//")


def counted(script: bytes) -> List[Tuple[int, bytes]]:
    """Returns the lines of a script that the program replies to, each with its number in the file, from 1."""
    return [(place, line) for place, line in enumerate(script.split(b"\n"), 1) if is_counted(line)]


def patterns_in(files: Union[File, Iterable[File]]) -> Iterator[bytes]:
    """Yields the patterns of some files, a line each."""
    for file in [files] if isinstance(files, (str, os.PathLike)) else files:
        for _, line in counted(pathlib.Path(file).read_bytes()):
            yield line.strip(BLANKS)
