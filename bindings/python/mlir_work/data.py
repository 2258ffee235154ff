"""Operations as dictionaries, with the keys of docs/JSON.md, as JSON, and as lines of text."""
import json
import re
from typing import Dict, List, Optional, Tuple, TypedDict

from .values import key_text, quoted, unescaped

_NAME = re.compile(r"[A-Za-z_][A-Za-z0-9_$.-]*")


class _Keys(TypedDict):
    kind: str
    id: str
    name: str
    operands: List[str]
    results: List[str]
    properties: Dict[str, str]
    attributes: Dict[str, str]
    regions: List[List[str]]
    parent: Optional[str]
    region: Optional[int]
    place: Optional[int]


class OperationData(_Keys, total=False):
    """An operation as JSON has it. `results` are types, and `regions` has for each region the types of the arguments of
    its block. `region` and `place` say where the operation is in `parent`, counted from 0. `line` and `column` are
    there if the session keeps positions, and None for an operation that the text doesn't have."""

    line: Optional[int]
    column: Optional[int]


def data_from(line: str) -> OperationData:
    """Returns the operation of a line that `show` prints. The line has names and keys as they are printed between
    quotes."""
    data: OperationData = json.loads(line)
    data["name"] = unescaped(data["name"])
    data["properties"] = {unescaped(key): it for key, it in data["properties"].items()}
    data["attributes"] = {unescaped(key): it for key, it in data["attributes"].items()}
    return data


def json_line(data: OperationData) -> str:
    """Returns an operation as JSON on one line, in ASCII, with sorted keys."""
    return json.dumps(data, sort_keys=True, separators=(",", ":"))


def _listed(texts: List[str]) -> str:
    return f"({', '.join(texts)})"


def _entries(entries: Dict[str, str], around: Tuple[str, str]) -> List[str]:
    """Returns a dictionary as a part of a line; an empty one has no part."""
    texts = [key_text(key) + (f" = {it}" if it != "unit" else "") for key, it in entries.items()]
    return [around[0] + ", ".join(texts) + around[1]] * bool(entries)


def text_line(data: OperationData) -> str:
    """Returns an operation as one line of text, with the same data as its JSON."""
    name = data["name"] if _NAME.fullmatch(data["name"]) else quoted(data["name"])
    parts = [data["id"], name + _listed(data["operands"])]
    parts += [f"-> {_listed(data['results'])}"] * bool(data["results"])
    parts += _entries(data["properties"], ("<{", "}>")) + _entries(data["attributes"], ("{", "}"))
    parts += [f"regions {' '.join(map(_listed, data['regions']))}"] * bool(data["regions"])
    if data["parent"] is not None:
        parts.append(f"in {data['parent']} region {data['region']} place {data['place']}")
    if data.get("line") is not None:
        parts.append(f"at {data['line']}:{data['column']}")
    return " ".join(parts)
