#!/usr/bin/env python3
"""Writes docs/layers.svg, the picture of the layers in docs/ARCHITECTURE.md: the crates of crates.txt in their layers,
and which layer uses which, unless that follows from other arrows.

usage: gate/picture.py            at the top of the repository
       gate/picture.py --check    writes nothing; the status is 1 if the picture isn't that of crates.txt"""
import html
import pathlib
import sys

CRATES, PICTURE = pathlib.Path("crates.txt"), pathlib.Path("docs/layers.svg")
WIDTH, EDGE, GAP, LINE, LETTER = 980, 14, 34, 26, 7.3
# The left and right end of each layer, and its purpose. No crate depends on cases, so that layer has no arrows.
LAYERS = {
    "cases": (0, 980, "test programs"),
    "program": (0, 980, "bytes in, bytes out: lines, commands, replies"),
    "rules": (0, 980, "canonicalization, user patterns, conversion: atomic lists of edits"),
    "bench": (0, 540, "edits, marks and rollback; notifies the listeners"),
    "analyses": (560, 980, "listeners: analyses that follow each event"),
    "events": (440, 980, "elementary edits, their inverses, the trait of listeners"),
    "text": (0, 420, "reads and prints the generic form"),
    "module": (440, 930, "the store: operations, values and uses under edits"),
    "trees": (0, 640, "modules as trees, and edits as functions on trees"),
    "tables": (660, 980, "operations and folds"),
    "context": (0, 980, "names, types and attributes by number"),
}
# Layers that have another title in the picture than in crates.txt.
TITLES = {"bench": "rewriter"}
STYLE = """
  .ground { fill: #ffffff } .layer { fill: #f5f7fa; stroke: #c9d1db } .crate { fill: #ffffff; stroke: #d8dee6 }
  text { font: 13px system-ui, sans-serif; fill: #1c2128 } .title { font-weight: 600; font-size: 15px }
  .does { fill: #5b6470 } .name { font: 12px ui-monospace, "DejaVu Sans Mono", Menlo, monospace; fill: #0b4f9c }
  .way { stroke: #7b8794; stroke-width: 1.6 } .head { fill: #7b8794 }
  @media (prefers-color-scheme: dark) {
    .ground { fill: #15171c } .layer { fill: #1d2129; stroke: #3a414d } .crate { fill: #15171c; stroke: #343b46 }
    text { fill: #e2e6ec } .does { fill: #98a2b1 } .name { fill: #8dc0ff }
    .way { stroke: #8a94a3 } .head { fill: #8a94a3 }
  }
"""


def read(text):
    """The crates of each layer, in order, and the layers that each layer uses."""
    layers, on, layer = {}, {}, None
    for line in text.splitlines():
        if line.startswith("# "):
            word = line[2:].partition(":")[0].partition(",")[0]
            layer = word if word in LAYERS else layer
        elif line.strip():
            name, _, below = line.partition("#")[0].partition(":")
            if layer is None:
                sys.exit(f"crates.txt: {name} stands in no layer that has a place here")
            layers.setdefault(layer, []).append(name.split()[0])
            on[name.split()[0]] = below.split()
    owner = {name: layer for layer, names in layers.items() for name in names}
    below = {layer: {owner[it] for name in names for it in on[name] if it in owner} - {layer}
             for layer, names in layers.items()}
    return layers, below


def all_below(layer, below):
    """All layers that a layer uses, also through others."""
    return below[layer].union(*(all_below(it, below) for it in below[layer]))


def arrows(below):
    """For each layer, the used layers that no other used layer uses."""
    return {layer: those - set().union(*(all_below(it, below) for it in those)) for layer, those in below.items()}


class Box:
    """A layer in the picture: its place, and the crates with theirs."""

    def __init__(self, layer, names):
        self.layer, self.names, self.top = layer, [], 0
        self.left, self.right, self.does = LAYERS[layer]
        x, y = self.left + EDGE, 46
        for name in names:
            wide = len(name) * LETTER + 16
            if x + wide > self.right - EDGE:
                x, y = self.left + EDGE, y + LINE + 4
            self.names.append((name, x, y, wide))
            x += wide + 7
        self.height = y + LINE + 10

    @property
    def bottom(self):
        """Where it ends."""
        return self.top + self.height

    def drawn(self):
        """Its elements."""
        title = f'<text class="title" x="{self.left + EDGE}" y="{self.top + 22}">'
        title += f'{TITLES.get(self.layer, self.layer)}</text>'
        does = f'<text class="does" x="{self.left + EDGE}" y="{self.top + 39}">{html.escape(self.does)}</text>'
        yield (f'<rect class="layer" x="{self.left + 1}" y="{self.top}" width="{self.right - self.left - 2}" '
               f'height="{self.height}" rx="8"/>{title}{does}')
        for name, x, y, wide in self.names:
            yield (f'<rect class="crate" x="{x:.1f}" y="{self.top + y}" width="{wide:.1f}" height="{LINE - 3}" rx="5"/>'
                   f'<text class="name" x="{x + 8:.1f}" y="{self.top + y + 16}">{name}</text>')


def ranks(below):
    """The layers by rank, the lowest first: the longest chain of layers below each."""
    depth = {}
    for layer in reversed(LAYERS):
        depth[layer] = 1 + max((depth[it] for it in below.get(layer, ())), default=-1)
    return [[layer for layer in LAYERS if depth[layer] == rank] for rank in range(max(depth.values()) + 1)]


def way(upper, lower, boxes):
    """Where a line from one box down to another passes no third: the middle of the widest such place."""
    between = [box for box in boxes if upper.bottom < box.bottom and box.top < lower.top and box is not lower]
    ends = sorted({end for box in (upper, lower, *between) for end in (box.left, box.right)})
    free = [(left, right) for left, right in zip(ends, ends[1:])
            if all(box.left <= left and right <= box.right for box in (upper, lower))
            and not any(box.left < right and left < box.right for box in between)]
    if not free:
        sys.exit(f"no line leads from {upper.layer} to {lower.layer}: LAYERS is to have another place for one")
    return sum(max(free, key=lambda it: it[1] - it[0])) / 2


def picture(text):
    """The picture of a table of crates."""
    layers, below = read(text)
    boxes, y = {}, 6
    for rank in reversed(ranks(below)):
        here = [Box(layer, layers[layer]) for layer in rank]
        for box in here:
            box.top, box.height = y, max(it.height for it in here)
            boxes[box.layer] = box
        y = here[0].bottom + GAP
    height, found = y - GAP + 6, []
    for layer, those in arrows(below).items():
        for it in sorted(those) if layer != "cases" else ():
            x, top, end = way(boxes[layer], boxes[it], boxes.values()), boxes[layer].bottom, boxes[it].top - 2
            found.append(f'<path class="way" d="M{x:.0f} {top}V{end - 7}"/>'
                         f'<path class="head" d="M{x - 5:.0f} {end - 8}h10l-5 8z"/>')
    for box in boxes.values():
        found += box.drawn()
    return (f'<svg xmlns="http://www.w3.org/2000/svg" viewBox="0 0 {WIDTH} {height}" width="{WIDTH}" height="{height}" '
            f'role="img" aria-label="The layers of crates">\n<style>{STYLE}</style>\n'
            f'<rect class="ground" width="{WIDTH}" height="{height}" rx="8"/>\n' + "\n".join(found) + "\n</svg>\n")


def main():
    if sys.argv[1:] not in ([], ["--check"]):
        sys.exit(__doc__)
    made = picture(CRATES.read_text())
    if not sys.argv[1:]:
        PICTURE.write_text(made)
    elif not PICTURE.exists() or PICTURE.read_text() != made:
        sys.exit(f"{PICTURE} isn't the picture of {CRATES}: gate/picture.py writes it anew")


if __name__ == "__main__":
    main()
