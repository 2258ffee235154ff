"""What changed between two listings of a module."""
import bisect


def alike(old, new, way=iter):
    """Returns how many lines two listings share from the first on, or by `reversed` from the last on."""
    lines = zip(way(old.texts), way(new.texts), way(old.keys), way(new.keys))
    return next((place for place, (text, other, key, its) in enumerate(lines) if text != other or key != its),
                min(len(old.texts), len(new.texts)))


def in_order(pairs):
    """Returns as many as possible of the pairs of places, each later in both than the one before. The pairs are sorted
    by the first place."""
    if all(it[1] < that[1] for it, that in zip(pairs, pairs[1:])):
        return pairs
    ends, chain, before = [], [], [None] * len(pairs)
    for number, (_, place) in enumerate(pairs):
        at = bisect.bisect_left(ends, place)
        before[number] = chain[at - 1] if at else None
        ends[at:at + 1], chain[at:at + 1] = [place], [number]
    kept, number = [], chain[-1] if chain else None
    while number is not None:
        kept.append(pairs[number])
        number = before[number]
    return kept[::-1]


def margin(line):
    """Returns how far a line is indented."""
    return len(line) - len(line.lstrip(" "))


class Changes:
    """The lines that were removed between two listings, and those that were added, in order. A changed line is both.

    `parts` has a sign and places each, `-` for those of the old listing. Lines that both share at the beginning are
    skipped, and those at the end if values have the same names. Lines are named only if they may differ, or are
    shown."""

    def __init__(self, old, new):
        self.old, self.new, self.parts = old, new, []
        self.is_alike = old.names.are_alike(new.names)
        first = alike(old, new)
        most = min(len(old.texts), len(new.texts)) - first
        last = min(alike(old, new, reversed), most) if self.is_alike else 0
        ends = len(old.texts) - last, len(new.texts) - last
        pairs = self.common(first, *ends)
        differing, was, now = self.differing(pairs), first, first
        for old_place, new_place in [*pairs, ends]:
            if was < old_place or now < new_place:
                self.parts += [("-", range(was, old_place)), ("+", range(now, new_place))]
            was, now = old_place + 1, new_place + 1
            if old_place in differing:
                self.parts += [("-", range(old_place, was)), ("+", range(new_place, now))]

    def common(self, first, old_end, new_end):
        """Returns the places of as many lines as possible that both listings share in one order. A line with another
        indentation is another line."""
        old_keys, new_keys = self.old.keys[first:old_end], self.new.keys[first:new_end]
        both = set(old_keys).intersection(new_keys)
        places = {key: place for place, key in enumerate(new_keys, first) if key in both}
        pairs = [(place, places[key]) for place, key in enumerate(old_keys, first) if key in both]
        return in_order([pair for pair in pairs if margin(self.old.texts[pair[0]]) == margin(self.new.texts[pair[1]])])

    def differing(self, pairs):
        """Returns the old places of the lines that differ."""
        old, new = self.old, self.new
        if self.is_alike:
            pairs = [(was, now) for was, now in pairs if old.texts[was] != new.texts[now]]
        befores, behinds = old.named([was for was, _ in pairs]), new.named([now for _, now in pairs])
        return {was for (was, _), before, behind in zip(pairs, befores, behinds) if before != behind}

    def __len__(self):
        return sum(len(places) for _, places in self.parts)

    def lines(self, most=None):
        """Returns the first lines, or all of them, each after its sign. The name of a symbol is above its lines."""
        parts, left = [], len(self) if most is None else most
        for sign, places in self.parts:
            parts.append((sign, places[:left]))
            left -= len(parts[-1][1])
        shown = {}
        for sign, it in (("-", self.old), ("+", self.new)):
            shown[sign] = iter(it.shown([place for other, places in parts if other == sign for place in places]))
        found, last = [], "#0"
        for sign, places in parts:
            for place, line in zip(places, shown[sign]):
                around = (self.old if sign == "-" else self.new).around(place)
                found += [f"@@ {around}"] * (around != last) + [sign + line]
                last = around
        return found
