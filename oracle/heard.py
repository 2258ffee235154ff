"""The events that each command of a script notifies listeners of, written in words that `_` joins."""
from . import edits
from .analyses import unreached_ops
from .module import Module, read_op, value_text, walk
from .script import ALL, LIMIT, Run, cut, cut_key, cut_place, obey, number, op_of, read, split, value_of

WORDS = {"put": "take", "take": "put"}


def place_text(place):
    return f"#{place.parent}_{place.region}_" + ("end" if place.before is None else f"#{place.before}")


def inverse(event):
    word, *rest = event
    if word in WORDS:
        return WORDS[word], *rest
    return word, *rest[:-2], rest[-1], rest[-2]


def text_of_event(event):
    return "_".join(map(str, event))


def text_of_events(events):
    return "".join(" " + text_of_event(event) for event in events)


def standing(module, number):
    """The insertion point just at an operation."""
    where = module.places()[number]
    behind = where.ops()[where.index + 1:]
    return edits.Place(where.parent.id, where.region, behind[0].id if behind else None)


def last_in(module, number):
    """The end of the block where an operation is."""
    place = standing(module, number)
    return edits.Place(place.parent, place.region, None)


def bare_events(word, module, number, fresh):
    """The puts of an operation and those inside it, in pre-order: each is then the last of its block, but for the
    first."""
    ops = list(walk(module.ops()[number]))
    places = [standing(module, number)] + [last_in(module, op.id) for op in ops[1:]]
    return [(word, f"#{op.id}", place_text(place), fresh) for op, place in zip(ops, places)]


def front_of(op, count):
    """An operation with as many of those inside it as so many in pre-order leave, and how many are left."""
    made, count = op.copy(), count - 1
    for region, block in enumerate(made.regions):
        if block is not None:
            kept = []
            for inner in block.ops:
                if count > 0:
                    inner, count = front_of(inner, count)
                    kept.append(inner)
            block.ops[:] = kept
    return made, count


def puts_before_unseen(module, place, tree):
    """The puts of an operation that is refused since something isn't seen, up to the first that sees something not."""
    told = []
    for count in range(1, sum(1 for _ in walk(tree)) + 1):
        tried = Module(module.root.copy(), module.next)
        try:
            edits.insert(tried, place, front_of(tree, count)[0])
        except edits.Refused:
            return told
        told = bare_events("put", tried, tree.id, "fresh")
    return told


class Unsaid(Exception):
    """In which order the uses of a value are set isn't said."""


class Heard(Run):
    """A run that remembers the events, and those since the oldest open mark."""

    def __init__(self, module, boxes=(), commands=ALL, limit=LIMIT):
        super().__init__(module, boxes, commands, limit)
        self.heard, self.journal, self.starts = [], [], []

    def tell(self, events, is_noted=True):
        for event in events:
            self.heard.append(event)
            if is_noted and self.marks:
                self.journal.append(event)

    def tell_back(self, events):
        self.tell([inverse(event) for event in reversed(events)], False)

    # Commands that tell.

    def set_operand(self, text):
        before = self.module
        super().set_operand(text)
        op, place, value = text.split()
        old = before.ops()[op_of(op)].operands[number(place)]
        self.tell([("set", f"#{op_of(op)}", number(place), value_text(old), value_text(value_of(value)))])

    def erase(self, text):
        before = self.module
        super().erase(text)
        self.tell(reversed(bare_events("take", before, op_of(text), "old")))

    def sweep(self, text):
        before = self.module.copy()
        try:
            swept = super().sweep(text)
        except edits.Refused:
            self.tell(self.taken_one_by_one(before), False)
            self.tell_back(self.taken_one_by_one(before))
            raise
        self.tell(self.taken_one_by_one(before))
        return swept

    def taken_one_by_one(self, module):
        """The takes of a sweep: of the last in pre-order first, up to one whose results are used elsewhere."""
        told, tried = [], module.copy()
        unreached = unreached_ops(tried)
        for number in reversed([op.id for op in walk(tried.root) if op.id in unreached]):
            takes = list(reversed(bare_events("take", tried, number, "old")))
            try:
                edits.erase(tried, number)
            except edits.Refused:
                break
            told += takes
        return told

    def replace(self, text):
        old, new = map(value_of, text.split())
        uses = [(op.id, place) for op in walk(self.module.root) for place, value in enumerate(op.operands) if value
                == old]
        if old != new and len(uses) > 1:
            raise Unsaid
        super().replace(text)
        if old != new:
            self.tell([("set", f"#{op}", place, value_text(old), value_text(new)) for op, place in uses])

    def move(self, text):
        before = self.module
        super().move(text)
        op = op_of(cut(text)[0])
        self.tell([("shift", f"#{op}", place_text(standing(before, op)), place_text(standing(self.module, op)))])

    def insert(self, text):
        before = self.module
        try:
            made = super().insert(text)
        except edits.Refused as fault:
            if fault.number == 23:
                words, rest = cut_place(text)
                told = puts_before_unseen(before, edits.resolved(before, words),
                                          read_op(rest.encode("latin-1"), before))
                self.tell(told, False)
                self.tell_back(told)
            raise
        self.tell(bare_events("put", self.module, before.next, "fresh"))
        return made

    def told_entry(self, before, number, key):
        old, new = before.ops()[number], self.module.ops()[number]
        part = "props" if key in old.props or key in new.props else "attrs"
        there = ["some" if key in (op.props if part == "props" else op.attrs) else "none" for op in (old, new)]
        self.tell([("entry", f"#{number}", part, key.decode(), *there)])

    def set_attr(self, text):
        before = self.module
        super().set_attr(text)
        op, rest = cut(text)
        self.told_entry(before, op_of(op), cut_key(rest)[0])

    def drop_attr(self, text):
        before = self.module
        super().drop_attr(text)
        op, rest = cut(text)
        self.told_entry(before, op_of(op), cut_key(rest)[0])

    # Marks.

    def begin(self, text):
        super().begin(text)
        self.starts.append(len(self.journal))

    def close(self):
        start = self.starts.pop()
        undone = self.journal[start:]
        if not self.marks:
            self.journal = []
        return start, undone

    def commit(self, text):
        super().commit(text)
        self.close()

    def rollback(self, text):
        super().rollback(text)
        start, undone = self.close()
        self.journal = self.journal[:start]
        self.tell_back(undone)


def traced(text):
    """A run's status and output, the events, and the journal that is left."""
    text, script = split(text)
    here = Heard(read(text), (), ALL)
    status, out = obey(here, script, True)
    return status, out, here.heard, here.journal
