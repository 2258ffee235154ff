"""New text of one source: what its paths and words become, as replacements of ranges of bytes."""
import re

from renaming.code import Module
from renaming.logic import Labels, Logic
from renaming.members import head_of
from renaming.paths import Paths
from renaming.sources import Token, closing, is_word

Edit = tuple[int, int, str]
SPAN = re.compile(r"`([A-Za-z_]\w*)`")


def applied(data: bytes, edits: list[Edit]) -> bytes:
    """Returns a text with replacements made. They don't overlap."""
    out, at = [], 0
    for start, end, new in sorted(set(edits)):
        if start < at:
            raise ValueError(f"two renames at byte {start}: {new}")
        out += [data[at:start], new.encode()]
        at = end
    return b"".join([*out, data[at:]])


def new_place(edits: list[Edit], place: int) -> int | None:
    """Returns where a byte of a text is after the replacements, or nothing if it is inside of one."""
    grown = 0
    for start, end, new in sorted(set(edits)):
        if end <= place:
            grown += len(new.encode()) - (end - start)
        elif start < place:
            return None
    return place + grown


def in_comments(data: bytes, mark: str, words: dict[str, str]) -> list[Edit]:
    """Returns the replacements of words in backticks in comments that fill their lines."""
    found, start = [], 0
    for line in data.split(b"\n"):
        if line.strip().startswith(mark.encode()):
            text = line.decode()
            for it in SPAN.finditer(text):
                if it[1] in words:
                    at = start + len(text[:it.start(1)].encode())
                    found.append((at, at + len(it[1].encode()), words[it[1]]))
        start += len(line) + 1
    return found


def owner_at(module: Module, at: int) -> str:
    """Returns the type whose function is around a token."""
    return next((owner for owner, _, first, last in module.bodies if first <= at <= last and owner), "")


def params_at(module: Module, at: int) -> dict[str, str]:
    """Returns the parameters of the function around a token, with the first name of their types."""
    found, tokens = {}, module.tokens
    for _, _, first, last in module.bodies:
        if first <= at <= last:
            for place in range(first, min(last, first + 300)):
                if tokens[place].text == "{" and tokens[place].kind == "Code":
                    break
                if is_word(tokens[place]) and tokens[place + 1].text == ":" and tokens[place].kind == "Code":
                    words = tuple(it.text for it in tokens[place + 2:place + 8])
                    found.setdefault(tokens[place].text, head_of(words))
    return found


class Code:
    """Rewrites a file of code. `labels` gets, by function, which words of it are renamed."""

    def __init__(self, paths: Paths, module: Module, labels: dict | None = None) -> None:
        self.paths, self.module, self.tokens = paths, module, module.tokens
        self.labels = {} if labels is None else labels
        self.edits: list[Edit] = []
        self.words: dict[str, str] = {}
        self.locals: dict[str, str] = {}
        self.left: list[str] = []
        self.lines = {leaf.first: leaf.end for leaf in module.uses}
        self.bound = [(first, last, self.bound_in(first, last)) for _, _, first, last in module.bodies]
        self.declaring = self.variants_declared()

    # ---- what is bound where

    def bound_in(self, first: int, last: int) -> set[str]:
        """Returns the names that parameters, patterns and closures of a function bind."""
        found, tokens = set(), self.tokens
        for at in range(first, last):
            it = tokens[at]
            if not is_word(it) or not it.text[0].islower():
                continue
            before, after = tokens[at - 1].text, tokens[at + 1].text
            if before in (".", "::") or after == "::":
                continue
            if before in ("let", "mut", "ref", "for") or (after == ":" and before in ("(", ",", "|", "mut", "&")):
                found.add(it.text)
            elif before in ("(", ",", "[", "{", "&", "|", ":") and after in (")", ",", "]", "}", "|", "@") \
                    and self.is_pattern(at, last):
                found.add(it.text)
            elif after in ("@", "=>"):
                found.add(it.text)
        return found

    def is_pattern(self, at: int, last: int) -> bool:
        """Whether a word is in a pattern: one of a `let`, of an arm or of a closure."""
        depth = 0
        for place in range(at, min(last, at + 60, len(self.tokens) - 1)):
            text = self.tokens[place].text
            depth += (text in "([{") - (text in ")]}")
            if depth <= 0 and text == "=" and self.tokens[place + 1].text == ">":
                return True
            if depth <= 0 and text in ("=", "=>"):
                return text == "=>" or self.is_let(at)
            if text == ";" or (depth < -3):
                break
        return self.is_closure(at)

    def is_let(self, at: int) -> bool:
        for place in range(at, max(0, at - 60), -1):
            if self.tokens[place].text in ("let", "for"):
                return True
            if self.tokens[place].text in (";", "="):
                return False
        return False

    def is_closure(self, at: int) -> bool:
        return any(it.text == "|" for it in self.tokens[max(0, at - 6):at]) \
            and any(it.text == "|" for it in self.tokens[at:at + 8])

    def bound_at(self, at: int) -> set[str]:
        found: set[str] = set()
        for first, last, names in self.bound:
            if first <= at <= last:
                found |= names
        return found

    def owner_at(self, at: int) -> str:
        return owner_at(self.module, at)

    def variants_declared(self) -> dict[int, tuple[str, str]]:
        """Returns the places at which variants of an `enum` are declared."""
        found, tokens = {}, self.tokens
        for at, it in enumerate(tokens):
            if it.kind == "Code" and it.text == "enum" and is_word(tokens[at + 1]):
                opens = at
                while tokens[opens].text != "{" or tokens[opens].kind != "Code":
                    opens += 1
                depth, fresh = 0, True
                for place in range(opens, closing(tokens, opens)):
                    text = tokens[place].text
                    if depth == 1 and fresh and is_word(tokens[place]) and text[0].isupper():
                        found[place] = tokens[at + 1].text, text
                        fresh = False
                    depth += (text in ("(", "[", "{")) - (text in (")", "]", "}"))
                    if depth == 1 and text == ",":
                        fresh = True
        return found

    # ---- all

    def all(self) -> list[Edit]:
        """Returns all replacements."""
        in_use: set[int] = set()
        for first, end in self.lines.items():
            self.use_line(first, end)
            in_use |= set(range(first - 1, end + 1))
        for at, it in enumerate(self.tokens):
            if at in in_use or not is_word(it) or self.is_cycle(at):
                continue
            before = self.tokens[at - 1].text if at else ""
            if at in self.declaring:
                self.declared(at)
            elif before == ".":
                self.after_dot(at)
            elif before != "::":
                self.path_at(at)
        self.clauses()
        self.twice()
        return sorted(set(self.edits))

    def is_cycle(self, at: int) -> bool:
        """Whether a word is the name of a cycle of calls in `#[cycle(NAME)]`, which its folder of proofs has."""
        return [it.text for it in self.tokens[max(0, at - 4):at]] == ["#", "[", "cycle", "("]

    def twice(self) -> None:
        """Says which two things the file would know by one name."""
        known: dict[tuple[str, bool], set] = {}
        for name in {*self.module.items, *(it.name for it in self.module.uses)}:
            for is_inner in (False, True):
                thing = self.paths.tree.in_scope(self.module, name, is_inner)
                if thing and (thing[0] in ("module", "type")) == is_inner:
                    new = self.paths.local(self.module, name, is_inner)
                    known.setdefault((new, is_inner), set()).add((name, thing))
        for (new, _), found in known.items():
            if len(found) > 1:
                names = " and ".join(sorted(name for name, _ in found))
                self.left.append(f"{names} are both {new}")

    def note(self, at: int, old: str, new: str) -> None:
        """Notes that a function has a word under another name: labels of its goals follow it, but not its own name."""
        if self.tokens[at - 1].text == "fn":
            return
        for _, name, first, last in self.module.bodies:
            if first <= at <= last:
                made = self.labels.setdefault((self.module.crate, self.module.name, name), Labels())
                made.words[old] = new
                made.bound |= self.bound_at(at)

    def replace(self, at: int, new: str) -> None:
        it = self.tokens[at]
        if it.text != new:
            self.edits.append((it.start, it.end, new))
            self.note(at, it.text, new)
            self.words.setdefault(it.text, new)

    def declared(self, at: int) -> None:
        owner, name = self.declaring[at]
        self.replace(at, self.paths.last(("member", self.module.crate, self.module.name, owner, name)))

    def after_dot(self, at: int) -> None:
        """A method."""
        name = self.tokens[at].text
        if self.tokens[at + 1].text in ("(", "::"):
            if name in self.paths.members.methods:
                new = self.paths.members.method(self.module, at, self.owner_at(at), self.params_at(at))
                if new is None:
                    self.left.append(f"method .{name}( at byte {self.tokens[at].start}")
                else:
                    self.replace(at, new)

    def params_at(self, at: int) -> dict[str, str]:
        return params_at(self.module, at)

    def words_from(self, at: int) -> list[int]:
        """Returns the places of the words of a path that begins at a token."""
        words = [at]
        while at + 2 < len(self.tokens) and self.tokens[at + 1].text == "::" and is_word(self.tokens[at + 2]):
            at += 2
            words.append(at)
        return words

    def path_at(self, at: int) -> None:
        """Renames in a path of code or, in an attribute of a tactic, of logic."""
        places = self.words_from(at)
        path = tuple(self.tokens[it].text for it in places)
        before, after = self.tokens[at - 1].text if at else "", self.tokens[places[-1] + 1].text \
            if places[-1] + 1 < len(self.tokens) else ""
        if len(path) > 1:
            if path[1] in ("specs", "proofs"):
                new = self.tactic_path(path)
            elif path[0] == "Self" or self.paths.tree.in_scope(self.module, path[0], True) is None:
                new = self.self_path(at, path)
            else:
                new = self.paths.code(self.module, path)
            self.put(places, new)
        elif before == "fn":
            self.function_named(at)
        elif self.local(path[0]) != path[0] and (path[0][0].isupper() or self.is_function(at, before, after)):
            self.replace(at, self.local(path[0]))

    def local(self, name: str) -> str:
        """Returns the new name of what the file knows by a name."""
        if name not in self.locals:
            self.locals[name] = self.paths.local(self.module, name)
        return self.locals[name]

    def is_function(self, at: int, before: str, after: str) -> bool:
        """Whether a word is a call of a function, or the function as a value."""
        name = self.tokens[at].text
        if after in ("!", ":") or before in ("mod", "'"):
            return False
        if self.tokens[at].text in self.bound_at(at):
            return after == "(" and not self.is_pattern(at, at + 60)
        return True

    def function_named(self, at: int) -> None:
        name, owner = self.tokens[at].text, self.owner_at(at)
        if not owner:
            self.replace(at, self.paths.local(self.module, name))
            return
        trait = self.module.traits.get(at - 1, "")
        thing = self.paths.tree.in_scope(self.module, trait or owner)
        self.replace(at, self.paths.last(("member", *thing[1:], name)) if thing and thing[0] == "type" else name)

    def self_path(self, at: int, path: tuple[str, ...]) -> tuple[str, ...]:
        """Returns a path that begins with `Self` or with a type parameter, which is its trait here."""
        name = self.owner_at(at) if path[0] == "Self" else path[0]
        thing = self.paths.members.named(self.module, name, path[1])
        if thing is None or thing[0] != "type":
            return path
        return (path[0], self.paths.members.new_of(thing, path[1]), *path[2:])

    def tactic_path(self, path: tuple[str, ...]) -> tuple[str, ...]:
        crate = self.module.crate if path[0] == "crate" else path[0]
        if crate not in self.paths.tree.crates:
            return path
        new = self.paths.logic(("Rattle", crate, *path[1:]))
        is_own = new[1] == self.paths.names.crate(self.module.crate)
        return ("crate" if is_own else new[1], *new[2:])

    def put(self, places: list[int], new: tuple[str, ...]) -> None:
        """Gives a path its new words."""
        if len(new) == len(places):
            for at, word in zip(places, new):
                self.replace(at, word)
        else:
            self.edits.append((self.tokens[places[0]].start, self.tokens[places[-1]].end, "::".join(new)))
            for at, word in zip(places[::-1], new[::-1]):
                if self.tokens[at].text != word:
                    self.note(at, self.tokens[at].text, word)

    def use_line(self, first: int, end: int) -> None:
        """Rewrites a `use` line: one line for each path before the last word, if they differ."""
        leaves = [it for it in self.module.uses if it.first == first]
        made: dict[tuple[str, ...], list[str]] = {}
        changed = False
        for leaf in leaves:
            new = self.paths.code(self.module, leaf.path, True)
            known = self.paths.handed_name(self.module, leaf)
            changed |= new != leaf.path or known != leaf.name
            last = new[-1] if new[-1] == known else f"{new[-1]} as {known}"
            made.setdefault(new[:-1], []).append(last)
            if known != leaf.name:
                self.words[leaf.name] = known
        if not changed:
            return
        tokens = self.tokens
        start = first - 1
        while start and tokens[start - 1].text in ("pub", "(", ")", "crate", "in") and tokens[start - 1].kind == "Code":
            start -= 1
        head = " ".join(it.text for it in tokens[start:first]).replace("pub ( crate )", "pub(crate)")
        lines = []
        for path, names in made.items():
            inside = names[0] if len(names) == 1 else "{" + ", ".join(names) + "}"
            lines.append(f"{head} {'::'.join([*path, inside])};")
        self.edits.append((tokens[start].start, tokens[end].end, "\n".join(lines)))

    # ---- clauses

    def clauses(self) -> None:
        """Renames in clauses and `ghost use` lines."""
        logic = Logic(self.paths, self.module.crate, "specs", "", [it for it in self.tokens if it.kind == "Antt"])
        places = {it.start: at for at, it in enumerate(self.tokens)}

        def is_hidden(it: Token, name: str) -> bool:
            return name in self.bound_at(places[it.start])

        self.edits += logic.all(is_hidden)
        self.left += logic.left
        for old, new in logic.words.items():
            self.words.setdefault(old, new)
