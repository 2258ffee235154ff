"""What a crate's code declares: its modules, items and members, and what `use` lines bring."""
from dataclasses import dataclass, field

from renaming.sources import Token, closing, is_word

ITEMS = {"struct": "type", "enum": "type", "trait": "type", "union": "type", "type": "type", "fn": "function",
         "const": "constant", "static": "constant"}


@dataclass
class Type:
    """A type: its kind (struct, enum, trait, type), and its variants, fields and functions by name."""

    kind: str
    variants: set[str] = field(default_factory=set)
    fields: dict[str, tuple[str, ...]] = field(default_factory=dict)
    functions: set[str] = field(default_factory=set)
    methods: set[str] = field(default_factory=set)  # the functions that take `self`
    inherent: set[str] = field(default_factory=set)  # the functions that aren't of a trait


@dataclass
class Leaf:
    """What a `use` line brings: its path, its name here, whether it has `as`, and the tokens of the line."""

    path: tuple[str, ...]
    name: str
    is_aliased: bool
    is_public: bool
    first: int
    end: int


@dataclass
class Module:
    """A module of code: its file, tokens, items by name with their kind, types, and `use` leaves."""

    crate: str
    name: str
    file: str
    tokens: list[Token]
    items: dict[str, str] = field(default_factory=dict)
    types: dict[str, Type] = field(default_factory=dict)
    uses: list[Leaf] = field(default_factory=list)
    bodies: list[tuple[str, str, int, int]] = field(default_factory=list)  # type, function, first token, last token
    impls: dict[str, tuple[str, str]] = field(default_factory=dict)  # TypeTrait: the type and the trait
    traits: dict[int, str] = field(default_factory=dict)  # the trait that a function is of, by its first token


def leaves_of(tokens: list[Token], at: int, path: tuple[str, ...] = ()):
    """Returns the leaves of a `use` tree that begins at a token: path, name and `as`; and where it ends."""
    while True:
        word = tokens[at].text
        if word == "::":
            at += 1
        elif word == "{":
            found, at = [], at + 1
            while tokens[at].text != "}":
                more, at = leaves_of(tokens, at, path)
                found += more
                at += tokens[at].text == ","
            return found, at + 1
        else:
            path = (*path, word) if word != "self" or not path else path
            at += 1
            if at < len(tokens) and tokens[at].text == "as":
                return [(path, tokens[at + 1].text, True)], at + 2
            if at >= len(tokens) or tokens[at].text != "::":
                return [(path, path[-1], False)], at


def skipped_attributes(tokens: list[Token], at: int) -> int:
    while tokens[at].text == "#":
        at += 1 + (tokens[at + 1].text == "!")
        at = closing(tokens, at) + 1
    return at


def parts_of(tokens: list[Token], opens: int, closes: int):
    """Returns the pieces between commas inside brackets, each a list of tokens, without attributes."""
    at, piece, depth, angle = opens + 1, [], 0, 0
    while at < closes:
        if not depth and not piece and tokens[at].text == "#":
            at = skipped_attributes(tokens, at)
            continue
        text = tokens[at].text
        depth += (text in "([{") - (text in ")]}")
        angle += (text == "<") - (text == ">" and tokens[at - 1].text != "-")
        if text == "," and not depth and angle <= 0:
            yield piece
            piece = []
        else:
            piece.append(tokens[at])
        at += 1
    if piece:
        yield piece


def field_of(piece: list[Token]):
    """Returns the name of a field and the words of its type."""
    at = 0
    if len(piece) > 1 and piece[at].text == "pub":
        at += 1
        if piece[at].text == "(":
            at = closing(piece, at) + 1
    if at + 1 < len(piece) and piece[at + 1].text == ":":
        return piece[at].text, tuple(it.text for it in piece[at + 2:])
    return None


def type_at(code: list[Token], at: int, kind: str) -> Type:
    """Returns a type that is declared at its keyword."""
    made, opens = Type(kind), at
    while code[opens].text not in "{(;" and not (code[opens].text == "=" and kind == "type"):
        opens += 1
    if code[opens].text != "{" or kind in ("trait", "type"):
        return made
    for piece in parts_of(code, opens, closing(code, opens)):
        if kind == "enum":
            made.variants.add(piece[0].text)
            if len(piece) > 1 and piece[1].text == "{":
                for inner in parts_of(piece, 1, closing(piece, 1)):
                    it = field_of(inner)
                    if it:
                        made.fields[it[0]] = it[1]
        else:
            it = field_of(piece)
            if it:
                made.fields[it[0]] = it[1]
    return made


def heads_of(code: list[Token], at: int, opens: int) -> tuple[str, str]:
    """Returns the type that an `impl` is of, and its trait or nothing."""
    angle, words, trait = 0, [], ""
    for it in code[at + 1:opens]:
        angle += (it.text == "<") - (it.text == ">")
        if not angle and it.text != ">":
            if it.text in ("for", "where"):
                if it.text == "where":
                    break
                trait, words = words[-1] if words else "", []
            elif is_word(it) and it.text not in ("dyn", "mut"):
                words.append(it.text)
    return words[-1] if words else "", trait


def takes_self(code: list[Token], at: int) -> bool:
    """Whether the parameters of a function begin with `self`. Its name is before the token."""
    while code[at].text != "(":
        at += 1
    return any(it.text == "self" for it in code[at + 1:at + 5] if it.text != ")")


def functions_in(code: list[Token], first: int, last: int, owner: str, module: Module, places: dict[int, int],
                 trait: str = ""):
    """Notes the functions that are between two tokens at one depth."""
    at = first
    while at < last:
        text = code[at].text
        if text == "fn" and is_word(code[at + 1]):
            opens = at + 2
            while code[opens].text not in "{;":
                opens = closing(code, opens) + 1 if code[opens].text in "([" else opens + 1
            closes = closing(code, opens) if code[opens].text == "{" else opens
            name = code[at + 1].text
            module.bodies.append((owner, name, places[code[at].start], places[code[closes].start]))
            if owner:
                made = module.types.setdefault(owner, Type("foreign"))
                made.functions.add(name)
                module.traits[places[code[at].start]] = trait
                if not trait:
                    made.inherent.add(name)
                if takes_self(code, at + 2):
                    made.methods.add(name)
            else:
                module.items.setdefault(name, "function")
            at = closes + 1
        elif text in "([{":
            at = closing(code, at) + 1
        else:
            at += 1


def module_of(crate: str, name: str, file: str, tokens: list[Token]) -> Module:
    """Reads a file of code."""
    module = Module(crate, name, file, tokens)
    places = {it.start: at for at, it in enumerate(tokens)}
    code = [it for it in tokens if it.kind in ("Code", "Literal", "Text")]
    at = 0
    while at < len(code):
        text = code[at].text
        if text == "#":
            at = skipped_attributes(code, at)
            continue
        if text == "use" and not (at and code[at - 1].text == "ghost"):
            found, end = leaves_of(code, at + 1)
            is_public = at > 0 and (code[at - 1].text == "pub" or code[at - 1].text == ")")
            for path, known, aliased in found:
                module.uses.append(Leaf(path, known, aliased, is_public, places[code[at + 1].start],
                                        places[code[end].start]))
            at = end
        elif text == "mod":
            module.items[code[at + 1].text] = "module"
            at += 2
            if code[at].text == "{":
                at = closing(code, at)
        elif text in ("impl", "trait"):
            opens = at
            while code[opens].text != "{":
                opens += 1
            owner, trait = (code[at + 1].text, "") if text == "trait" else heads_of(code, at, opens)
            if trait:
                module.impls[owner + trait] = owner, trait
            if text == "trait":
                module.items[owner] = "type"
                module.types[owner] = Type("trait")
            functions_in(code, opens + 1, closing(code, opens), owner, module, places, trait)
            at = closing(code, opens)
        elif text in ITEMS and is_word(code[at + 1]) and code[at + 1].text not in ("fn", "unsafe", "extern"):
            known = code[at + 1].text
            if text == "fn":
                before = len(module.bodies)
                end = at + 2
                while code[end].text not in "{;":
                    end = closing(code, end) + 1 if code[end].text in "([" else end + 1
                closes = closing(code, end) if code[end].text == "{" else end
                functions_in(code, at, closes, "", module, places)
                assert len(module.bodies) > before
                at = closes
            else:
                module.items[known] = ITEMS[text]
                if ITEMS[text] == "type":
                    old = module.types.get(known)
                    module.types[known] = type_at(code, at, text)
                    if old:
                        module.types[known].functions |= old.functions
                        module.types[known].methods |= old.methods
                        module.types[known].inherent |= old.inherent
                while code[at].text not in "{(;=":
                    at += 1
                at = closing(code, at) if code[at].text in "{(" else at
        elif text in "([{":
            at = closing(code, at)
        at += 1
    return module
