"""Checks the clauses of a `convert`: their form (60 BadCommand), and their meaning (54 BadTarget).

A fault is its byte offset in the line and a message. docs/CONVERT.md defines targets."""
import re

WORD = re.compile(r"[^ \t]+")
MOST_NUMBER = 4294967295
# The rest of each clause, by its first word.
CLAUSES = {"legal": "NAMES", "illegal": "NAMES", "dynamic": "NAMES", "rules": "NUMBERS", "depth": "N"}
SHOWN = ", ".join(f"`{word} {rest}`" for word, rest in CLAUSES.items())
CAST = "builtin.unrealized_conversion_cast"
RULES = {2, *range(25, 31)}
MOST_DEPTH = 16


def pieces(begin, text):
    """Yields the pieces of a text between its commas, each with the byte at which it begins in the line."""
    for piece in text.split(","):
        yield begin, piece
        begin += len(piece) + 1


def wrong_piece(kind, piece):
    """Returns what is wrong with a name or a number of a clause, or None."""
    if not piece:
        what = "name" if kind == "NAMES" else "number"
        return f"a {what} is missing here: write {what}s with commas between them and no blanks"
    if kind == "NAMES":
        return None
    if not re.fullmatch("[0-9]+", piece):
        return f"`{piece}` is not a number: write digits only"
    return f"{piece} is above {MOST_NUMBER}, the greatest number" if int(piece) > MOST_NUMBER else None


def wrong_rest(kind, begin, text):
    """Returns where the rest of a clause is wrong, and why, or None."""
    if kind == "N" and "," in text:
        return begin + text.index(","), "`depth` has several numbers: write one, as `depth 4`"
    return next(((at, words) for at, piece in pieces(begin, text) if (words := wrong_piece(kind, piece))), None)


def clauses(line, begin):
    """Returns the clauses in a line from a byte on, up to the first fault, and the fault or None. A clause is its word,
    and the byte and the text of its rest."""
    found, words = [], [(it.start(), it.group()) for it in WORD.finditer(line, begin)]
    for (at, word), rest in zip(words[::2], [*words[1::2], None]):
        if word not in CLAUSES:
            return found, (at, f"`{word}` is not a clause: write one of {SHOWN}")
        if word in (it for it, *_ in found):
            return found, (at, f"the clause `{word}` is repeated: write each clause once")
        if rest is None:
            return found, (at + len(word), f"{CLAUSES[word]} is missing: write `{word} {CLAUSES[word]}`")
        fault = wrong_rest(CLAUSES[word], *rest)
        if fault:
            return found, fault
        found.append((word, *rest))
    return found, None


def unfit(line):
    """Returns where the target of a `convert` is wrong, and why, or None."""
    mode = re.match(r"[ \t]*[^ \t]+(?:[ \t]+trace(?=[ \t]))?[ \t]+[^ \t]+", line)
    names, begin = set(), mode.end()
    for word, at, text in clauses(line, begin)[0]:
        for place, piece in pieces(at, text):
            if CLAUSES[word] == "NAMES":
                words = (f"`{piece}` is repeated: name each operation once" if piece in names else
                         "casts are always legal: remove this name" * (piece == CAST))
                names.add(piece)
            elif word == "rules":
                words = f"a `convert` has no rule {piece}: write rules of 2 and 25 to 30" * (int(piece) not in RULES)
            else:
                words = f"depth {piece} is out of range: write 1 to {MOST_DEPTH}" * (not 1 <= int(piece) <= MOST_DEPTH)
            if words:
                return place, words
    return None
