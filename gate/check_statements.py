#!/usr/bin/env python3
"""Finds duplicates: statements of lemmas (proofs/) and definitions (specs/) that are there more than once, and lemmas
that the library of the kit has. Each is printed with its places, the most frequent first. A statement that is a lemma
of the library is printed with that lemma's import, even if it is there once.

Two statements are equal if they differ only in names of variables, in how binders are grouped or hidden, and in import
aliases. The parameters of modules that a statement uses, and the assumptions about them, are its first binders. Only
statements of a relation are compared (equality, order, equivalence, or a contradiction), since short types are often
equal. Two definitions are equal if type and clauses are.

usage: gate/check_statements.py [--most N] [--most-definitions N] [--library FOLDER] [--brief]

At the top of the repository. The status is 1 if there are more than N duplicate statements, or more duplicate
definitions than the other number. The defaults below are today's counts, and only fall. FOLDER has the library's pages
of lemmas (/opt/rattle/rattle/std/lemmas). If it doesn't exist, nothing is compared with it. With `--brief` only the
last line is printed."""
import argparse
import collections
import pathlib
import re
import sys

MOST, MOST_DEFINITIONS = 60, 35
LIBRARY = pathlib.Path("/opt/rattle/rattle/std/lemmas")
NAME = r"[^\W\d][\w'≢-]*"
WORDS = r"(?:(?:pub|abbrev|unfoldable|private) )*"
DECLARED = re.compile(rf"(\s*){WORDS}({NAME})((?: \{{[^}}]*\}})?) : (.+)")
OPENED = re.compile(r"(\s*)(?:pub |abbrev |unfoldable )*(module \S+|mutual|abbrev mutual)\b(.*)")
USED = re.compile(r"^\s*(?:pub )?use [\w.≡◌-]+\.\{(.*)\}", re.M)
IMPORT = re.compile(r"^Import with `use ([\w.]+)\.\{NAME\}`", re.M)
RELATION = re.compile(r"[≡≢≤<↔⊥]")
DATA = re.compile(r"(Type\b|ℕ$|Bool$|List |Option )")
# What the library calls by another name.
ALIKE = {"nat_lt": "ltb", "nat_le": "leb", "nat_eq": "eqb"}
Said = collections.namedtuple("Said", "name text file line")


def groups(text):
    """The binders at the front of a telescope: names, type, and what follows all of them."""
    found, at = [], 0
    while at < len(text) and text[at] in "({":
        depth, end = 0, at
        for end in range(at, len(text)):
            depth += (text[end] in "({") - (text[end] in ")}")
            if depth == 0:
                break
        names, colon, ty = text[at + 1:end].partition(" : ")
        if not colon or not re.fullmatch(r"[\w'≢-]+(?: [\w'≢-]+)*", names):
            break
        found.append((names.split(), ty))
        at = end + 1
        while text.startswith((" ", "→ "), at):
            at += 1 if text[at] == " " else 2
    return found, text[at:]


def words(text):
    """The names in a text."""
    return set(re.findall(NAME, text))


def with_parameters(modules, text):
    """A statement with the parameters of its modules that it uses, and the assumptions about them, before it."""
    parameters = [(name, ty) for module in modules for names, ty in module for name in names]
    values = {name for name, ty in parameters if not ty.startswith("Type")}
    named, kept = words(text), set()
    while True:
        more = {it for it in parameters if it not in kept and (it[0] in named or words(it[1]) & values & named)}
        if not more:
            break
        kept |= more
        named |= {word for name, ty in more for word in (name, *words(ty))}
    front = "".join(f"({name} : {ty}) " for name, ty in parameters if (name, ty) in kept)
    return f"{front}→ {text}" if front else text


def renamed(text, pairs):
    """A text with other names."""
    return re.sub(rf"(?<![\w.]){NAME}", lambda found: pairs.get(found[0], found[0]), text)


def normal(text, aliases):
    """A statement with variables by number, binders one by one, and names as they were before they were imported."""
    text = renamed(re.sub(r"\s+", " ", text.strip()), aliases)
    number = [0]

    def fresh():
        number[0] += 1
        return f"v{number[0]}"

    def inner(part):
        """A part with all its binders renamed."""
        out, at = "", 0
        while at < len(part):
            found, rest = groups(part[at:]) if part[at] in "({" else ([], part[at:])
            if found:
                pairs, front = {}, ""
                for names, ty in found:
                    ty = inner(renamed(ty, pairs))
                    for name in names:
                        pairs[name] = fresh()
                        front += f"({pairs[name]} : {ty}) "
                end = scope(rest)
                return out + front + "→ " + inner(renamed(rest[:end], pairs)) + inner(rest[end:])
            bound = re.match(r"λ ([\w' ]+)\. ", part[at:])
            if bound:
                pairs = {name: fresh() for name in bound[1].split()}
                rest = part[at + bound.end():]
                end = scope(rest)
                out += "λ " + " ".join(pairs.values()) + ". "
                return out + inner(renamed(rest[:end], pairs)) + inner(rest[end:])
            out, at = out + part[at], at + 1
        return out
    return inner(text)


def scope(text):
    """The end of the contents of a bracket."""
    depth = 0
    for at, sign in enumerate(text):
        depth += (sign in "({[") - (sign in ")}]")
        if depth < 0:
            return at
    return len(text)


def parts(text):
    """The parts between the arrows of a type: its premises, without binders, and its end."""
    found = []
    while text:
        while text.startswith(("→", " ")):
            text = text[1:]
        behind = groups(text)
        if behind[0]:
            text = behind[1]
            continue
        depth, at = 0, 0
        while at < len(text) and (depth or text[at] != "→"):
            depth += (text[at] in "({[") - (text[at] in ")}]")
            at += 1
        found, text = found + [text[:at].strip()], text[at:]
    return found[:-1], found[-1] if found else ""


def loose(text):
    """A statement without its binders: its end, and its premises in an order of their own. One at numbers is like one
    at any type then."""
    premises, end = parts(text)
    ordered = " ; ".join([end, *sorted(premises, key=lambda it: re.sub(r"v\d+", "v", it))])
    number = {name: f"v{place}" for place, name in enumerate(dict.fromkeys(re.findall(r"\bv\d+\b", ordered)))}
    return re.sub(r"\bv\d+\b", lambda it: number[it[0]], ordered)


def is_statement(text):
    """Whether a type says something: it has premises or binders, and ends in a relation."""
    depth, last, had = 0, 0, False
    for at, sign in enumerate(text):
        depth += (sign in "({[") - (sign in ")}]")
        if depth == 0 and sign == "→":
            last, had = at + 1, True
    end = text[last:].strip()
    return had and bool(RELATION.search(end)) and not DATA.match(end)


def declared(file):
    """The declarations of a file: name, type with the parameters that it uses, clauses, and line."""
    lines = file.read_text(errors="replace").split("\n")
    open_modules, at = [], 0  # the indentation of its contents, and its parameters
    while at < len(lines):
        line = lines[at]
        indent = len(line) - len(line.lstrip())
        if not line.strip() or line.lstrip().startswith("--"):
            at += 1
            continue
        while open_modules and indent < open_modules[-1][0]:
            open_modules.pop()
        here = open_modules[-1][0] if open_modules else 0
        opened, said = OPENED.fullmatch(line), DECLARED.fullmatch(line)
        first, at = at, at + 1
        if indent != here:
            continue
        if opened:
            text = opened[3]
            while opened[2].startswith("module") and not re.search(r"\bwhere\s*$", text) and at < len(lines):
                text, at = f"{text} {lines[at].strip()}", at + 1
            open_modules.append((indent + 2, groups(re.sub(r"\bwhere\s*$", "", text).strip())[0]))
        elif said:
            parts = [f"{said[3].strip()} → {said[4]}" if said[3] else said[4]]
            while at < len(lines) and lines[at].strip() and len(lines[at]) - len(lines[at].lstrip()) > indent:
                parts, at = parts + [lines[at].split(" -- ")[0].strip()], at + 1
            clauses = []
            while at < len(lines) and lines[at].strip() and not DECLARED.fullmatch(lines[at]):
                if not (lines[at].lstrip().startswith(said[2]) or len(lines[at]) - len(lines[at].lstrip()) > indent):
                    break
                clauses, at = clauses + [lines[at].strip()], at + 1
            modules = [parameters for _, parameters in open_modules]
            yield said[2], with_parameters(modules, " ".join(parts)), clauses, first + 1


def aliases_of(text, own, number):
    """The original names of a file's imports. A name that the file declares stays apart from those of other files."""
    found = {new: old for used in USED.findall(text) for old, new in re.findall(rf"({NAME}) as ({NAME})", used)}
    return {**found, **{name: f"{name}_in_{number}" for name in own}, **ALIKE}


def imported(text):
    """The names that a file imports."""
    return words(" ".join(USED.findall(text)))


def clause(line, name, known):
    """A clause of a definition with its variables by number."""
    line = renamed(line, {name: "self"})
    left, equals, right = line.partition(" = ")
    variables = [it for it in dict.fromkeys(re.findall(NAME, left)) if it not in known and it != "self"]
    pairs = {it: f"w{number}" for number, it in enumerate(variables)} if equals else {}
    for it in re.findall(r"λ ([\w' ]+)\. ", line):
        pairs.update({bound: f"w{len(pairs)}" for bound in it.split() if bound not in pairs})
    return renamed(line, pairs)


def lemmas():
    """The statements of the repository's lemmas."""
    found = collections.defaultdict(list)
    for number, file in enumerate(sorted(pathlib.Path("crates").glob("*/proofs/**/*.antt"))):
        all_said = list(declared(file))
        own = {name for name, ty, *_ in all_said if not is_statement(ty)}
        aliases = aliases_of(file.read_text(errors="replace"), own, number)
        for name, text, _, line in all_said:
            if is_statement(text):
                found[normal(text, aliases)].append(Said(name, text, file, line))
    return found


def definitions():
    """The definitions of the repository, of types with arguments."""
    found = collections.defaultdict(list)
    for file in sorted(pathlib.Path("crates").glob("*/specs/**/*.antt")):
        text = file.read_text(errors="replace")
        all_said = list(declared(file))
        known = imported(text) | {name for name, *_ in all_said} | {"true", "false"}
        aliases = aliases_of(text, (), 0)
        for name, ty, clauses, line in all_said:
            if clauses and "→" in ty:
                body = " ; ".join(renamed(clause(it, name, known), aliases) for it in clauses)
                found[f"{normal(ty, aliases)} := {body}"].append(Said(name, ty, file, line))
    return found


def library(folder):
    """What the library's lemmas are imported with, by their statements."""
    found = {}
    for page in sorted(folder.glob("**/*.md")):
        text = page.read_text(errors="replace")
        path = IMPORT.search(text)
        for line in text.split("\n") if path else ():
            said = DECLARED.fullmatch(line)
            if said and line.startswith("pub ") and is_statement(said[4]):
                found.setdefault(loose(normal(said[4], ALIKE)), f"{path[1]}.{{{said[2]}}}")
    return found


def show(text, places, lemma=""):
    """Prints a statement with its places."""
    print(f"{len(places)} times: {text[:400]}" + (f"\n    the library: use {lemma}" if lemma else ""))
    for it in places:
        print(f"    {it.name}  {it.file.relative_to('crates')}:{it.line}")


def main():
    as_it_stands = argparse.RawDescriptionHelpFormatter
    reader = argparse.ArgumentParser(description=__doc__, usage=argparse.SUPPRESS, formatter_class=as_it_stands)
    reader.add_argument("--most", type=int, default=MOST)
    reader.add_argument("--most-definitions", type=int, default=MOST_DEFINITIONS)
    reader.add_argument("--library", type=pathlib.Path, default=LIBRARY)
    reader.add_argument("--brief", action="store_true")
    asked = reader.parse_args()
    theirs, said, defined = library(asked.library), lemmas(), definitions()
    by_count = sorted(said.items(), key=lambda it: -len(it[1]))
    twice = [key for key, places in by_count if len(places) > 1]
    held = {key: theirs[loose(key)] for key in said if loose(key) in theirs}
    both = [key for key, places in defined.items() if len({it.file for it in places}) > 1]
    if not asked.brief:
        for key, places in by_count:
            if len(places) > 1 or key in held:
                show(places[0].text, places, held.get(key, ""))
        print()
        for key in sorted(both, key=lambda it: -len(defined[it])):
            show(f"definition : {defined[key][0].text}", defined[key])
    print(f"{sum(map(len, said.values()))} statements of lemmas, {len(twice)} stand more than once, "
          f"{sum(len(said[key]) - 1 for key in twice)} too many; the library has {len(held)} of them, which are "
          f"proved {sum(len(said[key]) for key in held)} times; {len(both)} definitions stand more than once")
    return 1 if len(twice) > asked.most or len(both) > asked.most_definitions else 0


if __name__ == "__main__":
    sys.exit(main())
