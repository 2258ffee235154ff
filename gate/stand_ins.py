#!/usr/bin/env python3
"""stand_ins.py CHECKOUT POOL [NAME..]: stub libraries for the crates below NAME (none: for all crates).

A stub has a crate's types, contracts and definitions, and the lemmas that other crates name. The bodies of its
functions are a false contract of C. A stub builds within a minute or two, so a crate can be checked before the crates
below it are proved. Such a check assumes that the crates below keep their contracts. It is no verdict.

    stand_ins.py CHECKOUT POOL --check NAME [WORD..]    `rattle check` of a crate over stubs; what it keeps is in
                                                        crates/NAME/out/inc. WORD.. go to rattle: --only PATH, ..
    stand_ins.py CHECKOUT POOL --build NAME [WORD..]    `rattle build`, likewise

POOL keeps libraries by the checksum of all that they were made of. -j N: so many at once (4)."""
import collections
import concurrent.futures
import fcntl
import functools
import glob
import hashlib
import json
import os
import re
import shutil
import subprocess
import sys
import time

KIT = "/opt/rattle"
RATTLE = f"{KIT}/bin/rattle"
ABSURD = """
unsafe extern "C" {
    pub(crate) safe fn absurd_here() -> bool
        ensures absurd { ⊥ };
}
"""
BODY = "{\n    crate::absurd_here();\n    unreachable!()\n}"
LEMMAS = re.compile(r"Rattle\.(\w+)\.proofs((?:\.\w+)+)")
USING = re.compile(r"(\w+)::proofs((?:::\w+)+)")  # in the attribute of a tactic
TEST = re.compile(r"\[(test|cfg\(test\))")
LISTED = re.compile(r"(?:pub )?mod (\w+)")

Token = collections.namedtuple("Token", "start end kind text")
# A function with a body: its name, the words before it, the places of its first token and of its body's ends, and
# whether its crate alone can call it.
Function = collections.namedtuple("Function", "name words first opens closes is_own")


def text_of(file):
    with open(file, encoding="utf-8") as it:
        return it.read()


def table(checkout):
    """The crates of a checkout, each with what it uses."""
    found = {}
    for line in text_of(f"{checkout}/crates.txt").splitlines():
        head, _, uses = line.partition("#")[0].partition(":")
        if head.strip():
            found[head.split()[0]] = uses.split()
    return found


# ---- the parts of a source


def tokens_of(files):
    """The tokens of each file, without comments."""
    said = subprocess.run([RATTLE, "fmt", "--tokens", *files], capture_output=True, check=True).stdout
    found = []
    for line in said.decode().splitlines():
        if line.startswith("file "):
            found.append([])
        else:
            _, start, end, kind, text = line.split(" ", 4)
            found[-1].append(Token(int(start), int(end), kind, json.loads(text)))
    return found


def closing(tokens, at, pair):
    """The position of the closing bracket of an opening one."""
    depth = 0
    for place in range(at, len(tokens)):
        if tokens[place].kind == "Code" and tokens[place].text in pair:
            depth += 1 if tokens[place].text == pair[0] else -1
            if not depth:
                return place
    raise ValueError(f"{pair} isn't closed")


def opening(tokens, at, pair):
    """The position of the opening bracket of a closing one."""
    depth = 0
    for place in range(at, -1, -1):
        depth += {pair[1]: 1, pair[0]: -1}.get(tokens[place].text, 0)
        if not depth:
            return place
    raise ValueError(f"{pair} isn't opened")


def front_of(tokens, at):
    """Where an item begins, with its attributes; and the words before its keyword."""
    words = []
    while at and tokens[at - 1].kind in ("Code", "Literal"):
        before = tokens[at - 1]
        if before.text in ("pub", "const", "unsafe", "extern", "safe") or before.kind == "Literal":
            words.append(before.text)
            at -= 1
        elif before.text == ")" and tokens[opening(tokens, at - 1, "()") - 1].text == "pub":
            words.append("(")
            at = opening(tokens, at - 1, "()")
        elif before.text == "]" and tokens[opening(tokens, at - 1, "[]") - 1].text == "#":
            opens = opening(tokens, at - 1, "[]")
            words.append("".join(it.text for it in tokens[opens:at]))
            at = opens - 1
        else:
            break
    return at, words


def body_of(tokens, at):
    """The position at which a function's body opens, or of the `;` in its place."""
    depth = 0
    while True:
        it = tokens[at]
        if it.kind == "Code":
            depth += {"(": 1, "[": 1, ")": -1, "]": -1}.get(it.text, 0)
            if not depth and it.text in "{;":
                return at
        at += 1


def traits_of(tokens):
    """The positions inside a trait or an impl of one."""
    found = set()
    for at, it in enumerate(tokens):
        if it.kind == "Code" and it.text in ("impl", "trait"):
            opens = at
            while not (tokens[opens].kind == "Code" and tokens[opens].text in "{;"):
                opens += 1
            head = [it.text for it in tokens[at:opens]]
            if tokens[opens].text == "{" and "fn" not in head and (it.text == "trait" or "for" in head):
                found |= set(range(opens, closing(tokens, opens, "{}")))
    return found


def functions_of(tokens):
    """The functions that have a body."""
    found, at, in_traits = [], 0, traits_of(tokens)
    while at < len(tokens):
        it = tokens[at]
        if it.kind == "Code" and it.text == "fn" and re.fullmatch(r"\w+", tokens[at + 1].text):
            first, words = front_of(tokens, at)
            opens = body_of(tokens, at + 1)
            if tokens[opens].text == "{":
                closes = closing(tokens, opens, "{}")
                is_own = "pub" not in words and at not in in_traits
                found.append(Function(tokens[at + 1].text, words, first, opens, closes, is_own))
                opens = closes
            at = opens
        at += 1
    return found


def uses_of(tokens):
    """The `use` items of code: where each begins, has its word and ends, and whether it is public."""
    for at, it in enumerate(tokens):
        if it.kind == "Code" and it.text == "use":
            end = at
            while tokens[end].text != ";":
                end += 1
            first, words = front_of(tokens, at)
            yield first, at, end, "pub" in words


def leaves(tokens, at=0, path=()):
    """What a `use` item brings: each path, and the name that it is known by; and where that ends."""
    while True:
        word = tokens[at].text
        if word == ":":
            at += 1
            continue
        if word == "{":
            found, at = [], at + 1
            while tokens[at].text != "}":
                more, at = leaves(tokens, at, path)
                found += more
                at += tokens[at].text == ","
            return found, at + 1
        path = (*path, word) if word != "self" or not path else path
        at += 1
        if at >= len(tokens) or tokens[at].text in ",};":
            return [(path, path[-1])], at
        if tokens[at].text == "as":
            return [(path, tokens[at + 1].text)], at + 2


# ---- the stub of a source


def words_in(texts):
    return {word for text in texts for word in re.findall(r"\w+", text)}


def named_words(folder, read):
    """The words of a crate's definitions, lemmas and clauses, and of its constants: what they name isn't left out."""
    files = glob.glob(f"{folder}/specs/**/*.antt", recursive=True) + glob.glob(f"{folder}/proofs/*.antt")
    found = words_in(text_of(file) for file in files)
    for tokens in read.values():
        found |= words_in(it.text for it in tokens if it.kind in ("Antt", "Head"))
        for at, it in enumerate(tokens):
            if it.kind == "Code" and it.text in ("const", "static") and tokens[at + 1].text != "fn":
                end = at
                while tokens[end].text not in (";", "{", ">"):
                    end += 1
                found |= {it.text for it in tokens[at:end]}
    return found


def behind_comments(data, at):
    """Where the documentation before an item begins."""
    start = data.rfind(b"\n", 0, at) + 1
    if data[start:at].strip():
        return at
    while start:
        before = data.rfind(b"\n", 0, start - 1) + 1
        if not data[before:start].strip().startswith(b"///"):
            break
        start = before
    return start


def without_tactics(tokens, function):
    """The places of the attributes of a function that speak of its proof."""
    at = function.first
    while at < function.opens and tokens[at].text == "#":
        end = closing(tokens, at + 1, "[]")
        if tokens[at + 2].text in ("tactic", "cycle"):
            yield tokens[at].start, tokens[end].end, b""
        at = end + 1


def kept_uses(tokens, gone, dropped):
    """What takes the place of `use` items that bring what is left out, or a function that nothing names any more."""
    uses = list(uses_of(tokens))
    in_uses = {at for first, _, end, _ in uses for at in range(first, end + 1)}
    rest = [it for at, it in enumerate(tokens) if at not in gone]
    left = {it.text for at, it in enumerate(tokens) if it.kind == "Code" and at not in gone and at not in in_uses}
    left |= words_in(it.text for it in rest if it.kind in ("Antt", "Literal"))
    for first, at, end, is_public in uses:
        if first in gone:
            continue
        brought, kept = leaves(tokens[at + 1:end + 1])[0], []
        for path, known in brought:
            is_gone = path[0] in ("crate", "self", "super") and path[-1] in dropped
            is_unnamed = not is_public and known not in left and re.match(r"[a-z]", known)
            if not is_gone and not is_unnamed:
                kept.append("::".join(path) + (f" as {known}" if known != path[-1] else ""))
        if len(kept) < len(brought):
            head = "pub use" if is_public else "use"
            yield tokens[first].start, tokens[end].end, "\n".join(f"{head} {it};" for it in kept).encode()


def with_bodies(file, tokens, functions, is_left_out, dropped):
    """A file as its crate's stub has it."""
    data, cuts, gone = text_of(file).encode(), [], set()
    for it in functions:
        if is_left_out(it):
            cuts.append((behind_comments(data, tokens[it.first].start), tokens[it.closes].end, b""))
            gone |= set(range(it.first, it.closes + 1))
        else:
            cuts += without_tactics(tokens, it)
            cuts.append((tokens[it.opens].start, tokens[it.closes].end, BODY.encode()))
            gone |= set(range(it.opens, it.closes + 1))
    cuts += kept_uses(tokens, gone, dropped)
    for start, end, put in sorted(cuts, reverse=True):
        data = data[:start] + put + data[end:]
    return data + ABSURD.encode() * file.endswith("/src/lib.rt")


def sources_of(folder):
    """The files of a crate's src as its stub has them. A function that only bodies call is left out."""
    paths = sorted(glob.glob(f"{folder}/src/**/*.rt", recursive=True))
    read = dict(zip(paths, tokens_of(paths)))
    functions = {file: functions_of(tokens) for file, tokens in read.items()}
    named, names = named_words(folder, read), {True: set(), False: set()}

    def is_left_out(it):
        return any(map(TEST.match, it.words)) or (it.is_own and it.name not in named)

    for it in (it for found in functions.values() for it in found):
        names[is_left_out(it)].add(it.name)
    dropped = names[True] - names[False]
    return {os.path.relpath(file, folder): with_bodies(file, tokens, functions[file], is_left_out, dropped)
            for file, tokens in read.items()}


@functools.lru_cache(maxsize=None)
def named_lemmas(checkout):
    """By crate: the modules of lemmas of other crates that it names, and its modules of lemmas, by file."""
    found = {}
    for name in table(checkout):
        others, own, folder = set(), {}, f"{checkout}/crates/{name}"
        for file in glob.glob(f"{folder}/**/*", recursive=True):
            if file.endswith((".rt", ".antt")) and "/out/" not in file:
                text = text_of(file)
                for crate, path in [*LEMMAS.findall(text), *USING.findall(text)]:
                    words = words_in([path])
                    if crate in (name, "crate"):
                        own.setdefault(os.path.relpath(file, folder), set()).update(words)
                    else:
                        others |= words
        found[name] = others, own
    return found


def lemmas_kept(checkout, name, sources):
    """The modules of lemmas of a crate that others name, or its definitions and contracts, and what those use."""
    lemmas = named_lemmas(checkout)
    wanted = set().union(*(others for it, (others, _) in lemmas.items() if it != name))
    wanted |= {word for file, words in lemmas[name][1].items() if file.startswith("specs/") for word in words}
    for text in sources.values():
        wanted |= words_in(path for crate, path in LEMMAS.findall(text.decode()) if crate == name)
    files = glob.glob(f"{checkout}/crates/{name}/proofs/*.antt")
    there = {os.path.basename(it)[:-5] for it in files} - {"Lib"}
    kept, rest = set(), wanted & there
    while rest:
        it = rest.pop()
        kept.add(it)
        rest |= (lemmas[name][1].get(f"proofs/{it}.antt", set()) & there) - kept
    return kept, there


def files_of(checkout, name):
    """All files of a crate's stub: by path, what they hold."""
    folder = f"{checkout}/crates/{name}"
    made = sources_of(folder)
    kept, there = lemmas_kept(checkout, name, made)
    for file in glob.glob(f"{folder}/specs/**/*.antt", recursive=True):
        made[os.path.relpath(file, folder)] = text_of(file).encode()
    for it in kept:
        made[f"proofs/{it}.antt"] = text_of(f"{folder}/proofs/{it}.antt").encode()
    if os.path.exists(f"{folder}/proofs/Lib.antt"):
        lines = text_of(f"{folder}/proofs/Lib.antt").splitlines()
        listed = [(LISTED.fullmatch(it.strip()) or [None, None])[1] for it in lines]
        lines = [it for it, module in zip(lines, listed) if module not in there - kept]
        made["proofs/Lib.antt"] = ("\n".join(lines) + "\n").encode()
    return made


# ---- the pool


class Pool:
    """Stubs of a checkout's crates, each kept by the checksum of what it was made of."""

    def __init__(self, checkout, pool):
        self.checkout, self.pool, self.crates = checkout, pool, table(checkout)
        self.files = functools.lru_cache(maxsize=None)(lambda name: files_of(checkout, name))
        self.key = functools.lru_cache(maxsize=None)(self.sum_of)
        os.makedirs(pool, exist_ok=True)

    def directly(self, name):
        """The crates of the checkout that a crate uses."""
        return [it for it in self.crates[name] if it in self.crates]

    def below(self, name):
        """All crates of the checkout that a crate uses, also through others, in dependency order."""
        found = []

        def add(crate):
            for it in self.directly(crate):
                if it not in found:
                    add(it)
                    found.append(it)

        add(name)
        return found

    def sum_of(self, name):
        made = hashlib.sha256()
        for path, data in sorted(self.files(name).items()):
            made.update(path.encode() + b"\0" + data + b"\0")
        for it in self.crates[name]:
            made.update((self.key(it) if it in self.crates else it).encode())
        return made.hexdigest()[:24]

    def library(self, name):
        return f"{self.pool}/{self.key(name)}/{name}.rlib"

    def words(self, name, main):
        """The words that name a crate's source and what it uses."""
        words = ["--crate-name", name, main]
        for it in ["std", *[it for it in self.crates[name] if it not in self.crates]]:
            words += ["--extern", f"{it}={KIT}/rlibs/{it}.rlib"]
        words += ["-L", f"dependency={KIT}/rlibs"]
        for it in self.directly(name):
            words += ["--extern", f"{it}={self.library(it)}"]
        for it in self.below(name):
            words += ["-L", f"dependency={os.path.dirname(self.library(it))}"]
        words += ["--antt-project", f"{KIT}/rattle/logic/antt-project.json"]
        return [*words, "--logic-built", f"{KIT}/logic_built"]

    def build(self, name):
        """Builds a stub, unless the pool has it. The answer is what went wrong."""
        to = os.path.dirname(self.library(name))
        os.makedirs(to, exist_ok=True)
        with open(f"{to}/lock", "w", encoding="utf-8") as lock:
            fcntl.flock(lock, fcntl.LOCK_EX)
            return "" if os.path.isdir(self.library(name)) else self.built(name, to)

    def built(self, name, to):
        for room in ("src", "new.rlib"):
            shutil.rmtree(f"{to}/{room}", ignore_errors=True)
        for path, data in self.files(name).items():
            os.makedirs(os.path.dirname(f"{to}/src/{path}"), exist_ok=True)
            with open(f"{to}/src/{path}", "wb") as it:
                it.write(data)
        words = [RATTLE, "build", *self.words(name, "src/lib.rt"), "--jobs", "1", "--statements"]
        words += ["-o", f"{to}/new.rlib"]
        ran = subprocess.run(words, cwd=f"{to}/src", capture_output=True, text=True, errors="replace", check=False,
                             env={**os.environ, "RT_ALLOW_C": "1"})
        if ran.returncode or not os.path.isdir(f"{to}/new.rlib"):
            return f"{' '.join(words)}\n{ran.stdout}{ran.stderr}"
        os.rename(f"{to}/new.rlib", self.library(name))
        return ""

    def build_all(self, names, at_once):
        """Builds stubs, each as soon as those below it exist, the most used first. The answer is
        which of them failed."""
        height = functools.lru_cache(maxsize=None)(
            lambda name: 1 + max([height(it) for it in names if name in self.directly(it)], default=0))
        done, failed, running = set(), [], {}
        with concurrent.futures.ThreadPoolExecutor(at_once) as threads:
            while True:
                ready = [it for it in names if it not in {*done, *failed, *running.values()}
                         and done.issuperset(self.directly(it))]
                for it in sorted(ready, key=height, reverse=True)[:at_once - len(running)]:
                    running[threads.submit(timed, self.build, it)] = it
                if not running:
                    return failed
                for ran in concurrent.futures.wait(running, return_when="FIRST_COMPLETED").done:
                    name, (why, seconds) = running.pop(ran), ran.result()
                    (failed.append if why else done.add)(name)
                    print(f"failed {name}\n{why[-6000:]}" if why else f"stands {name} {seconds:.0f} s", flush=True)


def timed(call, word):
    began = time.time()
    return call(word), time.time() - began


def run(pool, verb, name, flags):
    """Checks or builds a crate itself over stubs."""
    folder = f"{pool.checkout}/crates/{name}"
    main_file = "src/main.rt" if os.path.exists(f"{folder}/src/main.rt") else "src/lib.rt"
    words = [RATTLE, verb, *pool.words(name, main_file)]
    if re.search(rf"(?m)^{name} staticlib\b", text_of(f"{pool.checkout}/crates.txt")):
        words += ["--crate-type", "staticlib"]
    words += ["--incremental", "out/inc"] if verb == "check" else []
    words += [] if "--jobs" in flags else ["--jobs", "1"]
    os.makedirs(f"{folder}/out", exist_ok=True)
    return subprocess.run([*words, *flags], cwd=folder, check=False).returncode


def main():
    words, at_once = sys.argv[1:], 4
    if "-j" in words:
        at = words.index("-j")
        at_once = int(words[at + 1])
        del words[at:at + 2]
    if len(words) < 2:
        sys.exit(__doc__)
    pool, asked = Pool(os.path.abspath(words[0]), os.path.abspath(words[1])), words[2:]
    if asked[:1] and asked[0] in ("--check", "--build"):
        failed = pool.build_all(pool.below(asked[1]), at_once)
        sys.exit(f"no stand-in of {' '.join(failed)}" if failed else run(pool, asked[0][2:], asked[1], asked[2:]))
    names = list(dict.fromkeys(it for name in asked or pool.crates for it in pool.below(name)))
    sys.exit(len(pool.build_all(names, at_once)))


if __name__ == "__main__":
    main()
