"""Golden files: inputs of the program, and the status and the output that each must have.

`tests/golden/AREA/FILE.cases` has small inputs, each after a header. `FILE.out` next to it has the answers:

    === NAME [MARKS] WORDS                        === NAME status 0 [MARKS]
    # What the case shows, in one sentence.       the output
    the input

NAME is kebab-case and unique in its area, WORDS are the program's arguments. The line after the header is the sentence:
it begins with `# ` and is no part of the input. Cases that show one thing in several forms, and cases that a script
enumerates or makes at random, are a group with one name and one sentence. Its members have a number or a word:

    === NAME [group]
    # What all cases of the group show.
    === NAME/1 WORDS                              === NAME/1 status 0
    the first input                               the first output
    === NAME/full WORDS                           === NAME/full status 0
    ..                                            ..

A mark says how a text is written. Without a mark it is the lines up to the next `===`:

    open      the last line has no line feed at its end
    pieces    each line is a number, a blank and a text, which is repeated so many times. In the text `\\n`, `\\r`,
              `\\t`, `\\\\` and `\\xff` are bytes, and nothing is between two pieces
    cuts      of an input: each proper prefix is an input, and its answer is a line `LENGTH STATUS TEXT`
    digest    of an output: the number of bytes, and their SHA-256

A larger input has its own file, `tests/golden/AREA/FILE.mlir`: a module, a divider and a script. All its bytes are the
input. So its name and its sentence are in `FILE.out`:

    === NAME status 0 [MARKS]
    # What the case shows, in one sentence.
    the output

The first line of `FILE.mlir` may have the program's arguments, as in lit: `// RUN: mlir_work --limit 5 < %s`. Without
this line they are `--brief`."""
import hashlib
import pathlib
import re
import shlex

TESTS = pathlib.Path(__file__).resolve().parent
ROOT = TESTS.parent.parent
HEADER = re.compile(rb"^=== (.*)\n", re.M)
RUN = re.compile(rb"// RUN: mlir_work(.*?)(?: < %s)?\r?\n")
MOST_SHOWN = 65536
NAMED = {ord("\n"): "\\n", ord("\r"): "\\r", ord("\t"): "\\t", ord("\\"): "\\\\"}
BYTES = {b"n": b"\n", b"r": b"\r", b"t": b"\t", b"\\": b"\\"}
MARKS = ("open", "pieces", "cuts", "digest", "group")
KEBAB = re.compile("[a-z0-9]+(-[a-z0-9]+)*")
# What begins the line of a sentence.
SENTENCE = b"# "


class Case:
    """A case: its name, the program's arguments, the pieces of its input, whether each prefix of it is an input, the
    sentence that says what the case shows, and whether the case has its own file."""

    def __init__(self, name, words, pieces, is_cut=False, sentence="", is_file=False):
        self.name, self.words, self.pieces, self.is_cut = name, words, pieces, is_cut
        self.sentence, self.is_file = sentence, is_file

    def group(self):
        """The name of the case's group, or the case's own name."""
        return self.name.partition("/")[0]

    def given(self):
        return b"".join(text * times for times, text in self.pieces)

    def inputs(self):
        """The inputs that are meant."""
        text = self.given()
        return [text[:count] for count in range(len(text))] if self.is_cut else [text]


def escaped(text):
    """A text in one line."""
    return "".join(NAMED.get(byte) or (chr(byte) if 32 <= byte < 127 else f"\\x{byte:02x}") for byte in text)


def unescaped(line):
    return re.sub(rb"\\([nrt\\]|x[0-9a-f]{2})", lambda it: BYTES.get(it[1]) or bytes([int(it[1][1:], 16)]), line)


def is_plain(text):
    """Whether a text can be written plainly."""
    try:
        text.decode()
    except UnicodeDecodeError:
        return False
    return not re.search(rb"\A# |[\x00-\x08\x0b-\x1f\x7f]|^===|[ \t]$", text, re.M)


def stands(pieces):
    """The marks and the lines of a text, which is pieces."""
    if len(pieces) == 1 and pieces[0][0] == 1 and is_plain(pieces[0][1]):
        text = pieces[0][1]
        return ([], text) if not text or text.endswith(b"\n") else (["open"], text + b"\n")
    parts_of = [(times, part) for times, text in pieces
                for part in (re.findall(rb"[^\n]*\n|[^\n]+", text) if times == 1 else [text])]
    return ["pieces"], "".join(f"{times} {escaped(part)}\n" for times, part in parts_of).encode()


def header(*words):
    return ("=== " + " ".join(word for word in words if word) + "\n").encode()


def marked(marks):
    return f"[{' '.join(marks)}]" if marks else ""


def sentence_line(sentence):
    return SENTENCE + sentence.encode() + b"\n" if sentence else b""


def case_text(case):
    """The lines of a case in a file. The sentence of a group is in the group's own lines."""
    marks, lines = stands(case.pieces)
    sentence = "" if "/" in case.name else case.sentence
    words = case.name, marked(marks + ["cuts"] * case.is_cut), shlex.join(case.words)
    return header(*words) + sentence_line(sentence) + lines


def group_text(name, sentence):
    """The lines before the first case of a group."""
    return header(name, "[group]") + sentence_line(sentence)


def out_text(name, status, out, sentence=""):
    """The lines of an answer in a file."""
    if len(out) > MOST_SHOWN:
        marks, lines = ["digest"], f"{len(out)} bytes, SHA-256 {hashlib.sha256(out).hexdigest()}\n".encode()
    else:
        marks, lines = stands([(1, out)])
    return header(name, f"status {status}", marked(marks)) + sentence_line(sentence) + lines


def parts(text):
    """The words of each header of a file, its marks, and the lines below it."""
    places = list(HEADER.finditer(text))
    for here, behind in zip(places, [*places[1:], None]):
        words = here[1].decode()
        marks = re.search(r" \[([a-z ]+)\]", words)
        found = marks[1].split() if marks and set(marks[1].split()) <= set(MARKS) else []
        words = words[:marks.start()] + words[marks.end():] if found else words
        yield words, found, text[here.end():behind.start() if behind else len(text)]


def pieces_of(marks, lines):
    if "pieces" in marks:
        return [(int(times), unescaped(text)) for times, _, text in (it.partition(b" ") for it in lines.splitlines())]
    return [(1, lines[:-1] if "open" in marks else lines)]


def without_sentence(lines):
    """The sentence before some lines, if there is one, and the other lines."""
    if not lines.startswith(SENTENCE):
        return "", lines
    line, _, lines = lines.partition(b"\n")
    return line[len(SENTENCE):].decode(), lines


def cases_in(file):
    """Returns the cases of a file, each with its answer (its lines in FILE.out), and the names of the answers to no
    case."""
    text, answers = file.read_bytes(), answers_of(file.with_suffix(".out"))
    cases = [whole_file(file, text, answers)] if file.suffix == ".mlir" else cases_of(text)
    return [(case, answers.pop(case.name, b"")) for case in cases], sorted(answers)


def whole_file(file, text, answers):
    """The case of a file that is one input."""
    name, answer = next(iter(answers.items()), (file.stem.replace("_", "-"), b"\n"))
    words = RUN.match(text)
    words = shlex.split(words[1].decode()) if words else ["--brief"]
    return Case(name, words, [(1, text)], sentence=without_sentence(answer.partition(b"\n")[2])[0], is_file=True)


def cases_of(text):
    """The cases of a text."""
    cases, group = [], ("", "")
    for words, marks, lines in parts(text):
        name, _, words = words.partition(" ")
        if "group" in marks:
            group = name, without_sentence(lines)[0]
        elif "/" in name:
            sentence = group[1] if name.startswith(f"{group[0]}/") else ""
            cases.append(Case(name, shlex.split(words), pieces_of(marks, lines), "cuts" in marks, sentence))
        else:
            sentence, lines = without_sentence(lines)
            cases.append(Case(name, shlex.split(words), pieces_of(marks, lines), "cuts" in marks, sentence))
    return cases


def answers_of(file):
    """The answers of a file by their names, each with its header."""
    text = file.read_bytes() if file.exists() else b""
    places = list(HEADER.finditer(text))
    return {here[1].decode().split()[0]: text[here.start():behind.start() if behind else len(text)]
            for here, behind in zip(places, [*places[1:], None])}


def faults_in(files_of_area):
    """What is wrong with the names and the sentences of an area's files: a line for each fault."""
    known = {}
    for file in files_of_area:
        label, groups, names = file.relative_to(TESTS).as_posix(), {}, set()
        for case, _ in cases_in(file)[0]:
            group, _, member = case.name.partition("/")
            if group not in groups:
                groups[group] = label
                yield from faults_of(label, group, case.sentence)
                if group in known:
                    yield f"{label}: {group}: {known[group]} has this name too"
            if case.name in names or not member and f"{group}/" in names:
                yield f"{label}: {case.name}: two cases have this name"
            if member and not KEBAB.fullmatch(member):
                yield f"{label}: {case.name}: this name isn't kebab-case"
            names.update((case.name, f"{group}/") if member else (case.name,))
        known.update(groups)


def faults_of(label, name, sentence):
    """What is wrong with a name and its sentence."""
    if name.isdigit():
        yield f"{label}: case {name} has no name"
    elif not KEBAB.fullmatch(name):
        yield f"{label}: {name}: this name isn't kebab-case"
    if not sentence:
        yield f"{label}: {name}: no sentence says what the case shows"
    elif not re.fullmatch(r"\S.*\.", sentence):
        yield f"{label}: {name}: the sentence doesn't end with a full stop"


def cut_text(answers):
    """What is written for all beginnings of an input, a line for each, of their statuses and bytes."""
    lines = (b"%d %d %s" % (count, status, out.rstrip(b"\n").replace(b"\n", b" | "))
             for count, (status, out) in enumerate(answers))
    return max(status for status, _ in answers), b"".join(line.rstrip() + b"\n" for line in lines)


def told(case, run):
    """The lines of a case's answer in a file, where `run` gives the status and the output for arguments and an
    input."""
    answers = [run(case.words, text) for text in case.inputs()]
    status, out = cut_text(answers) if case.is_cut else answers[0]
    return out_text(case.name, status, out, case.sentence if case.is_file else "")


def member_names(group, members):
    """The names of a title's cases: the title if there is one case, else the title with the cases' own names, or with
    their numbers if two have one name."""
    names = [case.name or str(number) for number, (case, _) in enumerate(members, 1)]
    if len(set(names)) < len(names):
        names = map(str, range(1, len(members) + 1))
    return [group] if len(members) == 1 else [f"{group}/{name}" for name in names]


class Collected:
    """The cases that a script makes, file by file. A case that is there already is left out."""

    def __init__(self):
        self.files, self.known, self.name, self.titled, self.titles = {}, set(), None, ("", ""), {}

    def begin(self, file, name="", sentence=""):
        """The next cases go into a file, and have this name and this sentence."""
        self.name = file
        self.title(name, sentence)

    def title(self, name, sentence):
        """The next cases have this name and this sentence. If there are several, they are a group."""
        self.titled = name, sentence
        if name:
            self.titles[self.name, name] = None

    def case(self, words, pieces, answer, is_cut=False, name=None, title=None):
        """Adds a case, with the status and the output that it must have. `pieces` may be a text. `name` says which of
        its group the case is, else its number in the group does. `title` is a name and a sentence for this case
        alone."""
        pieces = [(1, pieces)] if isinstance(pieces, bytes) else pieces
        key = (*words, is_cut, *pieces)
        if key not in self.known:
            self.known.add(key)
            group, sentence = title or self.titled
            assert group, f"a case of {self.name} has no name: {words} {pieces}"
            groups = self.files.setdefault(self.name, {})
            groups.setdefault((group, sentence), []).append((Case(name, words, pieces, is_cut), answer))

    def write(self):
        """Writes the files, and prints the number of their cases, and the titles without one."""
        for name, groups in self.files.items():
            file, rows, texts = TESTS / f"{name}.cases", [], []
            for (group, sentence), members in groups.items():
                if len(members) > 1:
                    texts.append(group_text(group, sentence))
                for name, (case, answer) in zip(member_names(group, members), members):
                    case.name, case.sentence = name, sentence
                    texts.append(case_text(case))
                    rows.append(out_text(case.name, *answer))
            file.parent.mkdir(parents=True, exist_ok=True)
            file.write_bytes(b"".join(texts))
            file.with_suffix(".out").write_bytes(b"".join(rows))
            print(f"{file.relative_to(ROOT)}: {len(rows)} cases")
        for name, title in self.titles:
            if title not in {group for group, _ in self.files.get(name, {})}:
                print(f"{name}: {title}: all its cases are there under other names")


def files():
    """All files of tests."""
    return sorted(it for it in TESTS.glob("*/*") if it.suffix in (".mlir", ".cases"))
