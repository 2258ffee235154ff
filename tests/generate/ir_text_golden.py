"""Golden files of the texts of ir_text_cases.py: the program's answer to each, as a module, after `set-attr` or after
`insert`. A text that no command can hold, or that has another answer in a command, stays a line of
crates/ir_text_cases."""
import collections
import re

from tests.golden import golden
from oracle import printing, rules, script

# A text that was made: its line and answer in the table, the part that it is of, its title (a name and a sentence), and
# what kind of text it is.
Made = collections.namedtuple("Made", "line answer part title kind text outer")
MOST_HELD, MOST_IDS = 1_000_000, 1_000_000
DIVIDER = b"// -----\n"
# What a script of a part shows.
SENTENCES = {"set": "Each attribute of `{}` is set by `set-attr`, and printed if it is accepted.",
             "insert": "Each operation of `{}` is put in by `insert`, printed if it is accepted, and rolled back."}
HOLDER = b'"a"() : () -> ()\n'
# A module whose next id is 9, with arguments and several results of i32.
AROUND = b"""%0:8 = "t.d"() ({
^bb0(%a: i32, %b: i32, %c: i32, %d: i32):
}, {
^bb0(%a: i32, %b: i32, %c: i32, %d: i32):
}, {
^bb0(%a: i32, %b: i32, %c: i32, %d: i32):
}) : () -> (i32, i32, i32, i32, i32, i32, i32, i32)
""" + b"".join(b'%%x%d:3 = "t.e"() : () -> (i32, i32, i32)\n' % number for number in range(2, 9))


def pieces_of(text):
    """A text as pieces, each with its number of repetitions."""
    parts = [it if isinstance(it, tuple) else (1, it) for it in (text if isinstance(text, list) else [text])]
    return [it for it in parts if it[0] and it[1]]


def bytes_of(text):
    return b"".join(times * part for times, part in pieces_of(text))


def is_held(text):
    """Whether a line of a script can have a text at its end."""
    try:
        text.decode()
    except UnicodeDecodeError:
        return False
    return b"\n" not in text and len(text) < MOST_HELD and text.strip(b" \t\r") != b""


class Script:
    """A script that grows, with what is replied to it."""

    def __init__(self, module):
        self.module, self.run, self.lines, self.out, self.status = module, script.Run(script.read(module)), [], [], 0

    def reply(self, line):
        """The reply to a line; the lines are numbered from 1, as in the program."""
        for kept in script.lines_of(line):
            said, _ = self.run.reply(kept)
            self.lines.append(line)
            self.out.append(f"{len(self.lines)}{said}".encode())
            self.status = max(self.status, int(said.startswith(" refused")))
        return said

    def input(self):
        return self.module + DIVIDER + b"".join(line + b"\n" for line in self.lines)


class Golden:
    """The golden files of texts."""

    def __init__(self):
        self.cases, self.scripts, self.known = golden.Collected(), {}, set()

    def script(self, name, module):
        if name not in self.scripts:
            self.scripts[name] = Script(module)
        return self.scripts[name]

    def module(self, part, title, pieces, answer=None):
        """A module's text: its refusal, or the printed module."""
        text = b"".join(times * one for times, one in pieces)
        good, answer = answer or printing.module(text)
        self.cases.begin(f"texts/{part}", *title)
        if not good:
            self.cases.case(["--brief"], pieces, (3, f"module refused {answer}\n".encode()))
        elif len(text) >= rules.MOST_BYTES:
            self.cases.case(["--brief"], pieces, (0, b""))
        else:
            behind = b"" if text.endswith(b"\n") or not text else b"\n"
            asked = behind + DIVIDER + b"print\n"
            is_one = len(pieces) == 1 and pieces[0][0] == 1
            pieces = [(1, text + asked)] if is_one else [*pieces, (1, asked)]
            self.cases.case(["--brief"], pieces, (0, b"1 ok\n" + answer.encode()))

    def cuts(self, part, title, text):
        """All beginnings of a module's text."""
        said = []
        for number in range(len(text)):
            try:
                rules.Reader(text[:number]).source()
                said.append((0, b""))
            except rules.Refused as fault:
                said.append((3, f"module refused {printing.refusal(fault)}\n".encode()))
        self.cases.begin(f"texts/{part}", *title)
        self.cases.case(["--brief"], text, golden.cut_text(said), True)

    def attribute(self, part, title, text):
        """An attribute after `set-attr`, or in a module if no line can hold it. Returns whether there is a case."""
        if len(text) >= MOST_HELD:
            return False
        held = is_held(text)
        if held:
            here = self.script(f"texts/{part}_set", HOLDER)
            if (part, text) not in self.known and here.reply(b"set-attr #1 a " + text) == " ok\n":
                here.reply(b"print")
            self.known.add((part, text))
        if not held or text.strip(b" \t\r") != text:
            name, sentence = title
            title = f"{name}-in-a-module", f"{sentence[:-1]}, as the attribute of an operation in a module."
            self.module(f"{part}_in_modules", title, [(1, b'"a"() {a = ' + text + b"\n} : () -> ()")])
        return True

    def operation(self, part, text, outer, good):
        """An operation after `insert`; returns whether the answer is the one with the values of `outer`."""
        if not is_held(text) or text.strip(b" \t\r") != text or outer.next > MOST_IDS:
            return False
        here = self.script(f"texts/{part}_insert", AROUND)
        is_new = (part, text, "insert") not in self.known
        self.known.add((part, text, "insert"))
        line = b"insert end #0 0 " + text
        marked = script.Run(here.run.module.copy())
        said, _ = marked.reply(line.decode("latin-1"))
        is_refused = said.startswith(" refused")
        if is_new and not is_refused:
            for it in (b"begin", line, b"print", b"report uses", b"rollback"):
                here.reply(it)
        elif is_new:
            here.reply(line)
        return is_refused != good and (good or said.split()[1:3] == good_words(text, outer))

    def write(self):
        self.cases.write()
        for name, here in self.scripts.items():
            file = golden.TESTS / f"{name}.mlir"
            file.write_bytes(here.input())
            part, kind = name.removeprefix("texts/").rsplit("_", 1)
            title = f"{part.replace('_', '-')}-{kind}"
            out = golden.out_text(title, here.status, b"".join(here.out), SENTENCES[kind].format(part))
            file.with_suffix(".out").write_bytes(out)
            print(f"{file.relative_to(golden.ROOT)}: {len(here.lines)} commands")


def good_words(text, outer):
    """The number and the word of the refusal of an operation."""
    return printing.operation(text, outer)[1].split()[:2]


def one_of(golden_files, made):
    """Makes a golden case of a text, where one can be; whether it stands for the text's line."""
    text = made.text
    if made.kind == "module":
        answer = (not re.fullmatch(r"\d+ \w+ at \d+", made.answer), made.answer)
        if answer[0] and made.answer.endswith(" bytes") and len(bytes_of(text)) > MOST_HELD:
            answer = (True, printed_large(made))
        golden_files.module(made.part, made.title, pieces_of(text), answer if len(bytes_of(text)) > 100_000 else None)
        return True
    if made.kind == "cut":
        golden_files.cuts(made.part, made.title, bytes_of(text))
        return True
    if made.kind == "attr":
        return golden_files.attribute(made.part, made.title, bytes_of(text))
    if made.kind == "op":
        good = not re.match(r"\d+ \w+ at \d+$", made.answer)
        return golden_files.operation(made.part, bytes_of(text), made.outer, good)
    return False


def printed_large(made):
    """What is printed for a module of very many operations `"t"() : () -> ()`, some of them in a module inside."""
    pieces = pieces_of(made.text)
    many = max(times for times, _ in pieces)
    front, one, back = '"builtin.module"() ({\n', '"t"() : () -> ()\n', "}) : () -> ()\n"
    if pieces[-1] == (1, b'"t"():()->()'):
        printed = front + "  " + front + ("    " + one) * many + "  " + back + "  " + one + back
    else:
        printed = front + ("  " + one) * many + back
    assert f"{len(printed)} bytes" == made.answer, made.answer
    return printed


def kept(all_made):
    """Writes the golden files; gives what stays a line of the table."""
    golden_files, left = Golden(), []
    for made in all_made:
        try:
            stands = one_of(golden_files, made)
        except rules.Open:
            stands = False
        if not stands:
            left.append(made)
    golden_files.write()
    return left
