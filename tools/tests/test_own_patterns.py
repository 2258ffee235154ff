"""User patterns from files, `--patterns FILE`. Refused lines and their places are compared with answers by hand and
with oracle. If no line is refused, the output of each way to run is that of oracle with the same patterns."""
import contextlib
import io
import os
import pathlib
import re
import subprocess
import sys
import tempfile
import unittest

import support
from support import ROOT, program, session

from mlir_work.cli import completion, main, ways
from oracle import expected, json_lines, own

MODULE = b"""%a = "t.a"() : () -> i8
%z = "arith.constant"() <{value = 0 : i8}> : () -> i8
%s = "arith.addi"(%a, %z) <{overflowFlags = #arith.overflow<none>}> : (i8, i8) -> i8
%d = "arith.addi"(%s, %s) <{overflowFlags = #arith.overflow<none>}> : (i8, i8) -> i8
"t.u"(%d) : (i8) -> ()
"""
DIVIDER = b"// -----\n"
ZERO, DOUBLE = b"zero arith.addi(%a, 0) => %a\n", b"double arith.addi(%a, %a) => arith.shli(%a, 1)\n"
HALF = b"half arith.divsi(%a, c) => arith.shrsi(%a, log2(c))\n"
MANY = b"".join(b"p%d arith.addi(%%a, %d) => %%a\n" % (number, number) for number in range(256))
ONE_MORE = b"p256 arith.addi(%a, 0) => %a\n"

# Accepted pattern files: their texts, and the names of their patterns.
READ = {
    "no files": ([], ""),
    "one": ([ZERO], "zero"),
    "two files, in their order": ([DOUBLE, ZERO], "double zero"),
    "files with several": ([ZERO + HALF, DOUBLE], "zero half double"),
    "an empty file": ([b""], ""),
    "an empty file before another": ([b"", ZERO], "zero"),
    "empty lines alone": ([b"\n\n \t\n\r\n"], ""),
    "comments": ([b"// zero\n" + ZERO + b"  \t//" + DOUBLE + b"//\n" + HALF + b"// "], "zero half"),
    "dividers, which are comments": ([ZERO + DIVIDER + DOUBLE], "zero double"),
    "a comment behind a pattern": ([ZERO[:-1] + b" // zero\n" + DOUBLE[:-1] + b"//"], "zero double"),
    "no line feed at the end": ([ZERO + DOUBLE[:-1]], "zero double"),
    "no line feed at the end of a file before another": ([ZERO[:-1], DOUBLE[:-1]], "zero double"),
    "carriage returns": ([(b"//\n\n" + ZERO + b"\n" + DOUBLE).replace(b"\n", b"\r\n")], "zero double"),
    "blanks around": ([b" \t " + ZERO[:-1] + b" \r\t\n\t" + DOUBLE], "zero double"),
    "a comment that is no UTF-8": ([b"// \xff\n" + ZERO], "zero"),
    "256 patterns": ([MANY], " ".join(f"p{number}" for number in range(256))),
    "256 patterns, of two files": ([MANY, b"//\n\n"], " ".join(f"p{number}" for number in range(256))),
    "the name of a rule's word": ([b"commute arith.addi(%a, 0) => %a"], "commute"),
}
# Refused pattern files: their texts, which file is wrong, and the message, by hand.
REFUSED = {
    "twice in a file": ([ZERO + DOUBLE + ZERO], 0, "line 3: refused 4 Redefined at 0"),
    "twice in two files": ([ZERO + DOUBLE, b"// again\n\n" + DOUBLE], 1, "line 3: refused 4 Redefined at 0"),
    "a name again for something else": ([ZERO, b"zero arith.subi(%a, 0) => %a"], 1, "line 1: refused 4 Redefined at 0"),
    "the first of two wrong lines": ([ZERO + b"x\n" + ZERO], 0, "line 2: refused 2 Unexpected at 1"),
    "the first of two wrong files": ([ZERO + ZERO, b"x"], 0, "line 2: refused 4 Redefined at 0"),
    "a wrong second file": ([ZERO, b"5"], 1, "line 1: refused 2 Unexpected at 0"),
    "lines that say nothing": ([b"\n// a\r\n \t\n" + ZERO + b"\n5"], 0, "line 6: refused 2 Unexpected at 0"),
    "blanks in front aren't": ([b" \t\r 5"], 0, "line 1: refused 2 Unexpected at 0"),
    "the word that a script has": ([b"pattern " + ZERO], 0, "line 1: refused 2 Unexpected at 8"),
    "a value that isn't matched": ([b"\tn arith.addi(%a, 0) => %b"], 0, "line 1: refused 3 UnknownValue at 23"),
    "half a pattern": ([ZERO + b"n arith.addi(%a, 0) =>\n" + DOUBLE], 0, "line 2: refused 2 Unexpected at 22"),
    "a pattern over two lines": ([b"n arith.addi(%a, 0)\n => %a"], 0, "line 1: refused 2 Unexpected at 19"),
    "a number of operands": ([b"n arith.addi(%a) => %a"], 0, "line 1: refused 5 TypeMismatch at 2"),
    "a width": ([b"n arith.addi(%a, 0 : i129) => %a"], 0, "line 1: refused 6 BadWidth at 21"),
    "an operation that doesn't fold": ([b"n scf.if(%a) => %a"], 0, "line 1: refused 13 LeftOut at 2"),
    "a mark in front of the text": ([b"\xef\xbb\xbf" + ZERO], 0, "line 1: refused 1 BadToken at 0"),
    "a pattern that is no UTF-8": ([b"// \xff\n" + ZERO[:-1] + b" // \xff"], 0, "line 2: refused 14 NotUtf8 at 32"),
    "a byte that is in no token": ([b"n\0 arith.addi(%a, 0) => %a"], 0, "line 1: refused 1 BadToken at 1"),
    "a form feed": ([ZERO + b"\f\n"], 0, "line 2: refused 1 BadToken at 0"),
    "257 patterns": ([MANY + b"\n" + ONE_MORE], 0, "line 258: refused 11 TooMany at 0"),
    "257 patterns of two files": ([MANY, b"// \n" + ONE_MORE], 1, "line 2: refused 11 TooMany at 0"),
    "257 patterns, one of them twice": ([MANY, b"p0 arith.addi(%a, 0) => %a"], 1, "line 1: refused 4 Redefined at 0"),
    "257 patterns, the last one wrong": ([MANY, b"p256 arith.addi(%a, 0) => %b"], 1, "line 1: refused 11 TooMany at 0"),
}
# Scripts to run with the accepted pattern files.
SCRIPTS = {
    "listed": b"patterns\n",
    "checked": b"check zero\ncheck double width 4\npatterns\nexpect NoSuchKey check half\n",
    "a check that fails": HALF.join([b"pattern ", b"check half width 4\npatterns\n"]),
    "applied": b"apply zero #4\napply zero #3\nprint ids\napply double #4\nprint ids\nreport uses\n",
    "rewritten": b"rewrite zero,double trace\nprint ids\nreport dead\n",
    "beside rules": b"rewrite erase-dead,double,zero trace limit 2\nrewrite zero,10\nprint\n",
    "one at a time": b"canon only double limit 1\ncanon only zero trace\nprint\n",
    "behind marks": b"begin\nrewrite zero\nrollback\npatterns\nprint\nrewrite zero\n",
    "one more": b"pattern more arith.addi(%a, %b) => arith.addi(%b, %a)\npatterns\nrewrite more limit 3\nprint\n",
    "defined again": b"pattern " + ZERO + b"expect Redefined pattern " + DOUBLE + b"patterns\n",
    "not there": b"apply nope #3\nrewrite zero,nope\ncheck nope\napply zero #9\n",
}
# Lines with their answers by hand.
ASKED = (b"patterns\ncheck double width 2\nbegin\nrewrite zero,double trace\nrollback\napply double #4\n"
         b"expect Redefined pattern " + ZERO + b"patterns\n")
ANSWERED = (b"1 ok\nzero arith.addi(%a, 0) => %a // not checked\n"
            b"double arith.addi(%a, %a) => arith.shli(%a, 1) // not checked\n"
            b"2 fails 1\n%a false\nold false\nnew poison\n3 ok\n"
            b"4 converged 2\nunproved zero unchecked\nunproved double fails 1\n"
            b"rewrote zero #3 erased #3\nrewrote double #4 made #6,#7 erased #4\n5 ok\n"
            b"6 applied 1\nunproved double fails 1\n"
            b"7 refused 4 Redefined at 0\n8 ok\nzero arith.addi(%a, 0) => %a // not checked\n"
            b"double arith.addi(%a, %a) => arith.shli(%a, 1) // fails 1\n")


# What the program says of a file that isn't there, of one that can't be read, and of one that is too long.
MISSING, UNREADABLE = "found no such file: correct the name", "this file can't be read: name a file that you may read"
TOO_LONG = "this file is longer than 32 MiB: split it"


def has_patterns():
    try:
        return support.words()[0][0] != sys.executable and program.has_option("--patterns")
    except program.Fault:
        return False


def message(file, text, told):
    """The program's message on a refused line of a file. `told` is what oracle says of it."""
    number, refusal, word, at = re.fullmatch(r"line (\d+): refused (\d+) (\w+) at (\d+)", told).groups()
    line = text.split(b"\n")[int(number) - 1]
    column = len(line) - len(line.lstrip(b" \t\r")) + int(at) + 1
    why = expected.sentence(line.strip(b" \t\r").decode("latin-1"), int(refusal), int(at))
    return f"{file}:{number}:{column}: {refusal} {word}: {why}\n"


def has_files():
    return has_patterns() and program.has_option("--script")


def book_of(texts):
    """The pattern registry of some texts, by oracle."""
    book = {}
    for text in texts:
        own.read_book(text, book)
    return book


class Rules(unittest.TestCase):
    """Oracle gives the answers that are written here by hand."""

    def test_by_hand(self):
        self.assertEqual(own.run(MODULE + DIVIDER + ASKED, book=book_of([ZERO, DOUBLE])), (1, ANSWERED))

    def test_read(self):
        for title, (texts, names) in READ.items():
            with self.subTest(title):
                self.assertEqual(list(book_of(texts)), names.split())

    def test_refused(self):
        for title, (texts, wrong, told) in REFUSED.items():
            with self.subTest(title):
                book = book_of(texts[:wrong])
                with self.assertRaises(own.BookRefused) as fault:
                    own.read_book(texts[wrong], book)
                self.assertEqual(str(fault.exception), told)


class Case(unittest.TestCase):
    def setUp(self):
        self.room = tempfile.TemporaryDirectory()
        self.addCleanup(self.room.cleanup)
        self.folder = pathlib.Path(self.room.name)

    def named(self, name, text):
        file = self.folder / name
        file.write_bytes(text)
        return str(file)

    def words(self):
        """What is run, with what its environment has besides."""
        return support.words()

    def flags(self, texts):
        """The words that name files with these texts, and the names of these."""
        files = [self.named(f"{number}.patterns", text) for number, text in enumerate(texts)]
        return [word for file in files for word in ("--patterns", file)], files

    def ran(self, *words, given=b"", **more):
        """The status, and what is written to both ends."""
        before, environment = self.words()
        how = {"stdin": given} if not isinstance(given, bytes) else {"input": given}
        it = subprocess.run([*before, *words], capture_output=True, check=False, cwd=self.folder,
                            env={**os.environ, **environment}, **how, **more)
        return it.returncode, it.stdout, it.stderr.decode()


class Reference(Case):
    """The rules by themselves, as a program."""

    def words(self):
        return [sys.executable, "-m", "oracle"], {"PYTHONPATH": str(ROOT), "PYTHONDONTWRITEBYTECODE": "1"}

    def test_runs(self):
        flags, files = self.flags([ZERO, DOUBLE, b"// \n" + ZERO])
        text = MODULE + DIVIDER + ASKED
        self.assertEqual(self.ran("--brief", *flags[:4], given=text), (1, ANSWERED, ""))
        self.assertEqual(self.ran(*flags[:4], "--format", "json", "--brief", given=text),
                         (1, json_lines.json_of(own.run(text, book=book_of([ZERO, DOUBLE]), explained=True)[1]), ""))
        self.assertEqual(self.ran("--interactive", *flags[:4], "--brief", given=text),
                         (*own.run_live(text, book=book_of([ZERO, DOUBLE])), ""))
        wrong = 2, b"", f"error: {files[2]}: line 2: refused 4 Redefined at 0\n"
        for more in ([], ["--interactive"]):
            self.assertEqual(self.ran(*flags, *more, given=text), wrong)
        for name in ("none", "-", "."):
            self.assertEqual(self.ran(*flags, "--patterns", name), (2, b"", f"error: {name}: it can't be read\n"))
        self.assertEqual(self.ran("--patterns")[:2], (2, b""))


@unittest.skipUnless(has_patterns(), "the program takes no patterns")
class Patterns(Case):
    def test_read(self):
        text = MODULE + DIVIDER + b"patterns\n"
        for title, (texts, _) in READ.items():
            with self.subTest(title):
                flags, _ = self.flags(texts)
                self.assertEqual(self.ran("--brief", *flags, given=text), (*own.run(text, book=book_of(texts)), ""))

    def test_refused(self):
        for title, (texts, wrong, told) in REFUSED.items():
            with self.subTest(title):
                flags, files = self.flags(texts)
                wanted = 2, b"", message(files[wrong], texts[wrong], told)
                for more in ([], ["--brief", "--limit", "5", "--opaque"], ["--interactive"], ["--format", "json"]):
                    self.assertEqual(self.ran(*flags, *more, given=MODULE), wanted)

    def test_asked(self):
        for title, lines in SCRIPTS.items():
            text, book = MODULE + DIVIDER + lines, book_of([ZERO, DOUBLE])
            for is_brief in (True, False):
                status, out = own.run(text, is_brief, book=book)
                # (in JSON refusals are explained)
                _, told = own.run(text, is_brief, book=book, explained=True)
                wanted = {(): out, ("--explain",): told, ("--format", "json"): json_lines.json_of(told),
                          ("--interactive",): own.run_live(text, is_brief, book=book)[1]}
                for texts in ([ZERO, DOUBLE], [b"// both\r\n" + ZERO + b"\n" + DOUBLE[:-1]]):
                    words = ["--brief"] * is_brief + self.flags(texts)[0]
                    for how, those in wanted.items():
                        with self.subTest(title, how=how):
                            self.assertEqual(self.ran(*words, *how, given=text), (status, those, ""))

    def test_by_hand(self):
        flags, _ = self.flags([ZERO, DOUBLE])
        status, out, told = self.ran("--brief", *flags, given=MODULE + DIVIDER + ASKED)
        self.assertEqual((status, told, out), (1, "", ANSWERED))

    def main(self, *words):
        """The status of a tool, and what it writes."""
        with contextlib.redirect_stdout(io.TextIOWrapper(io.BytesIO())) as out, \
                contextlib.redirect_stderr(io.StringIO()) as told:
            status = main.main(words)
            out.flush()
            return status, out.buffer.getvalue().decode(), told.getvalue()

    def test_tools(self):
        """Each tool that runs a program has the patterns of files too."""
        self.addCleanup(program.ask, False)
        flags, files = self.flags([ZERO, b"// \n" + DOUBLE])
        module, script = self.named("m.mlir", MODULE), self.named("s", b"apply zero #3\nrewrite double\n")
        self.assertEqual(self.main("explain", *flags, module, script), (0, "", ""))
        status, out, _ = self.main("explain", module, script)
        self.assertEqual((status, out.count("26 NoSuchKey")), (1, 2))
        page = str(self.folder / "page.html")
        self.assertEqual(self.main("page", *flags, module, script, "-o", page), (0, "", ""))
        self.assertIn('"reply":"converged 1"', pathlib.Path(page).read_text())
        smaller = str(self.folder / "smaller.mlir")
        goal = f"--refused=pattern {ZERO.decode().strip()} = 4"
        self.assertEqual(self.main("reduce", *flags, goal, module, "-o", smaller)[0], 0)
        self.assertEqual(self.main("reduce", goal, module, "-o", smaller)[0], 1)
        for name, told in ((self.named("wrong", ZERO + ZERO), ":2:1: 4 Redefined: found `zero`, expected a new name: "
                            "rename one of the two patterns, or forget the other"),
                           ("none", ": found no such file: correct the name")):
            self.assertEqual(self.main("explain", "--patterns", name, module, script),
                             (2, "", f"mlir-work: {name}{told}\n"))

    def test_prompt(self):
        """Typed lines may name the patterns, in both ways to ask the program."""
        self.addCleanup(program.ask, False)
        program.ask(False, self.flags([ZERO, b"// \n" + DOUBLE])[1])
        for way in (ways.Again, ways.Live) if program.has_option("--interactive") else (ways.Again,):
            here = session.Session(MODULE, way(MODULE))
            self.addCleanup(here.way.stop)
            here.begin(b"")
            self.assertEqual(here.answer("patterns")[0], "ok")
            self.assertEqual([line.split()[0] for line in here.answer("patterns")[1:]], ["zero", "double"])
            self.assertEqual(here.answer("apply zero #3")[:2], ["applied 1", "unproved zero unchecked"])
            self.assertEqual(here.answer("apply zero #4")[:3],
                             ["applied 0", "unproved zero unchecked", "nothing changed"])
            self.assertEqual(here.answer("check zero"), ["holds"])
            self.assertEqual(here.answer("apply zero #4"), ["applied 0", "nothing changed"])
            self.assertEqual(here.answer("pattern " + HALF.decode()), ["ok"])
            self.assertEqual(here.answer("rewrite double trace")[-1][:17], "rewrote double #4")
            typed = completion.Completion(here)
            self.assertEqual([typed.completed(it, f"check {it}", 6) for it in ("ze", "d", "ha", "nope")],
                             [["zero "], ["double "], ["half "], []])

    def test_as_if_defined_at_the_beginning(self):
        """The same comes of patterns of a file and of those that a script defines, but for the numbers of replies."""
        defined = b"pattern " + ZERO + b"pattern " + DOUBLE
        flags, _ = self.flags([ZERO + DOUBLE])
        for title, lines in SCRIPTS.items():
            with self.subTest(title):
                status, out, _ = self.ran("--brief", *flags, given=MODULE + DIVIDER + lines)
                begun = self.ran("--brief", given=MODULE + DIVIDER + defined + lines)
                told = re.sub(rb"(?m)^\d+ (?!:)", lambda it: b"%d " % (int(it[0]) - 2), begun[1])
                self.assertEqual((status, b"-1 ok\n0 ok\n" + out), (begun[0], told))

    def test_a_full_book(self):
        flags, _ = self.flags([MANY])
        text = MODULE + DIVIDER + b"pattern " + ONE_MORE + b"rewrite p1,p0,p255 trace\ncheck p255\nprint\n"
        wanted = own.run(text, book=book_of([MANY]))
        self.assertTrue(wanted[1].startswith(b"1 refused 11 TooMany at 0\n"))
        self.assertEqual(self.ran("--brief", *flags, given=text), (*wanted, ""))

    def test_modules_that_are_refused(self):
        flags, _ = self.flags([ZERO])
        for text in (b'"a"(', b"", b'"a"(\n' + DIVIDER + b"patterns\n"):
            self.assertEqual(self.ran("--brief", *flags, given=text), (*own.run(text, book=book_of([ZERO])), ""))

    def test_the_book_of_the_repository(self):
        file = ROOT / "patterns/arith.patterns"
        book = own.book_of([file])
        names = ",".join(book)
        text = MODULE + DIVIDER + f"patterns\nrewrite {names} trace\nprint\n".encode()
        self.assertEqual(self.ran("--brief", "--patterns", str(file), given=text), (*own.run(text, book=book), ""))
        # What `patterns` prints is a file of patterns.
        _, out, _ = self.ran("--brief", "--patterns", str(file), given=MODULE + DIVIDER + b"patterns\n")
        again = self.named("again.patterns", out.removeprefix(b"1 ok\n"))
        self.assertEqual(self.ran("--brief", "--patterns", again, given=MODULE + DIVIDER + b"patterns\n"), (0, out, ""))

    def test_what_is_not_there(self):
        none, there = str(self.folder / "none"), self.named("a", ZERO)
        for words, name in (([none], none), ([str(self.folder)], str(self.folder)), ([there, none], none),
                            ([none, there], none), (["-"], "-"), ([""], ""), ([f"{there}/b"], f"{there}/b")):
            flags = [word for name in words for word in ("--patterns", name)]
            for more in ([], ["--interactive"], ["--format", "json"]):
                why = MISSING if name in (none, "-", "") else UNREADABLE
                self.assertEqual(self.ran(*flags, *more, given=ZERO), (2, b"", f"error: {name}: {why}\n"))

    def test_all_are_read_before_the_first_is_defined(self):
        flags, files = self.flags([b"5", ZERO])
        os.unlink(files[1])
        self.assertEqual(self.ran(*flags), (2, b"", f"error: {files[1]}: {MISSING}\n"))

    def test_too_long(self):
        """A file may have as many bytes as an input, and a pattern as many as a text: both sides."""
        text, book = MODULE + DIVIDER + b"patterns\nrewrite zero\n", book_of([ZERO])
        most, most_of_one = 33_554_432, 16_777_216
        for written, told in (((ZERO + b"//").ljust(most, b"/"), ""), (ZERO[:-1].ljust(most_of_one, b"/") + b" \n", ""),
                              ((ZERO + b"//").ljust(most + 1, b"/"), "it is longer than an input may be"),
                              (b"\n" + ZERO[:-1].ljust(most_of_one + 1, b"/"),
                               f"line 2: refused 11 TooMany at {most_of_one}")):
            file = self.named("long", written)
            wanted = (*own.run(text, book=book), "")
            if told:
                wanted = 2, b"", message(file, written, told) if "line" in told else f"error: {file}: {TOO_LONG}\n"
            self.assertEqual(self.ran("--brief", "--patterns", file, given=text), wanted)
            if told:
                with self.assertRaises(own.BookRefused) as fault:
                    own.book_of([file])
                self.assertEqual(str(fault.exception), f"{file}: {told}")
            else:
                self.assertEqual(list(own.book_of([file])), ["zero"])

    def test_names(self):
        text = MODULE + DIVIDER + b"patterns\nrewrite zero\n"
        wanted = (*own.run(text, book=book_of([ZERO])), "")
        for name in ("-", "a b", "\u00e4.patterns", "x\ny"):
            self.named(name, ZERO)
            self.assertEqual(self.ran("--brief", "--patterns", name, given=text), wanted)
            self.named(name, b"\n5")
            self.assertEqual(self.ran("--patterns", name),
                             (2, b"", message(name, b"\n5", "line 2: refused 2 Unexpected at 0")))

    def test_a_pipe(self):
        there = self.folder / "pipe"
        os.mkfifo(there)
        with subprocess.Popen(["sh", "-c", 'cat > "$0"', str(there)], stdin=subprocess.PIPE) as writer:
            writer.stdin.write(ZERO)
            writer.stdin.close()
            text = MODULE + DIVIDER + b"patterns\nrewrite zero\n"
            self.assertEqual(self.ran("--brief", "--patterns", str(there), given=text),
                             (*own.run(text, book=book_of([ZERO])), ""))

    def test_nothing_is_read_where_a_line_is_refused(self):
        flags, files = self.flags([ZERO, ZERO])
        told = message(files[1], ZERO, "line 1: refused 4 Redefined at 0")
        with open(self.named("m.mlir", MODULE), "rb") as module:
            for more in ([], ["--interactive"], ["--format", "json"]):
                self.assertEqual(self.ran(*flags, *more, given=module), (2, b"", told))
                self.assertEqual(os.lseek(module.fileno(), 0, os.SEEK_CUR), 0)
            # (it is read where none is refused)
            self.assertEqual(self.ran("--brief", *flags[:2], given=module), (0, b"", ""))
            self.assertEqual(os.lseek(module.fileno(), 0, os.SEEK_CUR), len(MODULE))
        # It ends while what is at its standard input could say more.
        ends = os.pipe()
        try:
            self.assertEqual(self.ran(*flags, given=ends[0], timeout=60), (2, b"", told))
        finally:
            for end in ends:
                os.close(end)


@unittest.skipUnless(has_files(), "the program takes no files")
class Files(Case):
    """Pattern files together with modules, scripts and outputs in files."""

    def test_order(self):
        module, lines = self.named("m.mlir", MODULE), self.named("a.script", b"rewrite zero trace\n")
        flags, _ = self.flags([ZERO, DOUBLE])
        text = MODULE + DIVIDER + b"rewrite zero trace\npatterns\nprint\n"
        wanted = (*own.run(text, book=book_of([ZERO, DOUBLE])), "")
        asked = [module, "-s", lines, "-e", "patterns", "-e", "print"]
        for at in range(0, 8):
            if asked[at - 1] not in ("-s", "-e"):
                words = [*asked[:at], *flags, *asked[at:]]
                self.assertEqual(self.ran("--brief", *words), wanted, words)
        self.assertEqual(self.ran("--brief", flags[0] + "=" + flags[1], *asked, *flags[2:]), wanted)
        self.assertEqual(self.ran("--brief", *flags, "-", *asked[1:], given=MODULE), wanted)
        self.assertEqual(self.ran("--brief", *flags, *asked[1:], given=MODULE), wanted)
        self.assertEqual(self.ran("--brief", *flags, module, "-s", "-", "-e", "print",
                                  given=b"rewrite zero trace\npatterns\n"), wanted)

    def test_each_module_begins_with_all(self):
        """What a module's script defines isn't there in the next one."""
        parts = (MODULE, b'"t.a"() : () -> ()\n', b'"a"(\n', b"", MODULE)
        lines = b"pattern " + HALF + b"check zero\nrewrite zero,double\npatterns\nprint\n"
        module, lines_file = self.named("m.mlir", DIVIDER.join(parts)), self.named("a.script", lines)
        flags, _ = self.flags([ZERO, DOUBLE])
        ends = [own.run(part + DIVIDER + lines, book=book_of([ZERO, DOUBLE])) for part in parts]
        self.assertEqual([status for status, _ in ends], [0, 0, 3, 0, 0])
        status, out, told = self.ran("--brief", "--split-input-file", *flags, module, "-s", lines_file)
        self.assertEqual((status, out), (3, DIVIDER.join(out for _, out in ends)))
        self.assertEqual(told.partition(" ")[0], f"{module}:{len(MODULE.splitlines()) + 5}:1:")
        ends = [own.run(part + DIVIDER + lines, book=book_of([ZERO, DOUBLE]), explained=True) for part in parts]
        told = b'{"divider":true}\n'.join(json_lines.json_of(out) for _, out in ends)
        self.assertEqual(self.ran("--brief", "--split-input-file", "--format", "json", *flags, "-s", lines_file,
                                  given=DIVIDER.join(parts)), (3, told, ""))

    def test_output(self):
        module, out = self.named("m.mlir", MODULE), self.folder / "out"
        flags, files = self.flags([ZERO, b"\n\n" + ZERO])
        told = message(files[1], b"\n\n" + ZERO, "line 3: refused 4 Redefined at 0")
        asked = [module, "-e", "rewrite zero", "-o", str(out)]
        self.assertEqual(self.ran(*asked, *flags), (2, b"", told))
        self.assertFalse(out.exists())
        out.write_bytes(b"kept")
        self.assertEqual(self.ran(*flags, *asked), (2, b"", told))
        self.assertEqual(out.read_bytes(), b"kept")
        text = MODULE + DIVIDER + b"rewrite zero\n"
        status, wanted = own.run(text, False, book=book_of([ZERO]))
        self.assertEqual(self.ran(*flags[:2], *asked), (status, b"", ""))
        self.assertEqual(out.read_bytes(), wanted)

    def test_patterns_come_first(self):
        """A wrong pattern is reported before a missing module or script, and standard input isn't read."""
        flags, files = self.flags([b"5"])
        told = message(files[0], b"5", "line 1: refused 2 Unexpected at 0")
        none = str(self.folder / "none")
        for words in ([none], ["-s", none], [none, "-s", none, "-o", f"{none}/a"], ["-"], ["--split-input-file"]):
            with open(self.named("m.mlir", MODULE), "rb") as module:
                self.assertEqual(self.ran(*words, *flags, given=module), (2, b"", told))
                self.assertEqual(os.lseek(module.fileno(), 0, os.SEEK_CUR), 0)
        self.assertEqual(self.ran(none, "--patterns", none + "2")[2], f"error: {none}2: {MISSING}\n")

    def test_one_file_for_both(self):
        """A script isn't a file of patterns: each of its lines would be one."""
        lines = self.named("a.script", b"// both\nrewrite zero\n")
        self.assertEqual(self.ran("--patterns", lines, "-s", lines, given=MODULE),
                         (2, b"", message(lines, b"// both\nrewrite zero\n", "line 2: refused 2 Unexpected at 8")))

    @unittest.skipUnless(os.path.exists("/dev/full"), "there is no /dev/full")
    def test_full(self):
        flags, _ = self.flags([ZERO])
        self.assertEqual(self.ran(*flags, self.named("m.mlir", MODULE), "-e", "patterns", "-o", "/dev/full"),
                         (4, b"", ""))


if __name__ == "__main__":
    unittest.main()
