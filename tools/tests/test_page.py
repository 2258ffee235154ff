"""The web page of a script over a module: its text and, if a chromium is installed, its contents after clicks and
keys."""
import html.parser
import json
import os
import pathlib
import random
import resource
import subprocess
import sys
import tempfile
import unittest

import support
from support import ROOT, listing, program

import browser
from mlir_work.cli import generic, page, replay
from mlir_work.rewrites import Rewrite, rewrite_of
from mlir_work.script import is_counted

NAMES = sorted(file.stem for file in (ROOT / "examples").glob("*.mlir"))
# Text that would be code in a page that doesn't escape it.
HOSTILE = b'"test.a"() {"<b>&amp;" = "<!--", a = "</script><img src=x onerror=alert(1)>"} : () -> ()\n'
if not browser.found():
    print("no chromium is installed: the page isn't clicked through", file=sys.stderr)


def example(name):
    """The module and the script of an example."""
    return [(ROOT / f"examples/{name}.{ending}").read_bytes() for ending in ("mlir", "script")]


def filled(module, script, most=replay.MOST):
    """The steps of a script over a module."""
    steps, refused = replay.read(module, script, most)
    assert not refused, refused
    replay.fill(module, steps)
    return steps


def page_of(module, script, title="x.mlir"):
    """The page of a script over a module."""
    return page.written(page.Data().all(title, filled(module, script)))


class Reader(html.parser.HTMLParser):
    """The elements of a page in their order, with what they are given, and the text of the data."""

    def __init__(self, text):
        super().__init__()
        self.found, self.data, self.title = [], "", ""
        self.feed(text)
        self.close()

    def handle_starttag(self, tag, attrs):
        self.found.append((tag, dict(attrs)))

    def handle_data(self, data):
        if self.found and self.found[-1] == ("script", {"type": "application/json", "id": "data"}):
            self.data += data
        if self.found and self.found[-1][0] == "title":
            self.title += data.rstrip()


def applied(old, splices):
    """A list with splices put in."""
    new = list(old)
    for at, count, ids in splices:
        new[at:at + count] = ids
    return new


def played(data):
    """The lines and the rows at each step, as the page has them."""
    lines, rows = [], {kind: [] for kind in data["kinds"]}
    for step in data["steps"]:
        lines = applied(lines, step.get("module", []))
        rows = {kind: applied(rows[kind], step.get("rows", {}).get(kind, [])) for kind in rows}
        yield ([data["texts"][line] for line in lines],
               {kind: [data["rows"][kind][row] for row in those] for kind, those in rows.items()})


class Splices(unittest.TestCase):
    def test_by_chance(self):
        chance = random.Random(59)
        for _ in range(2000):
            old, new = ([chance.randrange(9) for _ in range(chance.randrange(12))] for _ in "ab")
            if chance.random() < 0.7:
                old, new = list(dict.fromkeys(old)), list(dict.fromkeys(new))
            self.assertEqual(applied(old, page.splices(old, new)), new)

    def test_few(self):
        self.assertEqual(page.splices([1, 2, 3, 4, 5], [1, 9, 3, 4, 5, 6]), [[1, 1, [9]], [5, 0, [6]]])
        self.assertEqual(page.splices([1, 2], [1, 2]), [])


class Steps(unittest.TestCase):
    def test_examples(self):
        """After each line of a script, the module and the rows are those of the program."""
        for name in ("canon", "hoist", "signature", "sweep"):
            module, script = example(name)
            steps = filled(module, script)
            lines = [line.decode() for line in script.split(b"\n") if is_counted(line)]
            self.assertEqual([step.line for step in steps[1:] if not step.part or step.part[0] == step.part[1]], lines)
            asked = [*lines, *(f"report {kind}" for kind in steps[0].state.rows)]
            told = support.replies(program.asked(module, asked))
            self.assertEqual([below for _, below in told[len(lines):]], list(steps[-1].state.rows.values()))
            self.assertEqual(steps[-1].state.lines, replay.keyed(listing.listed(module, lines)))
            whole = played(json.loads(Reader(page.written(page.Data().all(name, steps))).data))
            for step, (texts, rows) in zip(steps, whole, strict=True):
                self.assertEqual((texts, rows), ([text for _, text in step.state.lines], step.state.rows))

    def test_rewrites(self):
        module, _ = example("canon")
        steps = filled(module, b"canon")
        self.assertEqual([step.part for step in steps[1:]], [(at, 15) for at in range(1, 16)])
        self.assertEqual(steps[-1].reply, "rewrite 15 of 15: converged 15")
        self.assertEqual(steps[-1].state.lines, filled(module, b"canon limit 999")[-1].state.lines)
        self.assertEqual(len(filled(module, b"canon\n" * 2)), 17)

    def test_rewrites_by_some_rules(self):
        module, _ = example("canon")
        for line in (b"canon trace", b"rewrite 1,10", b"rewrite 10,1 trace", b"canon only 1,10", b"canon limit 3",
                     b"canon only 10,1 trace limit 2", b"\tcanon  trace\tlimit 4", b"canon fired limit 3",
                     b"rewrite 1,10 fired"):
            with self.subTest(line):
                steps = filled(module, line)
                reply = support.replies(program.asked(module, [line.decode()]))[0][0]
                count = int(reply.split()[1])
                self.assertGreater(count, 1)
                self.assertEqual([step.part for step in steps[1:]], [(at, count) for at in range(1, count + 1)])
                self.assertEqual(steps[-1].reply, f"rewrite {count} of {count}: {reply}")
                self.assertEqual(steps[-1].state.lines, replay.keyed(listing.listed(module, [line.decode()])))

    def test_each_rewrite_has_its_rule(self):
        """The rewrites of the steps are those of the trace, and the page has their rules and the operations' texts."""
        module, _ = example("canon")
        told = support.replies(program.asked(module, ["canon trace"]))[0][1]
        for line in (b"canon", b"canon trace", b"canon limit 1", b"canon fired limit 1"):
            steps = filled(module, line)[1:]
            found = [it for step in steps for it in step.rewrites]
            self.assertEqual(found, [rewrite_of(it) for it in told[:len(steps)]])
        data = page.Data().all("x", filled(module, b"canon"))
        self.assertEqual(data["steps"][1]["by"],
                         [["10 regroup-constants", 6, '%v6.0 = "arith.addi"(%v5.0, %v3.0) <{overflowFlags = '
                           '#arith.overflow<none>}> : (i32, i32) -> i32']])
        steps = filled(module, b"apply 10 #6\napply 10 #6\ncanon at #3")
        self.assertEqual([step.rewrites for step in steps], [[], [Rewrite(10, "regroup-constants", 6)], [], []])

    def test_rewrites_at_an_operation(self):
        """A `canon` at one operation is shown by steps at this operation."""
        module = b'%a = "a"() : () -> i8\n' + b'%z = "arith.constant"() <{value = 0 : i8}> : () -> i8\n' \
            b'%x = "arith.addi"(%z, %a) : (i8, i8) -> i8\n"b"(%x) : (i8) -> ()\n'
        steps = filled(module, b"canon at #3")
        self.assertEqual(steps[-1].state.lines, replay.keyed(listing.listed(module, ["canon at #3"])))
        self.assertGreater(len(steps), 2)

    def test_unproved_patterns(self):
        """A step that rewrites by a pattern that no check proves says so, and so does the page."""
        module, _ = example("canon")
        script = (b"pattern swap arith.addi(%x, %y) => arith.addi(%y, %x)\napply swap #6\nrewrite swap limit 2\n"
                  b"rewrite 10 limit 1\npatterns")
        steps = filled(module, script)
        self.assertEqual([step.unproved for step in steps], [
            [], [], ["unproved swap unchecked"], *[["unproved swap unchecked"]] * 2, [], []])
        shown = [step.get("unproved") for step in page.Data().all("canon", steps)["steps"]]
        self.assertEqual(shown, [step.unproved or None for step in steps])

    def test_conversions_that_are_told(self):
        module = (ROOT / "examples/index.mlir").read_bytes()
        named = "arith.constant,arith.addi,arith.muli,scf.for"
        for line in (f"convert trace partial dynamic {named} rules 28,29",
                     f"convert  trace\tpartial dynamic {named},arith.index_cast rules 29,28",
                     "convert trace partial dynamic arith.muli,arith.addi rules 28"):
            with self.subTest(line):
                steps = filled(module, line.encode())
                (reply, told), = support.replies(program.asked(module, [line]))
                count = len(told)
                self.assertEqual(reply, f"converted {count}")
                self.assertGreater(count, 1)
                self.assertEqual([step.part for step in steps[1:]], [(at, count) for at in range(1, count + 1)])
                self.assertEqual([step.run[0].split()[2] for step in steps[1:]], [it.split()[3] for it in told])
                self.assertEqual(steps[-1].reply, f"rewrite {count} of {count}: {reply}")
                self.assertEqual(steps[-1].state.lines, replay.keyed(listing.listed(module, [line])))
                few = filled(module, line.encode(), 4)
                self.assertEqual([step.part for step in few[1:]], [(at, count) for at in range(1, min(count, 3) + 1)])
                self.assertEqual(few[-1].state.lines, steps[-1].state.lines)
        for line in (b"convert trace partial illegal scf.for", b"convert trace partial", b"convert partial"):
            self.assertEqual([step.part for step in filled(module, line)], [None, None])
        refused = filled(module, b"convert trace partial illegal scf.for")[1]
        self.assertTrue(refused.says()[0].endswith("; stays #7 no-rule"), refused.says())

    def test_most(self):
        module, _ = example("canon")
        whole = filled(module, b"canon\nset-attr #1 k 1\n")
        steps = filled(module, b"canon\nset-attr #1 k 1\n", 12)
        self.assertEqual([step.reply for step in steps[6:]],
                         ["rewrite 6 of 15", "rewrites 7 to 15: converged 15", "ok"])
        self.assertEqual(steps[-1].state.lines, whole[-1].state.lines)
        short = filled(module, b"canon\nset-attr #1 k 1\n", 3)
        self.assertEqual([step.line for step in short], ["", "canon", "canon", "// 1 more steps"])
        self.assertEqual(short[-1].state.lines, whole[-1].state.lines)

    def test_all_marks(self):
        module, _ = example("fold")
        steps = filled(module, b"begin\n" * 16 + b"set-attr #1 k 1\nbegin\nrollback\ndetach uses\n")
        self.assertEqual(steps[18].reply, "refused 34 TooManyMarks")
        self.assertEqual(steps[17].state.lines, replay.keyed(listing.listed(module, ["set-attr #1 k 1"])))
        self.assertEqual(steps[19].state.lines, steps[0].state.lines)
        self.assertEqual(steps[20].state.rows["uses"], "refused 41 NoSuchKind")

    def test_nothing(self):
        steps = filled(b"", b"")
        self.assertEqual([text for _, text in steps[0].state.lines][0], '"builtin.module"() ({')

    def test_refused(self):
        module, _ = example("fold")
        (_, refused, unknown, bytes_), data = filled(module, b"erase #2\nerase 8\n\xff\n"), page.Data()
        words = "found uses by #4, expected none: erase the users first, or `replace` the value"
        self.assertEqual(refused.says(), (words, None, None))
        self.assertEqual(unknown.says()[1], 6)
        self.assertEqual(data.step(bytes_, bytes_.state)["line"], "\\xff")


class Written(unittest.TestCase):
    def test_nothing_is_code(self):
        script = b'set-attr #1 k "<script>alert(2)</script>"\n// <i>\nerase <b>\n'
        plain = [found for found in Reader(page_of(b"", b"")).found]
        it = Reader(page_of(HOSTILE, script, "<u>&x.mlir"))
        self.assertEqual(it.found, plain)
        self.assertEqual(it.title, "<u>&x.mlir, step by step")
        data = json.loads(it.data)
        self.assertIn(HOSTILE.decode().strip(), [text.strip() for text in data["texts"]])
        self.assertEqual(data["steps"][-1]["notes"], ["<i>"])
        self.assertNotIn("<", it.data)

    def test_alone(self):
        for tag, given in Reader(page_of(*example("fold"))).found:
            self.assertFalse({"src", "href", "srcset"} & set(given), tag)
        code = "".join((page.WEB / f"page.{name}").read_text() for name in ("css", "js"))
        for word in ("http", "url(", "import", "fetch", "innerHTML", "eval(", "insertAdjacent", "document.write"):
            self.assertNotIn(word, code)


class Called(unittest.TestCase):
    def setUp(self):
        folder = tempfile.TemporaryDirectory()
        self.addCleanup(folder.cleanup)
        self.folder = pathlib.Path(folder.name)

    def call(self, *words, **more):
        """The status of a call and its messages."""
        it = subprocess.run([sys.executable, str(ROOT / "tools/page.py"), *words], cwd=self.folder, text=True,
                            capture_output=True, check=False, **more)
        return it.returncode, it.stdout + it.stderr

    def test_files(self):
        module = str(ROOT / "examples/fold.mlir")
        self.assertEqual(self.call(module, str(ROOT / "examples/fold.script")), (0, ""))
        self.assertTrue(json.loads(Reader((self.folder / "replay.html").read_text()).data)["steps"])
        (self.folder / "one").write_bytes(b"\n// -----\n".join(example("fold")))
        self.assertEqual(self.call("one", "-o", "other.html"), (0, ""))
        self.assertTrue((self.folder / "other.html").exists())

    def test_names_that_are_not_utf8(self):
        """The names of the module and of the page may have any bytes; the page shows those of the module's name."""
        names = [os.fsencode(self.folder) + it for it in (b"/bad\xff<.mlir", b"/out\xfe.html")]
        with open(names[0], "wb") as file:
            file.write(b"\n// -----\n".join(example("fold")))
        self.assertEqual(self.call(names[0], "-o", names[1]), (0, ""))
        with open(names[1], encoding="utf-8") as file:
            found = Reader(file.read())
        self.assertEqual(json.loads(found.data)["title"], "bad\\xff<.mlir")
        self.assertTrue(found.title.startswith("bad\\xff<.mlir"), found.title)

    def test_as_a_whole(self):
        """If the page can't be written, the file is unchanged, and no other file is left next to it."""
        page_there = self.folder / "replay.html"
        page_there.write_text("kept\n")

        def few():
            resource.setrlimit(resource.RLIMIT_FSIZE, (4096, 4096))
        status, told = self.call(str(ROOT / "examples/fold.mlir"), str(ROOT / "examples/fold.script"), preexec_fn=few)
        self.assertEqual((status, [file.name for file in self.folder.iterdir()]), (4, ["replay.html"]), told)
        self.assertEqual(page_there.read_text(), "kept\n")

    def test_what_is_no_plain_file(self):
        """A pipe is written to, and a link leads to the file that is written."""
        it = subprocess.run([sys.executable, str(ROOT / "tools/page.py"), str(ROOT / "examples/fold.mlir"), "-o",
                             "/dev/stdout"], capture_output=True, text=True, check=False)
        self.assertEqual((it.returncode, it.stderr), (0, ""))
        self.assertTrue(json.loads(Reader(it.stdout).data)["steps"])
        (self.folder / "link.html").symlink_to("there.html")
        self.assertEqual(self.call(str(ROOT / "examples/fold.mlir"), "-o", "link.html"), (0, ""))
        self.assertTrue((self.folder / "link.html").is_symlink())
        self.assertEqual((self.folder / "there.html").read_text(), it.stdout)

    @unittest.skipUnless(generic.tool(), "mlir-opt isn't installed")
    def test_pretty(self):
        (self.folder / "pretty").write_text("func.func @f(%a: i32) -> i32 {\n  return %a : i32\n}\n")
        (self.folder / "script").write_text("report uses\n")
        status, told = self.call("pretty", "script")
        self.assertEqual((status, told), (0, f"pretty: in generic form, as {generic.tool()[0]} prints it\n"))
        self.assertIn("func.return", (self.folder / "replay.html").read_text())

    def test_wrong(self):
        (self.folder / "bad").write_text('"a"(%x) : (i1) -> ()\n')
        status, told = self.call("bad")
        self.assertEqual(status, 3)
        self.assertIn("bad:1:5: 3 UnknownValue: found `%x`", told)
        self.assertFalse((self.folder / "replay.html").exists())
        self.assertEqual(self.call("none")[0], 4)
        self.assertEqual(self.call()[0], 2)
        self.assertEqual(self.call("--help")[0], 0)
        self.assertEqual(self.call("bad", "--most", "x")[0], 2)


@unittest.skipUnless(browser.found(), "no chromium is installed")
class Clicked(unittest.TestCase):
    @classmethod
    def setUpClass(cls):
        cls.here = browser.Browser(browser.found())
        cls.addClassCleanup(cls.here.close)
        folder = tempfile.TemporaryDirectory()
        cls.addClassCleanup(folder.cleanup)
        cls.folder = pathlib.Path(folder.name)
        cls.steps = filled(*example("canon"))
        cls.address = cls.put("canon", page.written(page.Data().all("canon.mlir", cls.steps)))

    @classmethod
    def put(cls, name, text):
        """The address of a page."""
        file = cls.folder / f"{name}.html"
        file.write_text(text)
        return file.as_uri()

    def texts(self, chosen):
        """The texts of some elements."""
        return self.here.value(f"[...document.querySelectorAll('{chosen}')].map(it => it.textContent)")

    def lines(self):
        """The lines of the module that are seen, without those that went; without the margin."""
        return self.here.value("[...document.querySelectorAll('#module .row:not(.go)')]"
                               ".sort((it, other) => parseInt(it.style.top) - parseInt(other.style.top))"
                               ".map(it => it.textContent.slice(it.children[0].textContent.length + 1))")

    def check(self, number):
        """Whether the page shows a step."""
        self.assertEqual(self.lines(), [text for _, text in self.steps[number].state.lines])
        self.assertEqual(self.texts("#position"), [f"{number} of {len(self.steps) - 1}"])
        self.assertEqual(self.here.value("location.hash"), f"#step={number}")

    def test_each_step(self):
        self.here.open(self.address)
        self.check(0)
        for number in range(1, len(self.steps)):
            self.here.point("document.getElementById('next')", True)
            self.check(number)
        self.here.press("Home")
        self.check(0)
        self.here.press("End")
        self.check(len(self.steps) - 1)
        self.here.press("ArrowLeft")
        self.check(len(self.steps) - 2)
        self.here.value("get('steps').focus()")
        self.here.press("ArrowUp")
        self.check(len(self.steps) - 3)

    def test_only_changes(self):
        self.here.open(self.address)
        self.here.point("document.getElementById('effective')", True)
        self.here.press("ArrowRight")
        self.check(2)
        acting = [at for at, (step, last) in enumerate(zip(self.steps[1:], self.steps), 1)
                  if vars(step.state) != vars(last.state)]
        shown = self.here.value("items.filter(it => it.title === undefined).map(it => it.at)")
        self.assertEqual(shown, [0, *acting])

    def test_at_a_step(self):
        self.here.open(self.address + "#step=4")
        self.check(4)
        self.assertEqual(self.texts("#module .go .gutter"), ["#7", "#8"])
        self.assertEqual(self.texts("#module .come .other"), ["%v17.0", ", ", "%v17.0", "%v17.0"])
        self.assertEqual(self.texts("#rows .go"), ["−%v6.0 #7 1", "−%v6.0 #7 2", "−%v6.0 #8 1"])
        self.assertEqual(self.texts(".tab[aria-selected=true] .many"), ["19"])

    def test_rules(self):
        """A step of a `canon` shows its rule and the operation, and the list names the rule."""
        number = next(at for at, step in enumerate(self.steps) if step.rewrites and step.part)
        self.here.open(f"{self.address}#step={number}")
        rule, operation, text = page.rewrite_row(self.steps[number].rewrites[0], self.steps[number - 1].state)
        self.assertEqual(self.texts("#told .by"), [f"{rule} at #{operation} {text}"])
        self.assertTrue(any(name.startswith(f"{rule}  ") for name in self.texts("#steps .part .name")))

    def test_reports(self):
        self.here.open(self.address + "#step=5")
        for place, (kind, rows) in enumerate(self.steps[5].state.rows.items(), 1):
            self.here.press(str(place))
            self.assertEqual(self.texts("#rows .row:not(.go) .word"), rows, kind)

    def test_pointer(self):
        self.here.open(self.address + "#step=4")
        self.here.point("""document.querySelector('#module [data-value="%v7.0"]')""")
        self.assertEqual(self.texts("#module .user .gutter"), ["#8", "#14"])
        self.assertEqual(self.texts("#module .maker .gutter"), ["#7"])
        self.assertTrue(self.texts("#detail")[0].startswith('%v7.0 is a result of #7 "arith.select" · 2 uses: #8'))
        self.here.point("""document.querySelector('#module [data-value="%a1.0.0"]')""", True)
        self.here.point("document.getElementById('detail')")
        self.assertEqual([text.strip() for text in self.texts("#module .maker")],
                         ["^bb0(%a1.0.0: i32, %a1.0.1: i1, %a1.0.2: i8):"])
        self.here.press("Escape")
        self.assertEqual(self.texts("#module .maker"), [])

    def test_refused(self):
        self.here.open(self.put("hoist", page_of(*example("hoist"))) + "#step=4")
        told = self.texts("#told")[0]
        self.assertIn("move #10 before #7refused 23 NotVisibleThe value can't be seen where", told)
        self.assertIn("A load must not be moved before the index that it reads at:", told)

    def test_not_attached(self):
        self.here.open(self.put("bare", page_of(example("fold")[0], b"detach uses\nprint\n")) + "#step=2")
        self.assertEqual(self.texts("#rows .empty"), ["no uses report: refused 41 NoSuchKind"])
        self.here.point("""document.querySelector('#module [data-value="%v2.0"]')""")
        self.assertTrue(self.texts("#detail")[0].endswith("no uses report"))

    def test_find(self):
        self.here.open(self.address)
        self.here.press("/")
        self.here.ask("Input.insertText", text="#12")
        self.here.press("Enter")
        self.assertEqual(self.texts("#module .maker .gutter"), ["#12"])

    def test_hostile(self):
        self.here.open(self.put("hostile", page_of(HOSTILE, b"erase <b>\n")) + "#step=1")
        self.assertEqual(self.here.value("document.querySelectorAll('img, b, i').length"), 0)
        self.assertIn("</script><img", self.texts("#module")[0])

    def test_many(self):
        """Of 10,000 operations only what is seen is laid out."""
        begun = replay.State([(str(at), f'  %v{at}.0 = "a"() : () -> i32') for at in range(10000)],
                             {"uses": [f"%v{at}.0 #{at + 1} 0" for at in range(9999)]})
        steps = [replay.Step("", "")]
        steps[0].state, lines = begun, list(begun.lines)
        for at in range(1, 200):
            it = str(at + 10000), f'  %v{at + 10000}.0 = "b"() : () -> i32'
            lines = lines[:at * 40] + [it] + lines[at * 40 + 1:]
            steps.append(replay.Step(f"erase #{at}", "ok", (), [f"erase #{at}"]))
            steps[-1].state = replay.State(lines, begun.rows)
        data = {**page.Data().all("many", steps), "kinds": ["uses"]}
        self.here.open(self.put("many", page.written(data)))
        self.assertEqual(self.texts("#size"), ["10,000 operations"])
        self.here.value("for (let at = 1; at < 200; at++) go(at)")
        self.here.frame()
        self.assertLess(self.here.value("document.querySelectorAll('.row').length"), 250)
        self.assertIn("#10199", self.texts("#module .come .gutter"))


if __name__ == "__main__":
    unittest.main()
