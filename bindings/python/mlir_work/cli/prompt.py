"""A prompt on a module: it answers each typed line at once, and `help` lists the commands."""
import cmd
import contextlib
import re
import sys
import time

from . import explain, kept, nesting, program, traces
from .completion import Completion
from .progress import Progress
from .screen import Screen
from .session import Session

try:
    import readline
except ImportError:
    readline = None

PROMPT, MORE = "> ", ".. "
STRING = re.compile(r'"(?:[^"\\]|\\.)*"?')
COMMENT = re.compile(r"//.*")
TOKEN = re.compile(rf"({STRING.pattern})|({COMMENT.pattern})|[^\"/]+|/")
INTRO = "`help` lists the commands, Tab completes, `quit` ends."


def bare(line):
    """Returns a line without its comment, and the number of brackets that it leaves open."""
    kept_parts, depth = [], 0
    for it in TOKEN.finditer(line):
        if not it[2]:
            kept_parts.append(it[0])
        if not it[1] and not it[2]:
            depth += sum(it[0].count(mark) for mark in "([{") - sum(it[0].count(mark) for mark in ")]}")
    return "".join(kept_parts), depth


class Prompt(cmd.Cmd):
    """Reads lines and answers them. On a terminal, it keeps what is typed in a file, and lines have a history."""

    prompt = PROMPT

    def __init__(self, session, screen, script, progress):
        super().__init__()
        self.session, self.screen, self.script = session, screen, script
        self.is_typed, self.completion = sys.stdin.isatty(), Completion(session)
        self.told, self.progress = set(), progress
        if not self.is_typed:
            self.prompt = ""

    # Input.

    def precmd(self, line):
        """Returns the line to answer. An `insert` continues on the next lines until its brackets are closed, or until
        an empty line. Lines that don't come from a terminal are echoed."""
        if not self.is_typed and line != "EOF":
            print(PROMPT + line)
        self.remember(line)
        if line.split()[:1] != ["insert"]:
            return line
        line, depth = bare(line)
        while depth > 0:
            try:
                more = input(MORE if self.is_typed else "")
            except EOFError:
                break
            if not self.is_typed:
                print(MORE + more)
            self.remember(more)
            if not more.strip():
                break
            more, deeper = bare(more)
            line, depth = f"{line.rstrip()} {more.strip()}", depth + deeper
        return line

    def remember(self, line):
        """Adds a line to the history."""
        if line and line != "EOF" and self.is_typed and readline:
            with self.may_fail("the history isn't kept"):
                readline.append_history_file(1, str(kept.folder() / kept.HISTORY))

    @contextlib.contextmanager
    def may_fail(self, words):
        """Reports once that something can't be written, and lets the session continue."""
        try:
            yield
            self.told.discard(words)
        except OSError as fault:
            if words not in self.told:
                self.screen.say([f"{words}: {fault}"])
            self.told.add(words)

    def onecmd(self, line):
        """Answers a line. Returns True at the end."""
        if line == "EOF":
            print(end="\n" * self.is_typed)
            return True
        if line.strip() == "quit":
            return True
        try:
            with self.progress.of(line):
                said = self.session.answer(line)
        except KeyboardInterrupt:
            said = ["interrupted"]
        except (OSError, program.Fault) as fault:
            said = self.session.no(f"{fault}: the line had no effect, as if never typed")
        self.keep()
        self.screen.say(said)
        return False

    def keep(self):
        """Saves the accepted lines in the folder of sessions."""
        if self.is_typed:
            with self.may_fail("what is typed isn't kept"):
                self.script.save(self.session.script())

    # Completion.

    def completenames(self, text, line, begin, _):
        return self.completedefault(text, line, begin, _)

    def complete_help(self, text, line, begin, _):
        return self.completedefault(text, line, begin, _)

    def completedefault(self, text, line, begin, _):
        """Returns the completions of a text, or none if the program can't be started."""
        try:
            return self.completion.completed(text, line, begin)
        except (OSError, program.Fault):
            return []

    # The loop.

    def begin(self):
        """Reads the history."""
        if not (self.is_typed and readline):
            return
        readline.set_completer_delims(" \t,()")
        readline.clear_history()
        file = kept.folder() / kept.HISTORY
        with self.may_fail("the history isn't kept"):
            file.parent.mkdir(parents=True, exist_ok=True)
            if file.exists():
                readline.read_history_file(str(file))
            readline.set_history_length(kept.MOST_HISTORY)
            readline.write_history_file(str(file))

    def go(self):
        """Answers lines up to the end, and returns the status. Ctrl-C clears a half-typed line, which goes to the
        history."""
        self.begin()
        if self.is_typed:
            self.screen.say([INTRO])
        while True:
            try:
                self.cmdloop()
                break
            except KeyboardInterrupt:
                line = readline.get_line_buffer() if readline and self.is_typed else ""
                if line.strip():
                    readline.add_history(line)
                    self.remember(line)
                print("^C")
        self.script.end()
        return int(self.session.refusals > 0)


def begun(name, module, script, screen):
    """Returns a session on a module, and the output of its script. A refused module is converted to generic form, or
    nested, and tried again. If that is refused too, the session's `seen` is None."""
    tried = []

    def attempt(text):
        session = Session(text)
        tried[:] = [session, session.begin(script)]
        return tried[1].refused if session.seen is None else None

    nesting.read(name, module, attempt, screen.say)
    return tuple(tried)


def left_script(script):
    """Returns the script of a session that didn't end normally, if the user resumes it."""
    for it in script.left():
        when = time.strftime("%Y-%m-%d %H:%M", time.localtime(it.time))
        other = "" if it.is_of_module else "; the file has changed: the lines are for the file as it was then"
        print(f"Found an unfinished session on this file: {len(it.script.splitlines())} lines of {when}, in "
              f"{it.path}{other}")
        answer = input("Run these lines: yes, not now, or discard them? [y/n/d] ").strip().lower()
        if answer in ("y", "yes"):
            return it
        if answer in ("d", "drop"):
            it.drop()
    return None


def opened(given, screen):
    """Returns a session over the files, after its script was run and explained, and the file that keeps the session. If
    the module is refused, returns the status in place of the session."""
    names = [given.module] + [given.script] * bool(given.script)
    text, typed, first = program.inputs(names)
    script = kept.Kept(given.module, text)
    taken = left_script(script) if sys.stdin.isatty() else None
    if taken:
        names, typed, first = [given.module, str(taken.path)], taken.script, 3
    session, done = begun(given.module, text, typed, screen)
    if session.seen is None:
        print(*explain.module_refused(given.module, session.module, done.refused), sep="\n", file=sys.stderr)
        return done.status, script
    screen.say(session.shown(done.lines))
    screen.say(explain.commands_refused(names[-1], (session.module, typed), first, done.replies()))
    if taken:
        session.start = []
        script.save(session.script())
        taken.taken()
    return session, script


def arguments(parser):
    """Adds the arguments of the command."""
    parser.add_argument("module", metavar="MODULE",
                        help="a file with a module; if it isn't in generic form, mlir-opt converts it (set MLIR_OPT to "
                             "its command)")
    parser.add_argument("script", metavar="SCRIPT", nargs="?", help="a file with commands to run first")
    parser.add_argument("--color", choices=["auto", "always", "never"], default="auto",
                        help="whether to colour the output [default: auto, on a terminal without NO_COLOR]")
    parser.add_argument(traces.TEXTS, action="store_true",
                        help="show the operations of a trace: below each line the rewritten operation before the typed "
                             "command, and the new operations after it, if they still exist; such a command costs two "
                             "more `print ids`")
    program.arguments(parser)
    program.blocks_argument(parser)


def run(given):
    """Runs a session, and returns its status: 1 if something was refused."""
    sys.stdin.reconfigure(errors="surrogateescape")
    sys.stdout.reconfigure(errors="surrogateescape")
    screen, progress = Screen(given.color), Progress()
    program.TICKS[:] = [progress.tick] * progress.is_terminal
    session, script = opened(given, screen)
    if isinstance(session, int):
        return session
    session.shows_texts = given.texts
    try:
        return Prompt(session, screen, script, progress).go()
    finally:
        session.way.stop()
