"""The two ways in which a session asks the program. Both give the same answers.

`Again` runs all edits again for each line. `Live` keeps one process that holds the module and reads a line at a time.
It needs a program with the option `--interactive`. After an `undo`, or if the process ended, it starts a new process
and sends it all edits."""
import itertools

from ..errors import ModuleRefused, ProcessLost
from ..reply import NO_REPLY, Reply
from . import program
from .forms import kinds, looks
from .listing import COMMAND, Listing

# Commands that need the analyses.
WITH_ANALYSES = {"attach", "detach", "report", "resync"}
# The reply to each line of a script that is too long: the program writes only one reply.
REFUSED = Reply("refused 60 BadCommand")


def fitting(module):
    """Returns the way in which to ask the program about a module: `Live` if the program supports it."""
    return (Live if program.has_option("--interactive") else Again)(module)


class Runner:
    """A module, and how to ask the program about it. `kept` are the edits before a request."""

    def __init__(self, module):
        self.module = module

    def asked(self, kept, lines, wanted=()):
        """Returns the replies to some lines. Only the analyses in `wanted` have to be attached."""
        raise NotImplementedError

    def answer(self, kept, line):
        """Returns the reply to a line."""
        wanted = kinds() if line.split()[0] in WITH_ANALYSES else ()
        return self.asked(kept, [line], wanted)[0]

    def tried(self, kept, lines, question):
        """Returns the replies to some lines, and the reply to a question after them."""
        wanted = question.split()[1:2] if question.startswith("report ") else ()
        *replies, last = self.asked(kept, [*lines, question], wanted)
        return replies, last

    def listed(self, kept):
        """Returns the listing of the module."""
        return Listing(self.asked(kept, [COMMAND])[0].shown)

    def rewritten(self, kept, line, known):
        """Returns the reply to a line, and the listings before and after it. `known` is the listing before it, if it is
        cached."""
        *first, reply, behind = self.asked(kept, [*[COMMAND] * (known is None), line, COMMAND])
        before = Listing(first[0].shown) if known is None else known
        return reply, before, None if reply.is_refused else Listing(behind.shown)

    def stop(self):
        """Ends the process, if there is one."""


class Again(Runner):
    """Runs all edits again before each line."""

    def asked(self, kept, lines, wanted=()):
        script = [*(f"detach {kind}" for kind in kinds() if kind not in wanted), *kept]
        replies = program.asked(self.module, [*script, *lines]).replies()
        found = list(itertools.islice(replies, len(script), None))
        return found + [REFUSED] * (len(lines) - len(found))


class Live(Runner):
    """Sends each line to one process; `held` are the edits that it accepted."""

    def __init__(self, module):
        super().__init__(module)
        self.process, self.held = None, []

    def stop(self):
        if self.process:
            self.process.abandon()
        self.process, self.held = None, []

    def hold(self, kept):
        """Brings the process into the state after some edits."""
        if self.process and self.held != kept[:len(self.held)]:
            self.stop()
        if not self.process:
            self.process = program.process(self.module)
        self.told(kept[len(self.held):])
        self.held = list(kept)

    def told(self, lines):
        """Returns the replies of the process to some lines."""
        return self.process.lines([line.encode("utf-8", "surrogateescape") for line in lines])

    def once(self, kept, lines):
        """Returns the replies to some lines, which may edit the module of the process. They are empty if the module is
        refused. Any exception ends the process, since its next answer is unknown."""
        try:
            self.hold(kept)
            return self.told(lines)
        except ModuleRefused:
            return [NO_REPLY] * len(lines)
        except BaseException:
            self.stop()
            raise

    def replies(self, kept, lines):
        """Returns the replies to some lines. Starts a second process if the first one ends meanwhile."""
        try:
            return self.once(kept, lines)
        except ProcessLost:
            pass
        try:
            return self.once(kept, lines)
        except ProcessLost as fault:
            raise program.Fault(str(fault)) from None

    def asked(self, kept, lines, wanted=()):
        replies = self.replies(kept, lines)
        self.held += [line for line, reply in zip(lines, replies)
                      if not reply.is_refused and line.split()[0] not in looks()]
        return replies

    def tried(self, kept, lines, question):
        _, *replies, last, _ = self.replies(kept, ["begin", *lines, question, "rollback"])
        return replies, last
