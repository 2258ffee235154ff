"""Shows answers: in colours on a terminal, in a pager if they are longer than the screen, and plainly elsewhere."""
import contextlib
import os
import re
import shlex
import shutil
import signal
import subprocess
import sys

OFF = "\033[0m"
# Lines of a `diff` that were removed or added, the symbol that contains them, and refusals.
COLORS = [(re.compile(r"-(?: *#[\d?]+| {6})  "), "\033[31m"), (re.compile(r"\+(?: *#[\d?]+| {6})  "), "\033[32m"),
          (re.compile("@@ "), "\033[36m"), (re.compile(r"refused \d+ |\d+ refused "), "\033[33m")]


def colored(line):
    """Returns a line in its colour, if there is one."""
    code = next((code for pattern, code in COLORS if pattern.match(line)), None)
    return f"{code}{line}{OFF}" if code else line


class Screen:
    """Shows lines on standard output. `color` is `auto`, `always` or `never`."""

    def __init__(self, color="auto"):
        self.is_terminal = sys.stdout.isatty()
        is_plain = bool(os.environ.get("NO_COLOR")) or os.environ.get("TERM", "dumb") == "dumb"
        self.is_colored = color == "always" or color == "auto" and self.is_terminal and not is_plain

    def say(self, lines):
        """Shows lines at once."""
        text = "".join([(colored(line) if self.is_colored else line) + "\n" for line in lines])
        is_long = self.is_terminal and sys.stdin.isatty() and len(lines) >= shutil.get_terminal_size().lines
        if not (is_long and self.paged(text)):
            sys.stdout.write(text)
            sys.stdout.flush()

    def paged(self, text):
        """Shows a text by the pager. Returns False if there is none. Ctrl-C goes to the pager meanwhile."""
        words = shlex.split(os.environ.get("PAGER", "less"))
        if not words or not shutil.which(words[0]):
            return False
        before = signal.signal(signal.SIGINT, signal.SIG_IGN)
        try:
            pager = subprocess.Popen(words, stdin=subprocess.PIPE, env={"LESS": "FRX", **os.environ})
            with contextlib.suppress(BrokenPipeError), pager.stdin as pipe:
                pipe.write(text.encode("utf-8", "surrogateescape"))
            pager.wait()
        except OSError:
            return False
        finally:
            signal.signal(signal.SIGINT, before)
        return True
