"""Shows on a terminal for how long a line has had no answer. The answer erases it."""
import contextlib
import math
import os
import shutil
import sys
import time

# Seconds without an answer before anything is shown.
PATIENCE = 2.0
ERASE = "\r\033[K"
NOT_PRINTED = "?"


class Progress:
    """One line on standard error, which `tick` writes and writes again each second. Nothing is written if standard
    error isn't a terminal that can erase a line."""

    def __init__(self):
        self.is_terminal = sys.stderr.isatty() and os.environ.get("TERM", "dumb") != "dumb"
        self.line, self.start, self.shown = None, 0.0, 0

    @contextlib.contextmanager
    def of(self, line):
        """Shows for how long a line is being answered, and erases that at the end."""
        text = " ".join(line.split())
        self.line = "".join([it if " " <= it <= "~" else NOT_PRINTED for it in text])
        self.start, self.shown = time.monotonic(), 0
        try:
            yield
        finally:
            self.line = None
            if self.shown:
                self.write("")

    def tick(self):
        """Shows the seconds up to now. Returns the seconds after which to call it again, or None if no line is being
        answered."""
        if self.line is None or not self.is_terminal:
            return None
        passed = time.monotonic() - self.start
        if passed >= PATIENCE and int(passed) > self.shown:
            self.shown = int(passed)
            self.write(self.text())
        return max(PATIENCE, math.floor(passed) + 1) - passed

    def text(self):
        """Returns what is shown, which fits on a line of the terminal."""
        columns, end = shutil.get_terminal_size().columns, f": {self.shown} s, Ctrl-C stops it"
        room = max(columns - 1 - len(end), 0)
        begin = self.line if len(self.line) <= room else self.line[:max(room - 3, 0)] + "..."
        return (begin + end)[:max(columns - 1, 0)]

    def write(self, text):
        """Replaces what is shown. If the terminal is gone, nothing more is shown, and the line is still answered."""
        try:
            sys.stderr.write(ERASE + text)
            sys.stderr.flush()
        except OSError:
            self.is_terminal = False
