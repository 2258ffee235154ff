"""Runs of a program with refused allocations, by a library that is loaded before the C library (refuse.c)."""
import os
import pathlib
import subprocess
import tempfile

SOURCE = pathlib.Path(__file__).with_name("refuse.c")
ALL = 1 << 40


class Program:
    """A program, and the library in a folder, which is built there by the C compiler."""

    def __init__(self, path, folder):
        self.path, self.library = path, f"{folder}/refuse.so"
        subprocess.run([os.environ.get("CC", "cc"), "-shared", "-fPIC", "-O1", "-o", self.library, str(SOURCE)],
                       check=True)

    def told(self, text, number, words, more):
        """The report of the library, the status and the output. (The input is a file: from a pipe the program may read
        less at once, and then it has other growths.)"""
        told, teller = os.pipe()
        env = {"LD_PRELOAD": self.library, "REFUSED_ALLOCATION": str(number), "REFUSED_TELL": str(teller), **more}
        with tempfile.TemporaryFile() as given:
            given.write(text)
            given.seek(0)
            ended = subprocess.run([self.path, *words], stdin=given, capture_output=True, env=env, pass_fds=[teller],
                                   timeout=600)
        os.close(teller)
        said = os.read(told, 99)
        os.close(told)
        return said, (ended.returncode, ended.stdout)

    def run(self, text, number, brief=True, many=1, until=None):
        """Whether the allocation of a number was there to be refused, and the status and what was written; with it as
        many from it on, until a text was written."""
        more = {"REFUSED_MANY": str(many), **({"REFUSED_UNTIL": until} if until else {})}
        said, answer = self.told(text, number, ["--brief"] * brief, more)
        return said == b"!", answer

    def count(self, text, brief=True):
        """How many allocations a run makes, and the status and what was written."""
        said, answer = self.told(text, 0, ["--brief"] * brief, {})
        return int(said), answer
