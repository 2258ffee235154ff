"""A program for tests that has `--interactive`: it answers by oracle, a line at a time, or a whole run. With
FAIL_AT in the environment it ends at the line of that number, once: the file that GONE names says that it did."""
import os
import pathlib
import sys

import checkout  # noqa: F401
from oracle import script
from oracle.module import read, rules
from oracle.script import printing

OUT = sys.stdout.buffer
BAD = " refused 60 BadCommand\n", True


def answer(text):
    """Writes an answer."""
    OUT.write(text.encode("latin-1") + b"\n")
    OUT.flush()


def module_text():
    """The lines of the module, up to the divider, which may be the last line without its end."""
    lines = iter(sys.stdin.buffer.readline, b"")
    text = b"".join(iter(lambda: next(lines, b"// -----\n"), b"// -----\n"))
    return text[:-len(b"// -----")] if ("\n" + text.decode("latin-1")).endswith("\n// -----") else text


def fail(count):
    """Ends at the line that FAIL_AT names, unless it did so before."""
    gone = pathlib.Path(os.environ.get("GONE", "/none"))
    if os.environ.get("FAIL_AT") == str(count) and not gone.exists():
        gone.write_text("")
        os.kill(os.getpid(), 9)


def live(brief, limit):
    """Answers a line at a time, and gives the status."""
    try:
        here = script.Run(read(module_text()), limit=limit)
    except rules.Refused as fault:
        OUT.write(f"module refused {printing.refusal(fault)}\n".encode())
        return 3
    answer("")
    count, status = 0, 0
    for line in iter(sys.stdin.buffer.readline, b""):
        for text in script.lines_of(line.removesuffix(b"\n")):
            count += 1
            fail(count)
            reply, is_listed = BAD if text is None else here.reply(text)
            status |= reply.startswith(" refused")
            answer(f"{count}{reply}" + (here.all_rows() if is_listed and not brief else ""))
    return status


def main():
    words = sys.argv[1:]
    if "--help" in words:
        print("Options:\n      --brief        Leave out\n      --interactive  Answer each line at once")
        return 0
    brief, limit = "--brief" in words, script.LIMIT
    if "--limit" in words:
        limit = int(words[words.index("--limit") + 1])
    if "--interactive" in words:
        return live(brief, limit)
    status, out = script.run(sys.stdin.buffer.read(), brief, limit=limit)
    OUT.write(out)
    return status


if __name__ == "__main__":
    sys.exit(main())
