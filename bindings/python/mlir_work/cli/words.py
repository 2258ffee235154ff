"""The words of the prompt that aren't commands of a script: the form and the description of each. Help, completion and
the man page read them here."""
import re
import textwrap

NUMBER = r"#?(\d{1,9})"
# A mark's name, as a script keeps it in a comment.
NAME = r"[A-Za-z_][\w.-]*"


class Own:
    """A word: its form, a pattern for the rest of its line, and its description."""

    def __init__(self, form, rest, about):
        self.form, self.rest, self.about = form, re.compile(rest), about


WORDS = {
    "ids": Own("ids", "", "show the module with the number of each operation, and the value names that commands use"),
    "at": Own("at #N [K]", rf"{NUMBER}(?:\s+(\d{{1,9}}))?",
              "show only the K lines (default 3) before and after operation #N"),
    "find": Own("find NAME", r"(\S+)", "show only the lines that contain NAME, as `arith.addi`, `@f`, `%v3.0` or "
                                       "`arith.*`"),
    "diff": Own("diff [MARK|start]", rf"({NAME})?",
                "show the changes since the last `diff`; since the open mark MARK; or since the `start`"),
    "undo": Own("undo [N]", r"(\d{1,9})?", "undo the last edit, or the last N"),
    "redo": Own("redo [N]", r"(\d{1,9})?", "redo the last undone edit, or the last N"),
    "save": Own("save FILE", r"(\S.*)", "write the accepted lines as a script"),
    "source": Own("source FILE", r"(\S.*)", "run the lines of a script as if they were typed"),
    "write": Own("write FILE [--pretty]", r"(\S.*?)(\s+--pretty)?",
                 "write the module, with `--pretty` as mlir-opt prints it"),
    "help": Own("help [WORD]", r"(\S.*)?", "list these words; or explain a command, a kind, a refusal (22, HasUses), a "
                                           "rule of the verifier (V15), or a rule of `canon` and `convert` (10, "
                                           "erase-dead)"),
    "quit": Own("quit", "", "end the session"),
}
# Commands of a script that take a name at the prompt.
NAMED = {
    "begin": Own("begin NAME", rf"({NAME})", "make a mark with a name"),
    "rollback": Own("rollback NAME", rf"({NAME})", "roll back to the mark NAME; drop this mark and all later ones"),
}
OF_KIND = Own("KIND [WORD]", r"(\S+)?", "`report KIND`; with a WORD, as #3 or %v2.0, only the rows that contain it")


def found(own, rest):
    """Returns the parts of what follows a word, or None if it can't follow."""
    it = own.rest.fullmatch(rest)
    return it and it.groups()


def wrong(own, word, rest):
    """Returns the message if something can't follow a word."""
    form = own.form.replace("KIND", word)
    if not rest:
        return f"`{word}` needs more words: write `{form}`"
    return f"`{rest}` can't follow `{word}`: write `{form}`"


def rows(width=100):
    """Returns the words as a table."""
    those = [*WORDS.values(), *NAMED.values(), OF_KIND]
    margin = max(len(own.form) for own in those) + 4
    return [line for own in those for line in textwrap.wrap(
        own.about, width, initial_indent=f"  {own.form}".ljust(margin), subsequent_indent=" " * margin,
        break_on_hyphens=False)]
