"""Completes a word at the prompt: words, kinds, and the operations and values of the module."""
import glob
import os
import re

from . import forms, pages, program, targets, words

PLACES = ["before", "after", "start", "end"]
OF_FILES = {"save", "source", "write"}
NAME = re.compile(r'(?<== )"[^"]+"(?=\()|^ *"[^"]+"(?=\()')


class Completion:
    """Completes the words typed in a session."""

    def __init__(self, session):
        self.session = session

    def first(self):
        """Returns the words that a line may begin with."""
        return [*words.WORDS, *forms.kinds(), *forms.forms()]

    def names(self):
        """Returns the names of the operations in the module, in quotes."""
        return {it[0].strip() for text in self.session.listing().texts if (it := NAME.search(text))}

    def patterns(self):
        """Returns the names of the patterns from the files of the command line, and of the typed ones."""
        typed = [line.split()[1] for line in self.session.kept() if line.split()[:1] in (["pattern"], ["pattern!"])]
        return program.named_from_the_start() + typed

    def of_kind(self, kind):
        """Returns the completions for a placeholder of a form."""
        if kind == "KIND":
            return forms.kinds()
        if kind == "#N":
            return [f"#{number}" for number in self.session.listing().operations]
        if kind == "VALUE":
            return self.session.listing().values
        if kind == "MODE":
            return ["partial", "full"]
        if kind == "RULE":
            return [name for name in pages.rules() if not re.fullmatch(r"v\d+", name)] + self.patterns()
        if kind == "NAME":
            return self.patterns()
        return kind.strip("()").split("|") if forms.LITERAL.fullmatch(kind) else []

    def wanted(self, before):
        """Returns the completions after the words of a command."""
        found = []
        for form in forms.forms()[forms.first_word(before)[0]]:
            fit = forms.Fit(form, before)
            rest = before[fit.column:].split() if fit.column is not None else []
            if fit.wanted == "PLACE":
                found += PLACES if not rest else self.of_kind("#N") if len(rest) == 1 else []
            elif fit.wanted and fit.wanted.startswith("CLAUSE"):
                found += self.clause(before)
            elif fit.wanted and not rest:
                found += self.of_kind(fit.wanted)
        return found or (self.clause(before) if forms.first_word(before)[0] == "convert" else [])

    def clause(self, before):
        """Returns the completions after the words of a `convert`."""
        typed = before.split()
        last = typed[-2] if before.endswith(",") else typed[-1]
        kind = targets.CLAUSES.get(last)
        if kind == "NAMES":
            return [name.strip('"') for name in self.names()]
        if kind:
            return map(str, sorted(targets.RULES)) if kind == "NUMBERS" else []
        return [word for word in targets.CLAUSES if word not in typed]

    def behind(self, word, before, text):
        """Returns the completions after the first word of a line."""
        if word in OF_FILES:
            found = glob.glob(glob.escape(os.path.expanduser(text)) + "*")
            return [name + "/" * os.path.isdir(name) for name in found] + ["--pretty"] * (word == "write")
        if word == "help":
            return {*self.first(), *pages.refusals(), *pages.rules()}
        if word in ("diff", "rollback"):
            return [name for name, _ in self.session.marks() if name] + ["start"] * (word == "diff")
        if word == "find":
            return [name.strip('"') for name in self.names()]
        return self.wanted(before) if word in forms.forms() else self.of_kind("#N") if word == "at" else []

    def completed(self, text, line, begin):
        """Returns the completions of a text that begins at a place of a line."""
        before = line[:begin]
        if not before.strip():
            found = self.first()
        elif text[:1] in ("#", "%"):
            found = self.of_kind("#N" if text[0] == "#" else "VALUE")
        elif text[:1] == '"':
            found = self.names()
        else:
            found = self.behind(before.split()[0], before, text)
        begun = sorted({word for word in found if word.startswith(os.path.expanduser(text))})
        return [word if word.endswith("/") else word + " " for word in begun]
