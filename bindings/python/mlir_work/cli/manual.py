"""Writes the man page and the completions of shells. For `mlir_work`, the page comes from `mlir_work --help` and the
completions from docs/commands.json (table.py); gate/words.py checks that both agree. For `mlir-work`, they come from
the arguments of its commands (main.py) and the words of the prompt (words.py).

usage: python3 -m mlir_work.cli.manual man|bash|zsh HELP [VERSION]     (HELP is a file with the text of --help)"""
import importlib
import pathlib
import re
import sys

from . import main as command_line
from . import table, words

PROMPT, PROGRAM = "mlir-work", "mlir_work"
RUN = f"{PROMPT} {command_line.RUN}"
ABOUT_RUN = f"run a script over a module, as `{PROGRAM}` does, with the options below"
# The choices of the option --format.
FORMATS = "text json"


def options():
    """Returns the options of the program: the word, the argument, and the description."""
    return [(row["word"].strip("-"), row["takes"], row["about"]) for row in table.rows("options")]


class Part:
    """The command line of a part of `mlir-work`: its arguments and its options."""

    def __init__(self, word):
        self.word, (self.about, name) = word, command_line.COMMANDS[word]
        self.places, self.options = [], []
        importlib.import_module(f".{name}", __package__).arguments(self)

    def add_argument(self, *names, **how):
        """Notes an argument or an option, in place of an argument parser."""
        shown = how.get("metavar") or "|".join(how.get("choices", []))
        if names[0].startswith("-"):
            self.options.append((names, shown, how["help"]))
        else:
            self.places.append((f"[{shown}]" if how.get("nargs") == "?" else shown, how["help"]))

    def add_mutually_exclusive_group(self, **_):
        """Notes a group of options that exclude each other."""
        return self

    def usage(self):
        """Returns how the part is called."""
        return " ".join([PROMPT, self.word, *["[OPTIONS]"] * bool(self.options), *(shown for shown, _ in self.places)])

    def rows(self):
        """Returns the part with its options, as the man page has them."""
        those = [(", ".join(f"{name} {shown}".strip() for name in names), about)
                 for names, shown, about in self.options]
        lines = [f"{self.usage()}", f"    {self.about}"]
        return "\n".join(lines + [f"      {name}\n          {about}" for name, about in self.places + those])


def parts():
    """Returns the parts of `mlir-work`."""
    return [Part(word) for word in command_line.COMMANDS]


def plain(text):
    """Returns a text as the man page has it, line by line."""
    lines = text.replace("\\", "\\e").replace("-", "\\-").splitlines()
    return "\n".join("\\&" + line if line[:1] in (".", "'") else line for line in lines)


def man(text, version):
    """Returns the man page. Each part of the help that has a title is a section."""
    about, _, rest = text.partition("\nUsage: ")
    usage, _, rest = rest.partition("\n")
    found = [f'.TH MLIR_WORK 1 "" "mlir_work {version}"', ".SH NAME",
             f"{PROGRAM} \\- {plain(' '.join(about.split('.')[0].split()).replace('Edits', 'edits'))}",
             ".SH SYNOPSIS", plain(usage), f".br\n{plain(usage.replace(PROGRAM, RUN))}",
             *(f".br\n{plain(part.usage())}" for part in parts()),
             ".SH DESCRIPTION", plain(about.strip()), ".PP",
             plain(f"{PROMPT} open opens a prompt on a module: it answers one command after another, and `help` there "
                   f"lists them. {PROMPT} FILE is the same."),
             ".SH MLIR-WORK", ".nf",
             plain("\n\n".join([*(part.rows() for part in parts()), f"{RUN} [OPTIONS] [MODULE]\n    {ABOUT_RUN}"])),
             ".fi",
             ".SH AT THE PROMPT", ".nf", plain("\n".join(words.rows(76))), ".fi"]
    for part in rest.strip("\n").split("\n\n"):
        title = re.match(r"([A-Z][\w ]*):\n|(?=(Commands), )", part)
        if title:
            found += [f".SH {(title[1] or title[2]).upper()}", ".nf", plain(part[title.end():]), ".fi"]
        else:
            found += [".PP", ".nf", plain(part), ".fi"]
    return "\n".join(found) + "\n"


def bash(*_):
    """Returns the completion for bash: the options of the program, and files for the prompt."""
    of_program = " ".join(f"--{word}" for word, *_ in options())
    cases = "\n".join(f"        {part.word}) options='{' '.join(names[-1] for names, *_ in part.options)}' ;;"
                      for part in parts())
    cases += f"\n        {command_line.RUN}) options='{of_program}' ;;"
    return f"""_{PROGRAM}() {{
    case ${{COMP_WORDS[COMP_CWORD-1]}} in
    --limit) ;;
    --format) COMPREPLY=($(compgen -W "{FORMATS}" -- "${{COMP_WORDS[COMP_CWORD]}}")) ;;
    *) COMPREPLY=($(compgen -W "{of_program}" -- "${{COMP_WORDS[COMP_CWORD]}}")) ;;
    esac
}}
complete -F _{PROGRAM} {PROGRAM}
_{PROGRAM}_prompt() {{
    local options= word=${{COMP_WORDS[COMP_CWORD]}}
    case ${{COMP_WORDS[1]}} in
{cases}
    esac
    if [ "$COMP_CWORD" = 1 ]; then
        COMPREPLY=($(compgen -W "{' '.join(command_line.commands())}" -- "$word"; compgen -f -- "$word"))
    elif [[ $word == -* ]]; then
        COMPREPLY=($(compgen -W "$options" -- "$word"))
    fi
}}
complete -o default -F _{PROGRAM}_prompt {PROMPT}
"""


def of_zsh(text):
    """Returns a text as brackets of zsh have it."""
    return re.sub(r"([\[\]:])", r"\\\1", text.replace("'", ""))


def zsh_options(part):
    """Returns the options of a part of `mlir-work`."""
    return " ".join(f"'{names[-1]}[{of_zsh(about)}]{':' + shown if shown else ''}'"
                    for names, shown, about in part.options)


def zsh(*_):
    """Returns the completion for zsh."""
    quoted = [of_zsh(about) for *_, about in options()]
    rows = [f"  '--{word}[{about}]{':' + takes if takes else ''}{f':({FORMATS})' if takes == 'FORMAT' else ''}'"
            for (word, takes, _), about in zip(options(), quoted)]
    commands = " ".join(f"'{word}:{of_zsh(about)}'" for word, about in [
        *((part.word, part.about) for part in parts()), (command_line.RUN, ABOUT_RUN)])
    cases = "\n".join([*(f"    {part.word}) _arguments {zsh_options(part)} '*:file:_files' ;;" for part in parts()),
                       f"    {command_line.RUN}) _arguments {' '.join(map(str.strip, rows))} '*:file:_files' ;;"])
    return f"""#compdef {PROGRAM} {PROMPT}
if [[ $service = {PROMPT} ]]; then
  if (( CURRENT == 2 )); then
    local -a commands=({commands})
    _describe command commands
    _files
    return
  fi
  case $words[2] in
{cases}
    *) _files ;;
  esac
else
  _arguments \\
""" + " \\\n".join("  " + row for row in rows) + "\nfi\n"


def main():
    makers = {"man": man, "bash": bash, "zsh": zsh}
    if len(sys.argv) not in (3, 4) or sys.argv[1] not in makers:
        sys.exit(__doc__)
    text = pathlib.Path(sys.argv[2]).read_text()
    print(makers[sys.argv[1]](text, sys.argv[3] if len(sys.argv) > 3 else ""), end="")


if __name__ == "__main__":
    main()
