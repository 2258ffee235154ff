#!/usr/bin/env python3
"""The table of words, docs/commands.json: options, commands, placeholders of commands, kinds of analyses,
refusals, rules of rewriting and rules of the verifier. The tools, the man page and the completions take theirs there.

It is made of the code: of the help (mlir_work_cli/src/text.rt), the words that a line is read by (mlir_work_script),
and the numbers and words of kinds (mlir_work_script_base), refusals and rules, each with what the code says of it.
Checked is that the table is that of these sources; that the help names each word by which a line is read, and no other;
that tools/help.txt is the help; that each kind, refusal and rule has its section in the pages; that oracle has
the words; and that the man page, the completions of shells and of the prompt have each.

usage: gate/words.py             at the top of the repository; the status is 1 if something is wrong
       gate/words.py --write     writes the table"""
import json
import re
import sys

from checkout import ROOT

TABLE = ROOT / "docs/commands.json"

FRONT = "crates/mlir_work_cli/src"
SCRIPT = "crates/mlir_work_script/src"
BELOW = "crates/mlir_work_script_base/src"
READERS = ("command", "session_command", "registry_command", "expected_refusal")
# Refusals that no command answers.
UNANSWERED = {"NotEmpty"}
# Words after the first one of a line, which these files compare in the same way.
BEHIND = {"all", "at", "fired", "limit", "only", "proved", "trace", "width"}


def source(path):
    """A file of the code."""
    return (ROOT / path).read_text()


# ---- what the code says

def help_text():
    """The text of --help, as the program prints it."""
    return source("tools/help.txt")


def texts():
    """The texts of the help in the code, by their names."""
    found = re.findall(r'const (\w+): &str = "(?:\\\n)?((?:[^"\\]|\\.)*)";', source(f"{FRONT}/text.rt"))
    return {name: re.sub(r"\\(.)", r"\1", text) for name, text in found}


def rows(text):
    """The rows of a part of the help: the term, and its description."""
    found = []
    for line in text.splitlines():
        begins = re.match(r"  (\S.*?)(?:  +(\S.*))?$", line)
        if begins and not line.startswith("   "):
            found.append([begins[1], begins[2] or ""])
        elif found and line.startswith("    "):
            found[-1][1] = f"{found[-1][1]} {line.strip()}".strip()
    return found


def part(text, title, end="\n\n"):
    """The part of a text from a title to an end."""
    return text.partition(title)[2].partition(end)[0]


def options(text):
    """The options."""
    found = re.findall(r"^ +(?:-(\w), )?--([\w-]+)(?: <(\w+)>)? +(.*)$", part(text, "\nOptions:\n") + "\n", re.M)
    return [{"word": f"--{word}", "letter": f"-{letter}" * bool(letter), "takes": takes, "about": about}
            for letter, word, takes, about in found]


def commands(text):
    """The forms of commands, each with its first word and the title of its part."""
    whole, found = part(text, "\nCommands", "\nOperations are numbered"), []
    for block in whole.split("\n\n")[1:]:
        title, _, below = block.strip("\n").partition("\n")
        found += [{"word": form.split()[0], "form": form, "part": title.rstrip(":"), "about": about}
                  for form, about in rows(below)]
    return found


def stand_ins(text):
    """What stands for the words of forms."""
    return [{"word": word, "about": about} for word, about in rows(part(text, "\nOperations are numbered", "\n\nEach"))]


def variants(path, name):
    """The variants of an enum: the number and the documentation of each, by its name."""
    body = part(source(path), f"pub enum {name} {{", "\n}")
    return {it[2]: (int(it[3]), " ".join(it[1].replace("///", "").split()))
            for it in re.finditer(r"((?:    ///.*\n)+)    (\w+) = (\d+),", body)}


def named_variants(path, name):
    """The rows of an enum that has a word for each variant."""
    words = dict(re.findall(rf'{name}::(\w+) => "([\w-]+)"', source(path)))
    return [{"number": number, "word": words[variant], "about": about}
            for variant, (number, about) in variants(path, name).items()]


def kinds(text):
    """The kinds of analyses."""
    said = dict(rows(part(text, "\nKinds:\n")))
    found = re.findall(r'(\d+) => Some\(b"(\w+)"\)', source(f"{BELOW}/kind.rt"))
    return [{"number": int(number), "word": word, "about": said.get(word, "")} for number, word in found]


def read_words():
    """The words by which a line is read."""
    found = {it for file in READERS for it in re.findall(r'name [!=]= b"([\w!-]+)"', source(f"{SCRIPT}/{file}.rt"))}
    return found - BEHIND


def verifier():
    """The rules of the verifier, with the titles of the page."""
    found = re.findall(r"^### V(\d+): (.*)$", source("docs/VERIFIER.md"), re.M)
    return [{"number": int(number), "word": f"V{number}", "about": title} for number, title in found]


def messages():
    """The sentences of the messages on refused modules: by the words of refusals; on constructs, by their words; and on
    what `--opaque` accepts."""
    code = source("crates/mlir_work/src/messages.rt")
    causes = dict(re.findall(r'UnsupportedConstruct::(\w+) => b"([\w-]+)"',
                             source("crates/mlir_work_notes/src/unsupported.rt")))
    found = []
    for name, of in (("wanted", "module"), ("unsupported_expected", "construct")):
        arms = part(code, f"fn {name}(", "\n}\n")
        for word, text in re.findall(r'(?:\w+::(\w+)|_) =>\s*b?"((?:[^"\\]|\\.)*)"', arms):
            found.append({"of": of, "word": causes.get(word, word) or "other" * (of == "construct"), "about": text})
    opaque = re.search(r'b"( is not modelled: .*?)"', code, re.S)[1]
    found.append({"of": "opaque", "word": "", "about": opaque})
    return [{**row, "about": re.sub(r"\\(.)", r"\1", row["about"])} for row in found]


def table():
    """The table of these sources."""
    text = help_text()
    return {"options": options(text), "commands": commands(text), "words": stand_ins(text), "kinds": kinds(text),
            "refusals": named_variants("crates/ir_types/src/refusal.rt", "Refusal"),
            "rules": named_variants("crates/patterns_base/src/rule.rt", "Rule"), "verifier": verifier(),
            "messages": messages()}


def written(found):
    """The table as written in its file: a row a line."""
    parts = [f'"{name}": [\n' + ",\n".join(json.dumps(row, ensure_ascii=False) for row in those) + "\n]"
             for name, those in found.items()]
    return "{\n" + ",\n".join(parts) + "\n}\n"


# ---- what is to agree with it

def differ(where, found, wanted):
    """The differences between the words found and those expected."""
    for word in sorted(set(wanted) - set(found), key=str):
        yield f"{where}: {word} is missing"
    for word in sorted(set(found) - set(wanted), key=str):
        yield f"{where}: {word} is no word of the code"


def column(found, name, key="word"):
    """A column of a part of the table."""
    return [row[key] for row in found[name]]


def help_apart(found):
    """Where the help and the code differ."""
    text, constants = help_text(), texts()
    yield from differ("tools/help.txt, commands", column(found, "commands"), read_words())
    yield from differ("tools/help.txt, kinds", [word for word, _ in rows(part(text, "\nKinds:\n"))],
                      column(found, "kinds"))
    yield from (f"{FRONT}/text.rt: {name} isn't in tools/help.txt as it stands there"
                for name, it in constants.items() if name != "VERSION" and it not in text)
    shown = [word for row in found["commands"] for word in re.findall(r"#?[A-Z]+", row["form"])]
    said = column(found, "words")
    yield from (f"tools/help.txt: {word} is said of no form" for word in said if word not in shown)


def pages_apart(found):
    """Which of the words have no section in the pages, and which sections are of no word."""
    def titles(page, pattern):
        return re.findall(pattern, source(f"docs/{page}.md"), re.M)
    numbered = [f"{row['number']} {row['word']}" for row in found["refusals"] if row["word"] not in UNANSWERED]
    yield from differ("docs/REFUSALS.md", titles("REFUSALS", r"^### (\d+ \w+)$"), numbered)
    rules = [f"{row['number']} `{row['word']}`" for row in found["rules"]]
    yield from differ("docs/CANONICALIZE.md and docs/CONVERT.md", titles("CANONICALIZE", r"^## (\d+ `[\w-]+`): ")
                      + titles("CONVERT", r"^### (\d+ `[\w-]+`): "), rules)
    sections = titles("REPORTS", r"^##+ (.*)$")
    yield from (f"docs/REPORTS.md: {kind} has no section" for kind in column(found, "kinds") if kind not in sections)


def reference_apart(found):
    """Where oracle has other words."""
    from oracle import analyses, rewrites, script

    def pairs(name):
        return {(row["number"], row["word"]) for row in found[name]}
    yield from differ("oracle, kinds", analyses.KINDS.items(), pairs("kinds"))
    yield from differ("oracle, refusals", script.REFUSALS.items(), pairs("refusals"))
    yield from differ("oracle, rules", enumerate(rewrites.WORDS, 1), pairs("rules"))
    yield from differ("oracle, commands", script.ALL | {"expect"}, column(found, "commands"))


def tools_apart(found):
    """What the man page and the completions lack."""
    from mlir_work.cli import completion, manual
    text = help_text()
    page = manual.man(text, "").replace("\\-", "-").replace("\\e", "\\").replace("\\&", "")
    for name, key in (("commands", "form"), ("options", "word"), ("kinds", "word"), ("words", "word")):
        yield from (f"the man page: {word} is missing" for word in column(found, name, key) if word not in page)
    for shell in (manual.bash, manual.zsh):
        yield from (f"the completion of {shell.__name__}: {word} is missing" for word in column(found, "options")
                    if word not in shell(text, "") and word not in ("--help", "--version"))
    typed = completion.Completion(None)
    yield from (f"completion at the prompt: {word} is missing"
                for word in column(found, "commands") + column(found, "kinds") if word not in typed.first())
    asked = set(typed.behind("help", "help ", ""))
    yield from (f"`help` of the prompt: {word} is missing" for name in ("refusals", "rules", "verifier")
                for word in column(found, name) if word.lower() not in asked and word not in UNANSWERED)


def main():
    if sys.argv[1:] not in ([], ["--write"]):
        sys.exit(__doc__)
    found = table()
    if sys.argv[1:]:
        TABLE.write_text(written(found))
    wrong = [*help_apart(found), *pages_apart(found), *reference_apart(found)]
    if not TABLE.is_file() or TABLE.read_text() != written(found):
        wrong.append("docs/commands.json: it isn't that of these sources; gate/words.py --write writes it")
    else:
        wrong += tools_apart(found)
    print(*wrong, f"{sum(map(len, found.values()))} words, {len(wrong)} wrong", sep="\n")
    sys.exit(bool(wrong))


if __name__ == "__main__":
    main()
