"""Names of a checkout that lead to nothing: a check of seconds before any prover runs."""
from renaming.tree import Tree


def imports_of(tokens: list):
    """Returns the imports of a file: the token of the path and the tokens of the names that it brings."""
    for at, it in enumerate(tokens):
        if it.kind == "Antt" and it.text.startswith("Rattle."):
            names, place = [], at + 1
            if place + 1 < len(tokens) and tokens[place].text == "." and tokens[place + 1].text == "{":
                place += 2
                while tokens[place].text != "}":
                    if tokens[place].text != ",":
                        names.append(tokens[place])
                    if tokens[place].text == "as":
                        names.pop()
                        place += 1
                    place += 1
            yield it, names


def defined(tree: Tree, thing, name: str) -> bool:
    """Whether a file of specs has a definition; of what the checker makes nothing is known."""
    if thing and thing[0] == "file" and thing[2] == "specs":
        return name in tree.words(thing[1], thing[3])
    return True


def hidden(tree: Tree) -> list[str]:
    """Returns a line for each file of proofs whose name the checker uses for what it generates from the code."""
    found = []
    for crate in tree.crates.values():
        root = crate.modules.get("")
        made = {it.lower() for it in crate.modules if it}
        handed = {*root.items, *(it.name for it in root.uses if it.is_public)} if root else set()
        found += [f"{file}: `{stem}` is a module or an item of the crate"
                  for stem, file in crate.files["proofs"].items() if stem.lower() in made or stem in handed]
    return found


def unresolved(tree: Tree) -> list[str]:
    """Returns a line for each path that leads to nothing, and for each file that the checker's own names hide."""
    found = []
    for file, tokens in tree.tokens.items():
        for it, names in imports_of(tokens):
            path = tuple(it.text.split("."))
            if path[1] in tree.crates:
                thing = tree.walk(path)[-1]
                if thing is None:
                    found.append(f"{file}: {it.text}")
                else:
                    found += [f"{file}: {it.text}.{name.text}" for name in names if not defined(tree, thing, name.text)]
            elif path[1] != "std" and f"Rattle.{path[1]}" not in tree.kit:
                found.append(f"{file}: {it.text}")
    for crate in tree.crates.values():
        for module in crate.modules.values():
            for leaf in module.uses:
                if (leaf.path[0] in tree.crates or leaf.path[0] == "crate") and tree.of_path(module, leaf.path) is None:
                    found.append(f"{module.file}: {'::'.join(leaf.path)}")
        found += [f"crates.txt: {crate.name}: {it}" for it in crate.uses
                  if it not in tree.crates and f"Rattle.{it}" not in tree.kit]
    return found + hidden(tree)
