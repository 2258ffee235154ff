#!/usr/bin/env python3
"""front_end.py CHECKOUT CRATE [WORD..]: whether all names of a crate, and of those below it, lead somewhere and all
types fit. Nothing is proved, and no library has to be built: each crate below is read as source. Takes some minutes,
and several GB for the program. WORD.. go to rattle."""
import os
import re
import subprocess
import sys

KIT = "/opt/rattle"
LOGIC = ["--antt-project", f"{KIT}/rattle/logic/antt-project.json", "--logic-built", f"{KIT}/logic_built"]


def table(root):
    """The crates of a checkout, each with what it depends on, and the static libraries among them."""
    found, static = {}, set()
    with open(f"{root}/crates.txt", encoding="utf-8") as file:
        for line in file:
            head, _, uses = line.partition("#")[0].partition(":")
            if head.strip():
                name, *words = head.split()
                found[name] = uses.split()
                static.update({name} if "staticlib" in words else ())
    return found, static


def below(crates, name, found, kit):
    """Appends the crates below one, the lowest first, and collects the kit's."""
    for it in crates[name]:
        if it not in crates:
            kit.add(it)
        elif it not in found:
            below(crates, it, found, kit)
            found.append(it)


def main():
    root, name, *more = os.path.abspath(sys.argv[1]), *sys.argv[2:]
    crates, static = table(root)
    found, kit = [], set()
    below(crates, name, found, kit)
    source = f"{root}/crates/{name}/src"
    start = f"{source}/main.rt" if os.path.exists(f"{source}/main.rt") else f"{source}/lib.rt"
    words = [f"{KIT}/bin/rattle", "check", "--only", "", "--crate-name", name, start]
    for it in ["std", *sorted(kit)]:
        words += ["--extern", f"{it}={KIT}/rlibs/{it}.rlib"]
    words += ["-L", f"dependency={KIT}/rlibs"]
    for it in found:
        words += ["--lib", f"{it}:{','.join(['std', *crates[it]])}={root}/crates/{it}/src/lib.rt"]
    words += [*LOGIC, *(["--crate-type", "staticlib"] if name in static else [])]
    it = subprocess.run([*words, *more], check=False, stdout=subprocess.PIPE, text=True)
    print(*(line for line in it.stdout.splitlines() if re.search(r"error|warning", line)), sep="\n")
    sys.exit(it.returncode)


if __name__ == "__main__":
    main()
