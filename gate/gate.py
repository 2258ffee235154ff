#!/usr/bin/env python3
"""Runs the gate and prints what it took, as the rows of a table of docs/GATE.md.

usage: gate/gate.py [LOG [CRATE..]]       runs `rt ci` at the top of the repository, or for these crates and those below
                                          them, and keeps what it prints in LOG (else gate.log in a temporary folder);
                                          then prints wall and processor time, and for each crate the seconds of
                                          processor time of its check, its tests and its edits. It ends with the
                                          gate's status.
       gate/gate.py --table LOG.times..   prints the table of earlier runs again, of all of them together: what one run
                                          proved, a later one on that machine keeps

The gate prints no times, so its processes are sampled twice a second, and each counts with the time that it had used
when it was last seen. Only processes that the gate started count, but others on the machine make it slower."""
import collections
import json
import os
import re
import resource
import subprocess
import sys
import tempfile
import time

TICKS = os.sysconf("SC_CLK_TCK")


def kind_of(words, folder):
    """Returns which part of a crate's gate a process of the checker is."""
    if os.path.basename(folder).startswith("rt-edit-"):
        return "edits"
    if "--test" in words:
        return "tests"
    return "build" if "--crate-checked" in words else "itself"


def parents():
    """Returns the parent of each process."""
    found = {}
    for pid in filter(str.isdigit, os.listdir("/proc")):
        try:
            with open(f"/proc/{pid}/stat") as it:
                found[int(pid)] = int(it.read().rpartition(")")[2].split()[1])
        except OSError:
            continue
    return found


def started_by(process, pid, above):
    """Says whether a process was started by another, or by one that it started."""
    while pid > 1 and pid != process:
        pid = above.get(pid, 0)
    return pid == process


def look(seen, gate):
    """Notes what each process of the checker that the gate started has used so far, with the processes that it started
    itself: it counts those once it has waited for them."""
    above, found = parents(), {}
    for pid in (it for it in above if started_by(gate, it, above)):
        try:
            with open(f"/proc/{pid}/cmdline", "rb") as it:
                words = it.read().decode(errors="replace").split("\0")
            if not words[0].endswith("/rattle") or "--crate-name" not in words:
                continue
            folder = os.readlink(f"/proc/{pid}/cwd")
            with open(f"/proc/{pid}/stat") as it:
                fields = it.read().rpartition(")")[2].split()
        except OSError:
            continue
        crate = words[words.index("--crate-name") + 1]
        # (fields 14 to 17 of the page proc(5): its own time, and that of the children that it has waited for)
        used = sum(int(it) for it in fields[11:15]) / TICKS
        found[pid] = f"{pid} {fields[19]}", [crate, kind_of(words, folder), used]
    seen.update(it for pid, it in found.items() if above[pid] not in found)


def table(times):
    """Returns the rows of the table, the most expensive crate first."""
    spent, edits = collections.defaultdict(collections.Counter), collections.Counter()
    for crate, kind, used in times["seen"].values():
        spent[crate][kind] += used
    for crate in spent:
        folder = f"crates/{crate}/must-fail"
        edits[crate] = sum(it.endswith(".edit") for it in os.listdir(folder)) if os.path.isdir(folder) else 0
    rows = ["| Crate | Itself | Built | Its tests | Its edits |", "|---|---|---|---|---|"]
    for crate in sorted(spent, key=lambda it: -sum(spent[it].values())):
        of = {kind: f"{spent[crate][kind]:.0f}" if spent[crate][kind] else ""
              for kind in ("itself", "build", "tests", "edits")}
        count = f" ({edits[crate]})" if of["edits"] else ""
        rows.append(f"| `{crate}` | {of['itself']} | {of['build']} | {of['tests']} | {of['edits']}{count} |")
    total = collections.Counter()
    for it in spent.values():
        total.update(it)
    whole = {kind: f"{total[kind]:.0f}" for kind in ("itself", "build", "tests", "edits")}
    rows.append(f"| all | {whole['itself']} | {whole['build']} | {whole['tests']} | {whole['edits']} "
                f"({sum(edits.values())}) |")
    return rows


def together(files):
    """Returns the processes of several runs."""
    seen = {}
    for file in files:
        with open(file) as it:
            seen.update((f"{file} {key}", found) for key, found in json.load(it)["seen"].items())
    return seen


def main():
    words = sys.argv[1:]
    if words[:1] == ["--table"]:
        print("\n".join(table({"seen": together(words[1:])})))
        return 0
    if words and words[0].startswith("-"):
        print(__doc__)
        return 2
    log = words[0] if words else f"{tempfile.mkdtemp(prefix='gate-')}/gate.log"
    seen, began = {}, time.time()
    with open(log, "w") as out:
        gate = subprocess.Popen(["rt", "ci", *words[1:]], stdout=out, stderr=subprocess.STDOUT)
        while gate.poll() is None:
            look(seen, gate.pid)
            time.sleep(0.5)
    used = resource.getrusage(resource.RUSAGE_CHILDREN)
    times = {"wall": time.time() - began, "processor": used.ru_utime + used.ru_stime, "seen": seen}
    with open(f"{log}.times", "w") as it:
        json.dump(times, it)
    with open(log) as it:
        last = (re.findall(r"^\d+ passed, \d+ failed$", it.read(), re.M) or ["no last line"])[-1]
    print(f"{last}; wall {times['wall'] / 60:.1f} min, processor {times['processor'] / 60:.1f} min, on "
          f"{os.cpu_count()} processors; log {log}")
    print("\n".join(table(times)))
    return gate.returncode


if __name__ == "__main__":
    sys.exit(main())
