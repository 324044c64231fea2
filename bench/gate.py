"""Runs the gate in a folder, and prints what it cost in minutes, whole and by crate."""

import collections
import os
import resource
import subprocess
import sys
import time

TICK = os.sysconf("SC_CLK_TCK")
KINDS = ("proof", "tests", "edits")


def field(pid, name):
    with open("/proc/%d/%s" % (pid, name), "rb") as file:
        return file.read()


def parents():
    """The parent of each process."""
    found = {}
    for name in os.listdir("/proc"):
        if name.isdigit():
            try:
                stat = field(int(name), "stat").rsplit(b")", 1)[1].split()
            except OSError:
                continue
            found[int(name)] = int(stat[1])
    return found


def below(root, parent_of):
    """The processes that descend from one."""
    children = collections.defaultdict(list)
    for pid, parent in parent_of.items():
        children[parent].append(pid)
    found, left = [], [root]
    while left:
        pid = left.pop()
        found.append(pid)
        left.extend(children[pid])
    return found


def task(pid):
    """The crate that a process of the prover works on and for what, with its seconds so far."""
    words = field(pid, "cmdline").decode(errors="replace").split("\0")
    if not words[0].endswith("/rattle") or "--crate-name" not in words:
        return None
    crate = words[words.index("--crate-name") + 1]
    if os.path.basename(os.readlink("/proc/%d/cwd" % pid)).startswith("rt-edit-"):
        kind = "edits"
    else:
        kind = "tests" if "--test" in words else "proof"
    used = field(pid, "stat").rsplit(b")", 1)[1].split()
    return crate, kind, (int(used[11]) + int(used[12])) / TICK


def look(root, seen):
    """Notes the seconds of each process of the prover that runs now."""
    for pid in below(root, parents()):
        try:
            found = task(pid)
        except OSError:
            continue
        if found is not None:
            crate, kind, seconds = found
            seen[pid, crate, kind] = seconds


def anew():
    """The word that has a kit prove all from nothing, where it would take what earlier runs passed."""
    told = subprocess.run(["rt", "help"], stdout=subprocess.PIPE, stderr=subprocess.STDOUT, text=True).stdout
    return ["--anew"] if "--anew" in told else []


def run(folder, log):
    """Runs the gate, with its output in a file, and gives its status and the seconds of each process."""
    seen = {}
    with open(log, "wb") as out:
        gate = subprocess.Popen(["rt", "ci", *anew()], cwd=folder, stdout=out, stderr=subprocess.STDOUT)
        while gate.poll() is None:
            look(gate.pid, seen)
            time.sleep(0.5)
    return gate.returncode, seen


def row(name, minutes):
    """A row of the table, with nothing where nothing was spent."""
    cells = ["%.1f" % count if count > 0 else "" for count in (*minutes, sum(minutes))]
    return "| %s | %s |" % (name, " | ".join(cells))


def print_crates(seen):
    """Prints the minutes of processors by crate, as a table."""
    spent = collections.Counter()
    for (_, crate, kind), seconds in seen.items():
        spent[crate, kind] += seconds / 60
    print("| Crate | Proof | Tests | Edits | All |")
    print("|---|---|---|---|---|")
    for crate in sorted({crate for crate, _ in spent}):
        print(row("`%s`" % crate, [spent[crate, kind] for kind in KINDS]))
    print(row("all", [sum(m for (_, k), m in spent.items() if k == kind) for kind in KINDS]))


def main():
    folder, log = sys.argv[1:]
    begin = time.monotonic()
    status, seen = run(folder, log)
    clock = (time.monotonic() - begin) / 60
    used = resource.getrusage(resource.RUSAGE_CHILDREN)
    with open(log, errors="replace") as out:
        print(out.read().rstrip("\n").rsplit("\n", 1)[-1])
    print("%.1f minutes by the clock, %.1f of processors" % (clock, (used.ru_utime + used.ru_stime) / 60))
    print_crates(seen)
    print("output: %s" % log)
    return status


sys.exit(main())
