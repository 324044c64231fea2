"""Counts the instructions of an event of `replay`: instructions.py PROGRAM FOLDER SIZE..

Another program that reads the same lines, and whose path is in the variable PEER, is counted beside it.
Where the variable NAMES is `long`, apps and instances have names of 17 to 33 bytes, which begin alike."""

import os
import re
import subprocess
import sys

from runs import APPS, app_of, registration, write_lines

# Of small events so many are counted, or as many as there are instances, where these are more. What memory
# costs swings by some instructions an instance from run to run, most where a program frees at its end all
# that it holds: of few events beside many instances that would be told, and not the events.
MANY = 2000

# So many instances `replay` takes.
MOST = 65536

# Of loads that join a large document anew so many.
FEW = 20

# With these glibc moves memory by vectors of instructions, and not by one that counts for each byte.
TUNABLES = "glibc.cpu.x86_rep_stosb_threshold=1000000000:glibc.cpu.x86_rep_movsb_threshold=1000000000"


def named(line):
    """The line with the names that are asked for."""
    if os.environ.get("NAMES") != "long":
        return line
    line = re.sub(r"APP(\d+)", r"PAYMENT-SERVICE-\1", line)
    return re.sub(r'(?<=[ "])i(\d+)', r"ip-10-0-0-\1.internal:app:7001", line)


def counted(program, path, lines):
    """The instructions of a run on these lines."""
    write_lines(path, map(named, lines))
    command = ["valgrind", "--tool=callgrind", "--callgrind-out-file=/dev/null", program, "replay"]
    environment = dict(os.environ, GLIBC_TUNABLES=TUNABLES)
    with open(path, encoding="ascii") as events:
        run = subprocess.run(
            command, stdin=events, stdout=subprocess.DEVNULL, stderr=subprocess.PIPE, env=environment, check=False
        )
    found = re.search(rb"Collected : (\d+)", run.stderr)
    if run.returncode != 0 or found is None:
        sys.exit("a run ended with status %d and said: %s" % (run.returncode, run.stderr.decode(errors="replace")))
    return int(found[1])


def scattered(j, size):
    """The instance that the event of that number is about."""
    return j * 7919 % size


def renewal(j, size):
    i = scattered(j, size)
    return ["renew %d APP%d i%d\n" % (500000 + j, app_of(i), i)]


def status_change(j, size):
    i = scattered(j, size)
    status = ("DOWN", "OUT_OF_SERVICE")[j // size % 2]
    return ["status %d APP%d i%d %s\n" % (500000 + j, app_of(i), i, status)]


def one_instance(j, size):
    i = scattered(j, size)
    return ["load full one APP%d i%d\n" % (app_of(i), i)]


def app_anew(j, size):
    return status_change(j, size) + ["load full app APP%d\n" % app_of(scattered(j, size))]


def apps_anew(j, size):
    return status_change(j, size) + ["load full apps\n"]


def registration_again(j, size):
    return [registration(scattered(j, size))]


# Of each kind of event: its name, its lines, how many of it are counted where it isn't small, and what its
# lines have before it.
KINDS = (
    ("registration again", registration_again, None, None),
    ("renewal", renewal, None, None),
    ("status change", status_change, None, None),
    ("one instance", one_instance, None, None),
    ("an app after a change", app_anew, FEW, status_change),
    ("all apps after a change", apps_anew, FEW, status_change),
)


def each_of(program, path, size):
    """The instructions of one event of each kind over so many instances."""
    start = [registration(i) for i in range(size)]
    alone = counted(program, path, start)
    many = max(MANY, size)
    new = min(many, MOST - size)
    more = start + [registration(i) for i in range(size, size + new)]
    each = {"first registration": (counted(program, path, more) - alone) / new}
    for name, lines_of, count, before in KINDS:
        count = many if count is None else count
        lines = [line for j in range(count) for line in lines_of(j, size)]
        less = alone
        if before is not None:
            less = counted(program, path, start + [line for j in range(count) for line in before(j, size)])
        each[name] = (counted(program, path, start + lines) - less) / count
    return each


def main():
    program, folder = sys.argv[1:3]
    peer = os.environ.get("PEER")
    path = os.path.join(folder, "instructions.events")
    first = None
    for size in map(int, sys.argv[3:]):
        each = each_of(program, path, size)
        others = each_of(peer, path, size) if peer else {}
        for name, count in each.items():
            text = "%d instances of %d apps, %s: %.0f instructions" % (size, APPS, name, count)
            if name in others:
                text += ", %.2f times the %.0f of the peer" % (count / others[name], others[name])
            if first is not None:
                text += ", %.2f times as over the first number" % (count / first[name])
            print(text, flush=True)
        first = first if first is not None else each


main()
