"""Runs of `discovery replay` on generated events, with their seconds and their peak memory."""

import ctypes
import os
import statistics
import subprocess
import sys
import time

APPS = 100

BODY = (
    '{"instance":{"instanceId":"i%d","hostName":"h%d","app":"APP%d","ipAddr":"10.0.0.1",'
    '"status":"UP","dataCenterInfo":{"name":"MyOwn"}}}'
)

# Linux's number for `prctl`: a process that loses its parent becomes a child of this one.
PR_SET_CHILD_SUBREAPER = 36

# The run is left behind by its shell. Its peak would begin at this script's own size if the script
# had started it.
LEFT_BEHIND = '"$1" replay <"$2" >/dev/null 2>"$3" &'

# A take of what a later event will answer. A run is refused for it when all events before it are
# answered, and prints no answer: so it costs reading and answering alone.
BAD_EVENT = "take 1 1000000000000\n"


def app_of(i):
    """The app of the instance of that number."""
    return i % APPS


def registration(i):
    return "register %d APP%d %s\n" % (1000 + i, app_of(i), BODY % (i, i, app_of(i)))


def write_lines(path, lines):
    with open(path, "w", encoding="ascii") as events:
        events.writelines(lines)


def adopt():
    """Makes this process the parent of the runs, so that it may wait for them."""
    ctypes.CDLL(None).prctl(PR_SET_CHILD_SUBREAPER, 1, 0, 0, 0)


def measured(program, path, wanted=(0, "")):
    """The seconds of one run and what it used. Its status and its message are wanted, its answers dropped."""
    errors = path + ".errors"
    begin = time.monotonic()
    subprocess.run(["sh", "-c", LEFT_BEHIND, "sh", program, path, errors], check=True)
    _, status, usage = os.wait4(-1, 0)
    seconds = time.monotonic() - begin
    with open(errors, encoding="ascii") as text:
        ended = os.waitstatus_to_exitcode(status), text.read()
    if ended != wanted:
        sys.exit("a run ended with status %d and said: %s" % ended)
    return seconds, usage


def median_seconds(program, path, lines, times):
    """The median of so many runs on these lines."""
    write_lines(path, lines)
    return statistics.median(measured(program, path)[0] for _ in range(times))


def least_unprinted(program, path, inputs, times):
    """Of each input the least seconds of processors of so many runs, which print no answer. The inputs take
    turns, so that what else the machine does falls on all of them alike."""
    spent = [[] for _ in inputs]
    for k, lines in enumerate(inputs):
        write_lines("%s.%d" % (path, k), lines + [BAD_EVENT])
    for _ in range(times):
        for k, lines in enumerate(inputs):
            refused = (1, "discovery: fault 23 at line %d\n" % (len(lines) + 1))
            _, usage = measured(program, "%s.%d" % (path, k), refused)
            spent[k].append(usage.ru_utime + usage.ru_stime)
    return [min(seconds) for seconds in spent]


def print_growth(sizes, seconds_of_one, name):
    """Prints what one of that name costs over each number of instances, and how it grew."""
    first = None
    for size in sizes:
        each = seconds_of_one(size)
        text = "%d instances, %s: %.2f microseconds each" % (size, name, each * 1e6)
        if first is not None:
            text += ", %.2f times as over %d" % (each / first, sizes[0])
        print(text, flush=True)
        first = first if first is not None else each
