"""How long a function of a running program takes, each time that it is called, by the kernel's probes."""

import os
import re
import subprocess

TRACING = "/sys/kernel/tracing"
GROUP = "discovery"
OWN = TRACING + "/instances/" + GROUP


def symbol(program, name):
    """Where the function of that name begins, in memory from the program's base on."""
    table = subprocess.run(["nm", program], check=True, capture_output=True, text=True).stdout
    found = [line.split()[0] for line in table.splitlines() if name in line]
    if len(found) != 1:
        raise OSError("the program has %d functions named %s" % (len(found), name))
    return int(found[0], 16)


def in_file(program, address):
    """The same place in the program's file."""
    headers = subprocess.run(["readelf", "-lW", program], check=True, capture_output=True, text=True).stdout
    for line in headers.splitlines():
        words = line.split()
        if words[:1] == ["LOAD"]:
            offset, begin, size = int(words[1], 16), int(words[2], 16), int(words[4], 16)
            if begin <= address < begin + size:
                return address - begin + offset
    raise OSError("the program's file has no byte for %#x" % address)


def append(path, line):
    """Writes a line by one call, as the kernel wants it."""
    handle = os.open(path, os.O_WRONLY | os.O_APPEND)
    try:
        os.write(handle, line.encode())
    finally:
        os.close(handle)


def forget():
    """Takes the probes out, also those that a run which was ended early has left."""
    if os.path.exists(OWN):
        append(OWN + "/events/enable", "0\n")
        os.rmdir(OWN)
    for kind in ("enter", "leave"):
        try:
            append(TRACING + "/uprobe_events", "-:%s/%s\n" % (GROUP, kind))
        except OSError:
            # There is none.
            pass


class Holds:
    """The calls of a function from now on. Fails with `OSError` where the kernel lets nobody look."""

    def __init__(self, program, name):
        place = "%s:%#x" % (os.path.realpath(program), in_file(program, symbol(program, name)))
        if not os.path.exists(TRACING + "/uprobe_events"):
            raise OSError("%s isn't there, or only for root" % TRACING)
        forget()
        append(TRACING + "/uprobe_events", "p:%s/enter %s\n" % (GROUP, place))
        append(TRACING + "/uprobe_events", "r:%s/leave %s\n" % (GROUP, place))
        os.makedirs(OWN)
        append(OWN + "/trace_clock", "mono\n")
        append(OWN + "/events/%s/enable" % GROUP, "1\n")

    def close(self):
        """Each call as its begin, in seconds of the monotonic clock, and its milliseconds; and looks no more."""
        append(OWN + "/events/%s/enable" % GROUP, "0\n")
        with open(OWN + "/trace", encoding="ascii", errors="replace") as text:
            calls = list(paired(text))
        forget()
        return calls


def paired(lines):
    """Begin and milliseconds of each call, by thread."""
    begun = {}
    for line in lines:
        found = re.match(r"\s*\S+-(\d+)\s.*?\s([\d.]+): (enter|leave):", line)
        if not found:
            continue
        thread, moment, kind = found.group(1), float(found.group(2)), found.group(3)
        if kind == "enter":
            begun[thread] = moment
        elif thread in begun:
            begin = begun.pop(thread)
            yield begin, (moment - begin) * 1000
