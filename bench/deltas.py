"""Runs `discovery replay` on deltas behind changes of few instances:
deltas.py PROGRAM FOLDER COUNT CHANGES.."""

import os
import sys

from runs import adopt, app_of, least_unprinted, registration

# How often each run is made. The least time of a processor counts.
TIMES = 5

# How many instances there are. All of them have changed of late.
INSTANCES = 100


def change(k):
    """The kth change after the registrations: each instance in turn gets another status."""
    i = k % INSTANCES
    status = ("DOWN", "OUT_OF_SERVICE")[k // INSTANCES % 2]
    return "status %d APP%d i%d %s\n" % (50000 + k, app_of(i), i, status)


def main():
    adopt()
    program, folder, count = sys.argv[1], sys.argv[2], int(sys.argv[3])
    path = os.path.join(folder, "deltas.events")
    first = None
    for kept in (int(word) for word in sys.argv[4:]):
        before = [registration(i) for i in range(INSTANCES)] + [change(k) for k in range(kept)]
        changes = [change(k) for k in range(kept, kept + count)]
        deltas = [line for one in changes for line in (one, "load full delta\n")]
        alone, beside = least_unprinted(program, path, [before + changes, before + deltas], TIMES)
        each = (beside - alone) / count
        text = "%d changes kept: %.2f microseconds a delta of %d instances" % (kept, each * 1e6, INSTANCES)
        if first is not None:
            text += ", %.2f times as with fewer" % (each / first)
        print(text, flush=True)
        first = first if first is not None else each


main()
