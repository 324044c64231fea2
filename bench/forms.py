"""Runs `discovery replay` on loads of all apps in both forms: forms.py PROGRAM FOLDER COUNT SIZE"""

import os
import sys

from runs import adopt, median_seconds, registration

# How often each run is made. The median counts.
TIMES = 5


def main():
    adopt()
    program, folder, count, size = sys.argv[1], sys.argv[2], int(sys.argv[3]), int(sys.argv[4])
    path = os.path.join(folder, "forms.events")
    start = [registration(i) for i in range(size)]
    # A change in front of each load, so that all apps are joined anew.
    changes = ["status %d APP0 i0 %s\n" % (10**9, "UP" if number % 2 else "DOWN") for number in range(count)]
    alone = median_seconds(program, path, start + changes, TIMES)

    def milliseconds_of_one(form):
        loads = [line + "load %s apps\n" % form for line in changes]
        return (median_seconds(program, path, start + loads, TIMES) - alone) / count * 1000

    full, compact = milliseconds_of_one("full"), milliseconds_of_one("compact")
    print("all apps of %d: full %.1f ms, compact %.1f ms, %.2f times" % (size, full, compact, full / compact))


main()
