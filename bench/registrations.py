"""Runs `discovery replay` on generated registrations: registrations.py PROGRAM FOLDER SIZE.."""

import os
import sys

from runs import adopt, measured, registration, write_lines


def main():
    adopt()
    program, folder = sys.argv[1:3]
    before = None
    for size in map(int, sys.argv[3:]):
        path = os.path.join(folder, "%d.events" % size)
        write_lines(path, [registration(i) for i in range(size)] + ["load full apps\n"])
        seconds, usage = measured(program, path)
        kib = usage.ru_maxrss
        line = "%d registrations: %.3f s, %d KiB" % (size, seconds, kib)
        if before is not None:
            line += ", %.2f times the seconds and %.2f times the memory" % (
                seconds / before[0],
                kib / before[1],
            )
        print(line, flush=True)
        before = (seconds, kib)


main()
