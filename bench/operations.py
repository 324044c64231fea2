"""Runs `discovery replay` on generated operations over registered instances:
operations.py PROGRAM FOLDER COUNT SIZE.."""

import os
import sys

from runs import adopt, app_of, median_seconds, print_growth, registration

# How often each run is made. The median counts.
TIMES = 5


def renewal(i, round_of):
    return "renew %d APP%d i%d\n" % (50000 + i, app_of(i), i)


def status_change(i, round_of):
    """Another status than in the round before, so that each is a change."""
    status = ("DOWN", "OUT_OF_SERVICE")[round_of % 2]
    return "status %d APP%d i%d %s\n" % (50000 + i, app_of(i), i, status)


def metadata_change(i, round_of):
    return "metadata %d APP%d i%d zone=z%d\n" % (50000 + i, app_of(i), i, round_of)


KINDS = (("renewal", renewal), ("status change", status_change), ("metadata change", metadata_change))


def main():
    adopt()
    program, folder, count = sys.argv[1], sys.argv[2], int(sys.argv[3])
    path = os.path.join(folder, "operations.events")
    sizes = [int(word) for word in sys.argv[4:]]
    starts = {size: [registration(i) for i in range(size)] for size in sizes}
    alone = {size: median_seconds(program, path, starts[size], TIMES) for size in sizes}
    for name, line_of in KINDS:

        def seconds_of_one(size):
            lines = [line_of(j % size, j // size) for j in range(count)]
            return (median_seconds(program, path, starts[size] + lines, TIMES) - alone[size]) / count

        print_growth(sizes, seconds_of_one, "%d times a %s" % (count, name))


main()
