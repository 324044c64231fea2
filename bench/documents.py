"""Runs `discovery replay` on loads over registered instances:
documents.py PROGRAM FOLDER COUNT SIZE.."""

import os
import sys

from runs import adopt, median_seconds, print_growth

# How often each run is made. The median counts.
TIMES = 5

# How many instances an app and a vip have, and how many changed of late beside that in the middle.
OF_APP = 200
OF_VIP = 20
RECENT = 19

# When they changed, in milliseconds: long after the registrations.
LATE = 1_000_000_000

BODY = (
    '{"instance":{"instanceId":"i%06d","hostName":"h%d","app":"APP%06d","ipAddr":"10.0.0.1",'
    '"status":"UP","vipAddress":"v%d","dataCenterInfo":{"name":"MyOwn"}}}'
)


def registration(i):
    app = i // OF_APP
    return "register %d APP%06d %s\n" % (1000 + i, app, BODY % (i, i, app, i // OF_VIP))


def middle(size):
    """An instance in the middle of its app, its vip and all."""
    return size // 2 + OF_VIP // 2


def recent_changes():
    """Forgets the registrations, and then changes the status of some instances."""
    changed = ["status %d APP%06d i%06d DOWN\n" % (LATE, i // OF_APP, i) for i in range(RECENT)]
    return ["clean %d\n" % LATE] + changed


def change(size, number):
    """A change of the instance in the middle, so that what is loaded next is joined anew."""
    i, status = middle(size), "DOWN" if number % 2 == 0 else "UP"
    return "status %d APP%06d i%06d %s\n" % (LATE, i // OF_APP, i, status)


def app_load(size):
    return "load full app APP%06d\n" % (middle(size) // OF_APP)


def vip_load(size):
    return "load full vip v%d\n" % (middle(size) // OF_VIP)


def one_load(size):
    return "load full one APP%06d i%06d\n" % (middle(size) // OF_APP, middle(size))


def delta_load(size):
    return "load full delta\n"


# Each kind with how many loads stand for one of an app.
KINDS = (
    ("an app of %d" % OF_APP, app_load, 1),
    ("a vip with %d" % OF_VIP, vip_load, 10),
    ("one instance", one_load, 100),
    ("a delta of %d" % (RECENT + 1), delta_load, 10),
)


def main():
    adopt()
    program, folder, count = sys.argv[1], sys.argv[2], int(sys.argv[3])
    path = os.path.join(folder, "documents.events")
    sizes = [int(word) for word in sys.argv[4:]]
    starts = {size: [registration(i) for i in range(size)] + recent_changes() for size in sizes}
    for name, line_of, times in KINDS:

        def seconds_of_one(size):
            changes = [change(size, number) for number in range(count * times)]
            loads = [line + line_of(size) for line in changes]
            alone = median_seconds(program, path, starts[size] + changes, TIMES)
            return (median_seconds(program, path, starts[size] + loads, TIMES) - alone) / len(loads)

        print_growth(sizes, seconds_of_one, "%d loads of %s" % (count * times, name))


main()
