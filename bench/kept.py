"""Runs `discovery replay` on events that find documents kept:
kept.py PROGRAM FOLDER LOADS CHANGES ROUNDS"""

import os
import sys

from runs import adopt, least_unprinted, print_growth

# How often each run is made. The least counts.
TIMES = 9

# How many instances an app has that is loaded again and again, and one of the many that are kept.
OF_APP = 200
OF_KEPT_APP = 2

# How many documents are kept, which is as many as there may be, and how many apps are there in all.
KEPT = 4096
APPS = 4296

BODY = (
    '{"instance":{"instanceId":"i%06d","hostName":"h%d","app":"APP%06d","ipAddr":"10.0.0.1",'
    '"status":"UP","vipAddress":"v%d","dataCenterInfo":{"name":"MyOwn"}}}'
)


def registrations(size, of_app):
    """The registrations of so many instances, of which each app has so many."""
    return [
        "register %d APP%06d %s\n" % (1000 + i, i // of_app, BODY % (i, i, i // of_app, i // of_app))
        for i in range(size)
    ]


def load_of(app):
    return "load full app APP%06d\n" % app


def status_change(i, turn):
    """Another status than in the turn before, so that each is a change."""
    return "status 1000000 APP%06d i%06d %s\n" % (i // OF_KEPT_APP, i, ("DOWN", "OUT_OF_SERVICE")[turn % 2])


def print_ratio(name, each, other, other_name):
    print("%s: %.2f microseconds each, %.2f times %s" % (name, each * 1e6, each / other, other_name), flush=True)


def print_loads(least, count):
    """The first load writes the document and keeps it. It is no part of what is timed."""
    kinds = (
        ("all apps", lambda size: "load full apps\n", (1, 2000, 20000)),
        ("an app of %d" % OF_APP, lambda size: load_of(size // OF_APP // 2), (2000, 20000)),
    )
    for name, load, sizes in kinds:

        def seconds_of_one(size):
            start = registrations(size, OF_APP) + [load(size)]
            before, after = least(start, start + [load(size)] * count)
            return (after - before) / count

        print_growth(sizes, seconds_of_one, "%d loads of the kept document of %s" % (count, name))


def print_changes(least, count):
    """Changes of the other apps name no kept document. Those of one app drop its document, and the load
    behind each keeps it anew."""
    alone = registrations(APPS * OF_KEPT_APP, OF_KEPT_APP)
    kept = alone + [load_of(app) for app in range(KEPT)]
    others = range(KEPT * OF_KEPT_APP, APPS * OF_KEPT_APP)
    app = KEPT // 2
    naming_none = [status_change(others[j % len(others)], j // len(others)) for j in range(count)]
    dropping_one = [line for j in range(count) for line in (status_change(app * OF_KEPT_APP, j), load_of(app))]
    kinds = (("naming none", naming_none), ("dropping one, and its load", dropping_one))
    for name, changes in kinds:
        before, after, before_kept, after_kept = least(alone, alone + changes, kept, kept + changes)
        each, other = (after_kept - before_kept) / count, (after - before) / count
        text = "%d changes beside %d kept documents, each %s" % (count, KEPT, name)
        print_ratio(text, each, other, "the %.2f beside none" % (other * 1e6))


def print_rounds(least, rounds, count):
    """Each round copies the kept documents, and from the second on they are the published ones too."""
    start = registrations(KEPT * OF_KEPT_APP, OF_KEPT_APP) + [load_of(app) for app in range(KEPT)]
    turn = ["begin\n"] + ["copy\n"] * KEPT + ["publish\n"]
    load = [load_of(KEPT // 2)] * count
    look = [line.replace("load", "look") for line in load]
    published = start + turn
    before, after, begin, loaded, looked = least(
        start, start + turn * rounds, published, published + load, published + look
    )
    of_key = (after - before) / (rounds * KEPT)
    print("%d rounds of %d kept documents: %.2f microseconds a key" % (rounds, KEPT, of_key * 1e6), flush=True)
    text = "%d looks at one of %d published documents" % (count, KEPT)
    print_ratio(text, (looked - begin) / count, (loaded - begin) / count, "a load of it, kept")


def main():
    adopt()
    program, folder = sys.argv[1:3]
    loads, changes, rounds = map(int, sys.argv[3:])
    path = os.path.join(folder, "kept.events")

    def least(*inputs):
        return least_unprinted(program, path, inputs, TIMES)

    print_loads(least, loads)
    print_changes(least, changes)
    print_rounds(least, rounds, loads)


main()
