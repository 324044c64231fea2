"""Proves a crate from nothing on one processor, and prints which parts of its proof take the time."""

import os
import shutil
import subprocess
import sys

LEAST = 1.5
MOST = 24


def checked(folder):
    """Of each part that was checked, when that ended and what it is."""
    for room, _, names in os.walk(os.path.join(folder, "out")):
        for name in names:
            if name.endswith(".oantt"):
                yield os.stat(os.path.join(room, name)).st_mtime, name[: -len(".oantt")]


def seconds(ends):
    """Of each part the seconds from the end of the one before it."""
    ends = sorted(ends)
    return [(end - before, name) for (before, _), (end, name) in zip(ends, ends[1:])]


def main():
    folder = sys.argv[1]
    if not os.path.isdir(os.path.join(folder, "src")):
        sys.exit("slow: no crate lies in " + folder)
    shutil.rmtree(os.path.join(folder, "out"), ignore_errors=True)
    check = subprocess.run(["rt", "check", "--jobs", "1"], cwd=folder, stdout=subprocess.PIPE, text=True)
    if check.returncode:
        sys.exit(check.stdout)
    took = seconds(checked(folder))
    print("%8.1f seconds in all" % sum(took for took, _ in took))
    for second, name in sorted(took, reverse=True)[:MOST]:
        if second > LEAST:
            print("%8.1f %s" % (second, name.replace("Rattle-", "")))


main()
