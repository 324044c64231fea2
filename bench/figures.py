"""Prints the last figure of each script and kind in `bench/figures.tsv` as a table. Words are names of scripts, without `.sh`: none means all.

A row of that file is a figure: script, date, machine, what, value, with tabs between. The rows of a script stand together, the newest first. A figure
that came otherwise than by a script of this folder has the name `hand` in front.
"""

import os
import re
import sys

HERE = os.path.dirname(os.path.abspath(__file__))
FILE = os.path.join(HERE, "figures.tsv")
HEAD = ["script", "date", "machine", "what", "value"]


def rows():
    """The rows behind the first line, each with the number of its line."""
    with open(FILE, encoding="utf-8") as file:
        lines = file.read().split("\n")
    return [(number, line.split("\t")) for number, line in enumerate(lines, 1) if number > 1 and line]


def faults():
    """What is wrong with the file, a line each."""
    said, done, last = [], set(), None
    for number, row in rows():
        where = "bench/figures.tsv:%d: " % number
        if len(row) != len(HEAD) or not all(cell.strip() == cell and cell for cell in row):
            said.append(where + "not five words with tabs between")
            continue
        script, date = row[:2]
        if script != "hand" and not os.path.exists(os.path.join(HERE, script + ".sh")):
            said.append(where + "no script bench/%s.sh" % script)
        if not re.fullmatch(r"\d{4}-\d\d-\d\d", date):
            said.append(where + "no date %s" % date)
        if last and script != last[0]:
            done.add(last[0])
        if script in done:
            said.append(where + "the rows of %s don't stand together" % script)
        elif last and script == last[0] and date > last[1]:
            said.append(where + "newer than the row above")
        last = script, date
    return said


def latest(names):
    """The first row of each script and kind, in the order of the file."""
    seen = set()
    for _, (script, date, machine, what, value) in rows():
        if (script, what) not in seen and (not names or script in names):
            seen.add((script, what))
            yield script, what, value, date, machine


def main():
    names = {word.removesuffix(".sh") for word in sys.argv[1:]}
    table = [("script", "what", "value", "date", "machine")] + list(latest(names))
    widths = [max(len(row[at]) for row in table) for at in range(4)]
    for row in table:
        print("  ".join([cell.ljust(width) for cell, width in zip(row, widths)] + [row[4]]))
    return 0 if len(table) > 1 else "no figure of that name"


if __name__ == "__main__":
    sys.exit(main())
