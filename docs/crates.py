"""Writes the table of crates into docs/DESIGN.md, between the two comments there that name this script: the layers and crates of `crates.txt`,
and of each crate the first sentence of its root file, up to a colon where it is long.

Run it anywhere: `python3 docs/crates.py`. With `--check` it writes nothing, and ends with status 1 where the page isn't as it would be.
"""

import os
import re
import sys

ROOT = os.path.dirname(os.path.dirname(os.path.abspath(__file__)))
PAGE = os.path.join(ROOT, "docs", "DESIGN.md")
BEGIN = "<!-- written by docs/crates.py: begin -->"
END = "<!-- written by docs/crates.py: end -->"


def read(*path):
    with open(os.path.join(ROOT, *path), encoding="utf-8") as file:
        return file.read()


def layers():
    """The pairs of a layer and a crate, in the order of `crates.txt`. A layer is a comment behind an empty line."""
    layer, before = None, ""
    for line in read("crates.txt").split("\n"):
        if line.startswith("#"):
            layer = line[1:].strip() if not before else layer
        elif ":" in line:
            yield layer, line.split(":")[0].strip()
        before = line


LONG = 22


def first_sentence(crate):
    """What a crate's root file says first, without the brackets of links; of a long sentence, what stands before a colon."""
    for root in ("lib.rt", "main.rt"):
        if os.path.exists(os.path.join(ROOT, "crates", crate, "src", root)):
            break
    lines = []
    for line in read("crates", crate, "src", root).split("\n"):
        if not line.startswith("//!") or line.strip() == "//!":
            break
        lines.append(line[3:].strip())
    text = re.sub(r"\[(`[^`]+`)\]", r"\1", " ".join(lines))
    sentence = re.split(r"(?<=[.!?]) (?=[A-Z\[`])", text)[0]
    return re.split(r": ", sentence)[0].rstrip(".") + "." if len(sentence.split()) > LONG else sentence


def table():
    lines, last = ["| Layer | Crate | What it is |", "|---|---|---|"], None
    for layer, crate in layers():
        lines.append("| %s | `%s` | %s |" % (layer if layer != last else "", crate, first_sentence(crate)))
        last = layer
    return "\n".join(lines)


def page(text):
    """The page with the table as it has to be."""
    before, rest = text.split(BEGIN)
    return before + BEGIN + "\n\n" + table() + "\n\n" + END + rest.split(END)[1]


def main():
    old = read("docs", "DESIGN.md")
    new = page(old)
    if "--check" in sys.argv[1:]:
        return 0 if new == old else "docs/DESIGN.md: the table of crates isn't as docs/crates.py writes it"
    with open(PAGE, "w", encoding="utf-8") as file:
        file.write(new)
    return 0


if __name__ == "__main__":
    sys.exit(main())
