"""Writes docs/DEFINITIONS.md: each file of `specs/` that has something to believe, by crate, with its first comment; and each definition of it with
its comment and the public functions whose contracts name it.

Run it anywhere: `python3 docs/believe/definitions.py`. With `--check` it writes nothing, and ends with status 1 where the page isn't as it would be.
"""

import glob
import os
import sys

import believe
import specs

ROOT = os.path.dirname(os.path.dirname(os.path.dirname(os.path.abspath(__file__))))
PAGE = os.path.join(ROOT, "docs", "DEFINITIONS.md")
HEAD = """# Definitions

What a reader has to believe, crate by crate, lowest first. `docs/believe/definitions.py` writes this page from the comments in `specs/`; `docs/check.sh` sees that it is as that script writes it.

These pages show the definitions themselves, behind a sketch of how they hang together and the contracts that reach them: %s. [What is proved](PROVED.md) says what the theorems promise.

The last column names the public functions whose contracts name the definition, or the type of which it says something. Where it is empty, another definition does. Files that say that nothing in them is to be believed are left out: they serve invariants and private contracts.
"""


def comment_of(lines):
    """The comment in front of a definition, as one line."""
    return " ".join(line[2:].strip() for line in lines if line.startswith("--")).strip()


def opening(text):
    """The comment that a file begins with."""
    lines = []
    for line in text.split("\n"):
        if not line.startswith("--"):
            break
        lines.append(line)
    return comment_of(lines)


def cell(text):
    return text.replace("|", "\\|")


def page():
    found, _, _ = specs.definitions()
    users = believe.uses_of(believe.all_contracts(), found)
    pages = ["[%s](believe/%s.md)" % (page.of, page.name) for page in believe.PAGES + [believe.PARTS]]
    lines = (HEAD % (", ".join(pages[:-1]) + " and " + pages[-1])).rstrip("\n").split("\n")
    for crate in specs.crates():
        first = True
        for path in sorted(glob.glob("crates/%s/specs/*.antt" % crate)):
            text = specs.read(path)
            name = os.path.basename(path)
            if name == "Lib.antt" or specs.MARK.search(text.split("\nuse ", 1)[0]):
                continue
            if first:
                lines += ["", "## `%s`" % crate]
                first = False
            lines += ["", "### `%s/specs/%s`" % (crate, name), "", opening(text) or "No comment.", "", "| Definition | What it says | Contracts |", "|---|---|---|"]
            for label, made in merged(specs.blocks(text)):
                if specs.MARK.search(comment_of(made)):
                    continue
                by = ", ".join("`%s`" % user for user in users[(crate, name[:-5]), label])
                lines.append("| `%s` | %s | %s |" % (label, cell(comment_of(made)), by))
    return "\n".join(lines) + "\n"


def merged(blocks):
    """The definitions of a file, each once."""
    seen = {}
    for label, made in blocks:
        seen.setdefault(label, []).extend(made)
    return seen.items()


def main():
    os.chdir(ROOT)
    new = page()
    if "--check" in sys.argv[1:]:
        return 0 if new == specs.read(PAGE) else "docs/DEFINITIONS.md isn't as docs/believe/definitions.py writes it"
    with open(PAGE, "w", encoding="utf-8") as file:
        file.write(new)
    return 0


if __name__ == "__main__":
    sys.exit(main())
