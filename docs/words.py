"""Lists the words of this repository's own that stand in README, OPERATING and PROVED, in reading order.

These are the words of the second column of docs/GLOSSARY.md that aren't in backticks. Of each it prints the place
where it is first said, which is where it stands in *italics*, and where it is first used. Code and the targets of
links don't count. It ends with status 1 where a word is used before it is said, or where a word or a name of
GLOSSARY stands neither in these pages nor in `specs/` or public names of the crates. With `--quiet` it prints these alone.

    python3 docs/words.py [--quiet]
"""

import glob
import os
import re
import sys

ROOT = os.path.dirname(os.path.dirname(os.path.abspath(__file__)))
PAGES = ("README.md", "docs/OPERATING.md", "docs/PROVED.md")
PUBLIC = re.compile(r"pub (?:const )?(?:fn|struct|enum|trait|mod|type) (\w+)|^\s+([A-Z]\w+)[,({]", re.M)


def read(path):
    with open(os.path.join(ROOT, path), encoding="utf-8") as file:
        return file.read()


def blank(found):
    """As many spaces as the text has characters, with its line feeds."""
    return re.sub(r"[^\n]", " ", found.group(0))


def prose(text):
    """The page without code and targets of links, each character in its place."""
    for code in (r"(?ms)^```.*?^```", r"`[^`\n]*`", r"\]\([^)]*\)"):
        text = re.sub(code, blank, text)
    return text


def glossary():
    """The words and the names of the second column."""
    words, names = [], []
    for line in read("docs/GLOSSARY.md").split("\n"):
        cells = [cell.strip() for cell in line.strip("|").split("|")]
        if len(cells) == 3 and cells[1] != "Here" and not cells[1].startswith("---"):
            for word in cells[1].split(", "):
                (names if word.startswith("`") else words).append(word.strip("`"))
    return words, names


def uses(word):
    """Matches a word, also in the plural or as a participle, and at the beginning of a sentence."""
    front, last = word[:-1], word[-1]
    ending = "(?:y|ies|ied)" if last == "y" and word[-2] not in "aeou" else last + "(?:s|es|d|ed|ing)?"
    first = "[%s%s]" % (front[0], front[0].upper())
    return re.compile(r"(?<![\w-])%s%s(?![\w-])" % (first, re.escape(front[1:]).replace(r"\ ", r"\s+") + ending))


def places(pattern, pages):
    """Where the word stands, in reading order: the page, the line, and whether it is in italics there."""
    for path, text in pages:
        italics = [found.span() for found in re.finditer(r"(?<!\*)\*(?![\s*])[^*\n]+\*(?!\*)", text)]
        for found in pattern.finditer(text):
            said = any(begin < found.end() and found.start() < end for begin, end in italics)
            yield "%s:%d" % (path, text.count("\n", 0, found.start()) + 1), said


def public():
    """All words of `specs/`, the crates, and their public names."""
    found = set(re.findall(r"(?m)^(\w+):", read("crates.txt")))
    for path in glob.glob(os.path.join(ROOT, "crates/*/specs/**/*.antt"), recursive=True):
        found.update(re.findall(r"[\w-]+", read(path)))
    for path in glob.glob(os.path.join(ROOT, "crates/*/src/**/*.rt"), recursive=True):
        for names in PUBLIC.findall(read(path)):
            found.update(names)
    return found


def place_in_order(place):
    path, _, line = place.partition(":")
    return PAGES.index(path), int(line)


def main():
    words, names = glossary()
    pages = [(path, prose(read(path))) for path in PAGES]
    known, listed, status, quiet = public(), [], 0, "--quiet" in sys.argv[1:]
    for word in words:
        used = list(places(uses(word), pages))
        said = [place for place, is_said in used if is_said]
        if used:
            listed.append((used[0], said[0] if said else "nowhere", word))
        elif not all(part in known for part in word.split()):
            print("GLOSSARY has a word that stands nowhere: %s" % word)
            status = 1
    for name in names:
        if name not in known:
            print("GLOSSARY has a name that stands nowhere: %s" % name)
            status = 1
    for (used, is_said), said, word in sorted(listed, key=lambda it: place_in_order(it[0][0])):
        if not (quiet and is_said):
            print("%-24s said at %-22s used at %s%s" % (word, said, used, "" if is_said else "   USED BEFORE IT IS SAID"))
        status = status or int(not is_said)
    return status


if __name__ == "__main__":
    sys.exit(main())
