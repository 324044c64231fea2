"""What `docs/check.sh` runs: whether what the pages name is there, and whether the generated pages are as their scripts write them."""

import fnmatch
import glob
import os
import re
import sys

ROOT = os.path.dirname(os.path.dirname(os.path.abspath(__file__)))
os.chdir(ROOT)
sys.dont_write_bytecode = True
sys.path[:0] = [os.path.join(ROOT, folder) for folder in ("docs", "docs/believe", "bench", "samples")]

import believe
import certificates
import crates
import definitions
import figures

GENERATED = ["docs/DEFINITIONS.md"] + ["docs/believe/%s.md" % page.name for page in believe.PAGES + [believe.PARTS]]
# Options of other programs than those of this repository: the kit's `rt`, and what stands in samples and examples.
OTHERS = set("--allow-holes --anew --cases --data --init --jobs --only --start --seconds --help --check --path-as-is".split())
ENDINGS = r"(?:rt|antt|md|sh|py|tsv|c|events|service|conf|cfg|txt|edit)"
# Pages whose figures have to be in `bench/figures.tsv`, and units: those of any number in a block with a date, and those of measured numbers anywhere.
WITH_FIGURES = ("README.md", "docs/OPERATING.md", "docs/PROVED.md")
UNITS = {"seconds": "s", "second": "s", "minutes": "min", "minute": "min"}
DATED = r"ms|µs|ns|s|seconds?|minutes?|min|[KMG]B|[KM]iB|in 100"
MEASURED = r"ms|µs|ns|minutes?|min|[KMG]B"
DATE = re.compile(r"\b\d{4}-\d\d-\d\d\b")
findings = []


def read(path):
    with open(path, encoding="utf-8") as file:
        return file.read()


def found(path, line, text):
    findings.append("%s:%d: %s" % (path, line, text))


def tracked():
    """All files of the repository but those that `.gitignore` leaves out."""
    ignored, found_files = [".git/"] + read(".gitignore").split(), []
    for folder, folders, names in os.walk("."):
        folders[:] = [name for name in folders if not any(fnmatch.fnmatchcase(name + "/", one) for one in ignored)]
        found_files += [
            os.path.normpath(os.path.join(folder, name)).replace(os.sep, "/")
            for name in names
            if not any(fnmatch.fnmatchcase(name, one) for one in ignored)
        ]
    return sorted(found_files)


def anchors(text):
    """The anchors of a page's headings."""
    made, seen = set(), {}
    for heading in re.findall(r"(?m)^#+ (.*)$", without_code(text)):
        plain = re.sub(r"\[([^\]]*)\]\([^)]*\)", r"\1", heading).lower()
        slug = re.sub(r"[^\w\- ]", "", plain).strip().replace(" ", "-")
        times = seen.get(slug, 0)
        seen[slug] = times + 1
        made.add("%s-%d" % (slug, times) if times else slug)
    return made


def without_code(text):
    """The page without blocks of code, line by line."""
    return re.sub(r"(?ms)^```.*?^```", lambda block: "\n" * block.group(0).count("\n"), text)


def numbered(text, pattern):
    """The matches of a pattern with the numbers of their lines."""
    for number, line in enumerate(text.split("\n"), 1):
        for match in re.finditer(pattern, line):
            yield number, match, line


def check_links(path, text):
    for number, match, _ in numbered(without_code(text), r"\]\(([^)\s]+)\)"):
        target = match.group(1)
        if re.match(r"[a-z]+:", target):
            continue
        file, _, anchor = target.partition("#")
        where = os.path.normpath(os.path.join(os.path.dirname(path), file)) if file else path
        if not os.path.exists(where):
            found(path, number, "no file %s" % target)
        elif anchor and where.endswith(".md") and anchor not in anchors(read(where)):
            found(path, number, "no heading %s" % target)


def check_files(path, text, files):
    """Names of files in backticks: as they stand, or as the end of a path, in the crate that is named behind them."""
    for number, match, line in numbered(text, r"`([\w./-]+\.%s)`(?: of `(disco\w+)`)?" % ENDINGS):
        name, crate = match.group(1), match.group(2)
        name = name.removeprefix("./")
        if re.search(r"(^|/)[A-Z_]{3,}\.(?!md$)", name):
            continue  # the name stands for any
        hits = [file for file in files if file == name or file.endswith("/" + name)]
        if crate:
            hits = [file for file in hits if file.startswith("crates/%s/" % crate)]
        if not hits:
            found(path, number, "no file %s%s" % (name, " of %s" % crate if crate else ""))
    for number, match, _ in numbered(text, r"`((?:crates|docs|bench|samples)/[\w./-]*)`"):
        name = match.group(1)
        if not os.path.exists(name.rstrip("/")) and "/out" not in name:
            found(path, number, "no file or folder %s" % name)
    for number, match, _ in numbered(text, r"(?<![\w/.])((?:bench|docs|samples)/[\w-]+(?:\.%s)?)\b" % ENDINGS):
        if not os.path.exists(match.group(1)):
            found(path, number, "no file %s" % match.group(1))


def check_mentions(path, text):
    """Names of pages, benches and samples in a file that is no page."""
    for number, match, _ in numbered(text, r"(?<![\w/.])((?:bench|docs|samples)/[\w/-]+\.%s)\b" % ENDINGS):
        if not os.path.exists(match.group(1)):
            found(path, number, "no file %s" % match.group(1))


def check_crates(path, text, known):
    for number, match, _ in numbered(text, r"\b(disco_\w+)\b"):
        if match.group(1) not in known:
            found(path, number, "no crate %s" % match.group(1))


def options():
    """The options of the program, which are named by literals of the crates of commands, and those of scripts."""
    known = set(OTHERS)
    for crate in ("disco_options", "disco_prog", "disco_follow"):
        for file in glob.glob("crates/%s/src/**/*.rt" % crate, recursive=True):
            known.update("--" + name for name in re.findall(r'"([a-z][a-z-]*)"', read(file)))
    for file in ["discovery"] + glob.glob("bench/*") + glob.glob("docs/*.py") + glob.glob("samples/*"):
        if os.path.isfile(file) and not file.endswith(".md") and "docs/check.py" not in file:
            known.update(re.findall(r"(?<![\w-])--[a-z][a-z-]+", read(file)))
    return known


def check_options(path, text, known):
    for number, match, _ in numbered(text, r"(?<![\w-])(--[a-z][a-z-]+)"):
        if match.group(1) not in known:
            found(path, number, "no option %s" % match.group(1))


def contract(text, function):
    """The lines of a function's contract, of each function of that name."""
    lines = text.split("\n")
    for at, line in enumerate(lines):
        if re.match(r"\s*pub (?:const )?fn %s\b" % re.escape(function), line):
            end = next((i for i in range(at, len(lines)) if lines[i].strip() in ("{", "{}")), len(lines))
            yield "\n".join(lines[at:end])


def check_clauses(path, text):
    """Rows of functions, their clauses and their file. A row without names of clauses, as `one` without backticks, names all."""
    for number, match, _ in numbered(text, r"^\| ([^|]*) \| ([^|]*) \| `(disco_\w+/src/[\w/]+\.rt)` \|"):
        names, clauses, file = re.findall(r"`([\w:]+)`", match.group(1)), re.findall(r"`(\w+)`", match.group(2)), "crates/" + match.group(3)
        if not os.path.exists(file):
            found(path, number, "no file %s" % file)
            continue
        for name in names:
            function = name.split("::")[-1]
            contracts = [read(file)] if function[:1].isupper() and function in read(file) else list(contract(read(file), function))
            if not contracts:
                found(path, number, "no public function %s in %s" % (function, file))
            for clause in clauses:
                if not any(re.search(r"(?:ensures|requires|ghost) %s\b" % clause, one) for one in contracts):
                    found(path, number, "no clause %s of %s in %s" % (clause, function, file))


def check_libraries():
    """Whether each library of `crates.txt` is among what is trusted."""
    trusted = read("docs/PROVED.md").split("## What is trusted")[-1].split("\n## ")[0]
    for line in read("crates.txt").split("\n"):
        for name in line.split(":")[1].split() if ":" in line and not line.startswith("#") else []:
            if not name.startswith("disco_") and name != "core" and "`%s`" % name not in trusted:
                findings.append("docs/PROVED.md: the library %s isn't among what is trusted" % name)


def amounts(text, units):
    """The numbers of a text with their units: of `0.8 and 1.3 ms` both. Dates don't count."""
    for match in re.finditer(r"(?:\d[\d,.]*\d|\d)(?: (?:and|to) (?:\d[\d,.]*\d|\d))* (%s)(?!\w)" % units, DATE.sub("", text)):
        unit = UNITS.get(match.group(1), match.group(1))
        for number in re.findall(r"\d[\d,.]*\d|\d", match.group(0)[: -len(match.group(1))]):
            yield number, unit


def check_figures():
    """Whether each number with a unit is the last figure of its kind, in paragraphs and tables with a date, and in a table behind such a paragraph."""
    known = {amount for _, what, value, _, _ in figures.latest([]) for cell in (what, value) for amount in amounts(cell, DATED)}
    for path in WITH_FIGURES:
        line, dated_before = 1, False
        for block in re.split(r"(\n\s*\n)", re.sub(r"`[^`\n]*`", "", without_code(read(path)))):
            parts = block.split("\n") if re.match(r"\s*- ", block) else [block]
            for at, part in enumerate(parts):
                dated = bool(DATE.search(part)) or part.startswith("|") and dated_before
                for number, unit in amounts(" ".join(part.split()), DATED if dated else MEASURED):
                    if (number, unit) not in known:
                        found(path, line + at, "no figure %s %s in bench/figures.tsv" % (number, unit))
            if block.strip():
                dated_before = bool(DATE.search(block))
            line += block.count("\n")


def check_generated():
    for script in (crates, definitions):
        sys.argv = [script.__name__, "--check"]
        said = script.main()
        if said:
            findings.append(said)
    if certificates.text()[0] != read("samples/certificates.tsv"):
        findings.append("samples/certificates.tsv isn't as samples/certificates.py writes it")
    made, said = believe.pages()
    findings.extend("docs/believe: " + one for one in said)
    for one in made:
        path = "docs/believe/%s.md" % one.page.name
        if not os.path.exists(path) or read(path) != one.text:
            findings.append("%s isn't as docs/believe/believe.py writes it" % path)


def main():
    files = tracked()
    known_crates = {crate for _, crate in crates.layers()}
    known_options = options()
    for path in [file for file in files if file.endswith(".md")]:
        text = read(path)
        check_links(path, text)
        if path in GENERATED:
            continue
        check_files(path, text, files)
        check_crates(path, text, known_crates)
        check_options(path, text, known_options)
        check_clauses(path, text)
    for path in files:
        if path == "discovery" or re.search(r"\.(?:rt|antt|sh|py|service|conf|cfg|edit)$", path) and path != "docs/check.py":
            check_mentions(path, read(path))
    check_libraries()
    check_figures()
    check_generated()
    findings.extend(figures.faults())
    said = list(dict.fromkeys(findings))
    print("\n".join(said + ["docs/check.py: %d finding%s" % (len(said), "" if len(said) == 1 else "s")]))
    return 1 if said else 0


if __name__ == "__main__":
    sys.exit(main())
