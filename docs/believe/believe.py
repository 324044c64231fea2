"""Writes beside itself, for each main theorem, its contracts and the definitions that these reach, in the order in which they can be read.

Run it at the top of the repository: `python3 docs/believe/believe.py`. It prints how many lines each page makes a reader believe. It ends with
status 1 where a page has a file that is marked as not to be believed, where a file that isn't marked is on no page, where a name has two meanings on
a page, and where a sketch names what its page hasn't. The sketches stand in `sketches.md`, a section for each page.
"""

import collections
import functools
import glob
import os
import re
import sys

import specs

HERE = os.path.dirname(os.path.abspath(__file__))

# Of each page its name, of what it is, and its roots: a source file with a function or, for all public ones, without; or a file of lemmas with one.
Page = collections.namedtuple("Page", "name of roots")
PAGES = [
    Page("run", "lists of events", ["disco_world/src/runs.rt run"]),
    Page("replay", "the command `replay`", ["disco_prog/src/replay_command.rt replay"]),
    Page("connection", "one connection over a desk", ["disco_http/src/session.rt serve", "disco_server/src/desk_service.rt"]),
    Page("refresh", "a client's refresh, plain and certified", ["disco_reconcile/src/client.rt refresh"]),
    Page("hub", "a hub", ["disco_hub/src/hub.rt", "disco_hub/src/cancel.rt", "disco_hub/src/copied.rt"]),
    Page("desk", "a desk with its seats", [
        "disco_press/src/seats.rt",
        "disco_press/src/desk.rt",
        "disco_press/src/writes.rt",
        "disco_press/src/rounds.rt",
        "disco_press/src/seat.rt",
        "disco_server/src/publisher.rt publish_step",
    ]),
    Page("laws", "the laws", [
        "disco_history/src/laws.rt",
        "disco_reconcile/src/laws.rt",
        "disco_wire/src/laws.rt",
        "disco_message/src/laws.rt",
        "disco_calls/src/laws.rt",
        "disco_queue/src/laws.rt",
        "disco_hub/proofs/InStep.antt begun_law",
        "disco_hub/proofs/InStep.antt copied_law",
        "disco_hub/proofs/InStep.antt publishable_law",
        "disco_hub/proofs/InStep.antt shown_law",
    ]),
]
# The last page has what the contracts of all public functions reach and no page above it has.
PARTS = Page("parts", "the other public functions", [])

# Marked files that a contract hands on from call to call, so that no page shows them: what a session holds of a request that isn't whole.
HANDED_ON = {("disco_http", "Coming")}

# A page as it is written: its contracts, its definitions, and its text.
Written = collections.namedtuple("Written", "page contracts order text")


def contracts_of(root):
    """The contracts that a root of a page names."""
    path, _, name = root.partition(" ")
    if path.endswith(".antt"):
        return [specs.lemma(path, name)]
    found = [one for one in specs.contracts(path) if name in ("", one.name)]
    return found or sys.exit("docs/believe/believe.py: there is no contract of %s" % root)


def all_contracts():
    """The contracts of all public functions, lowest crate first."""
    for crate in specs.crates():
        for path in sorted(glob.glob("crates/%s/src/**/*.rt" % crate, recursive=True)):
            yield from specs.contracts(path.removeprefix("crates/"))


@functools.cache
def names_of(path):
    return specs.Names(specs.read("crates/" + path))


def named_in(contract, found):
    """The definitions that a contract names."""
    return list(specs.named_by(contract.words, None, names_of(contract.path), found))


def uses_of(contracts, found):
    """Of each definition the labels of the contracts that name it, in their order."""
    uses = collections.defaultdict(dict)
    for contract in contracts:
        for it in named_in(contract, found):
            uses[it.place, it.name][contract.label] = True
    return uses


def closure(contracts, found, names_at):
    """The definitions that contracts reach, each behind all that it names, where that can be."""
    order, seen = [], set()

    def visit(definition):
        key = definition.place, definition.name
        if key in seen or definition.place in HANDED_ON:
            return
        seen.add(key)
        for below in specs.named_by(definition.words, definition.place, names_at[definition.place], found):
            visit(below)
        order.append(definition)

    for contract in contracts:
        for root in named_in(contract, found):
            visit(root)
    return order


def by_file(order):
    """The definitions by file, files in the order in which the last of each is reached, lowest first."""
    files = collections.defaultdict(list)
    for definition in order:
        files[definition.place].append(definition)
    crates = specs.crates()
    last = {place: order.index(made[-1]) for place, made in files.items()}
    return [(place, files[place]) for place in sorted(files, key=lambda it: (crates.index(it[0]), last[it]))]


def uses(contracts, order, names_at):
    """The words of contracts and definitions, each with what the names of its file mean."""
    return [(it.words, names_of(it.path)) for it in contracts] + [(it.words, names_at[it.place]) for it in order]


def count(made):
    return sum(specs.is_code(line) for definition in made for line in definition.lines)


def named(words, names):
    """Of these words those that are taken from elsewhere by name."""
    return [word for word in names.taken if all(part in words for part in word.split("◌") if part)]


def taken_from(words, names):
    """Of these words those that are taken from elsewhere: the place of each, and the word there."""
    for word in named(words, names):
        place, old = names.taken[word]
        yield place, word if word == old else "%s as %s" % (old, word)
    for word in words:
        first, _, rest = word.partition(".")
        if rest and first in names.files:
            yield names.files[first], rest


def kit_words(contracts, order, names_at):
    """The words of the kit's libraries, by file, that contracts and definitions use."""
    files = collections.defaultdict(set)
    for words, names in uses(contracts, order, names_at):
        for place, word in taken_from(words, names):
            if not place[0].startswith("disco_"):
                files["/".join(place).replace(".", "/")].add(word.replace("◌", " ").strip())
    return files


def meanings(one, names_at):
    """What each name of a page stands for: by the place where it is made, its name there."""
    made = collections.defaultdict(set)
    for it in one.order:
        for name in [it.name] + specs.constructors(it.lines):
            made[name].add((it.place, name))
    for words, names in uses(one.contracts, one.order, names_at):
        for word in named(words, names):
            made[word].add(names.taken[word])
    return made


def table(first, files):
    """A table of a row a file, or a page, with its words."""
    rows = ["| %s | Words |" % first, "|---|---|"]
    for file in sorted(files, key=lambda file: file.strip("`")):
        rows.append("| %s | %s |" % (file, ", ".join("`%s`" % word.replace("|", "\\|") for word in sorted(files[file], key=lambda it: (it.lower(), it)))))
    return rows


@functools.cache
def sketches():
    """The sections of `sketches.md` by their names."""
    sections = re.split(r"(?m)^## (.*)\n", specs.read(os.path.join(HERE, "sketches.md")))
    found = {name: text.strip() for name, text in zip(sections[1::2], sections[2::2])}
    return {name: text.replace("{documents}", found["documents"]) for name, text in found.items()}


def contract_lines(contracts):
    """The contracts, a block for those of a type, and for those of functions, in a file."""
    groups = collections.defaultdict(list)
    for contract in contracts:
        groups[contract.path, contract.owner].append(contract)
    lines = ["", "## The contract" + "s" * (len(contracts) > 1)]
    for (path, owner), made in groups.items():
        label = made[0].label if len(made) == 1 else owner
        lines += ["", "`%s`%s:" % (path, ", `%s`" % label if label else ""), "", "```"]
        for contract in made:
            lines += [specs.shown(contract), ""]
        lines[-1] = "```"
    return lines


def definition_lines(order, uses=None):
    """The definitions, a block a file; behind its heading the contracts that name them, where these are given."""
    lines = []
    for (crate, name), made in by_file(order):
        lines += ["", "## `%s/specs/%s.antt`" % (crate, name), ""]
        if uses and any(uses[it.place, it.name] for it in made):
            labels = dict.fromkeys(label for it in made for label in uses[it.place, it.name])
            lines += ["Named by %s." % ", ".join("`%s`" % label for label in labels), ""]
        lines.append("```")
        for at, definition in enumerate(made):
            lines += ([""] if at else []) + definition.lines
        lines.append("```")
    return lines


def written(page, contracts, order, names_at, intro, middle, uses=None):
    """A page: what it is, its sketch, how to read it, what comes between, and its definitions."""
    size = "%d definitions, %d lines without comments, in %d files" % (len(order), count(order), len({it.place for it in order}))
    files = {"`%s`" % file: words for file, words in kit_words(contracts, order, names_at).items()}
    others = " · ".join("[%s](%s.md)" % (one.of, one.name) for one in PAGES + [PARTS] if one != page)
    lines = ["# What has to be believed of %s" % page.of, "", intro % size, "", "Other pages: %s." % others]
    lines += ["", "## How it hangs together", "", sketches()[page.name]]
    lines += ["", "## How to read it", "", sketches()["reading"], ""] + table("File of the kit", files)
    return Written(page, contracts, order, "\n".join(lines + middle + definition_lines(order, uses)) + "\n")


def theorem(page, found, names_at):
    contracts = [one for root in page.roots for one in contracts_of(root)]
    intro = "First comes a sketch, then %s, then %%s. Lowest crate first; each definition stands behind those that it names, but for files that name one another's." % (
        "the contract" if len(contracts) == 1 else "the contracts")
    return written(page, contracts, closure(contracts, found, names_at), names_at, intro, contract_lines(contracts))


def parts(pages, found, names_at):
    """The last page, behind the others."""
    contracts, where = list(all_contracts()), {}
    for one in pages:
        for it in one.order:
            where.setdefault((it.place, it.name), one.page.name)
    order = [it for it in closure(contracts, found, names_at) if (it.place, it.name) not in where]
    elsewhere = collections.defaultdict(set)
    for it in order:
        for below in specs.named_by(it.words, it.place, names_at[it.place], found):
            if (below.place, below.name) in where:
                name = where[below.place, below.name]
                elsewhere["[%s](%s.md)" % (name, name)].add(below.name)
    intro = "First comes a sketch, then %s: those that the contracts of public functions reach and that no other page has. Lowest crate first."
    middle = ["", "These stand on other pages:", ""] + table("Page", elsewhere)
    return written(PARTS, [], order, names_at, intro, middle, uses_of(contracts, found))


def pages():
    """All pages, and what is wrong with them."""
    found, marked, names_at = specs.definitions()
    made = [theorem(page, found, names_at) for page in PAGES]
    made.append(parts(made, found, names_at))
    return made, faults(made, marked, names_at)


def faults(made, marked, names_at):
    said, on_pages = [], {it.place for one in made for it in one.order}
    for one in made:
        for place in sorted({it.place for it in one.order} & marked):
            said.append("%s.md has a file that is marked as not to be believed: %s/specs/%s.antt" % (one.page.name, *place))
        for name in sorted(set(re.findall(r"`([^`]+)`", sketches()[one.page.name])) - known_on(one)):
            said.append("sketches.md: %s.md has no %s" % (one.page.name, name))
        for name, made_at in sorted(meanings(one, names_at).items()):
            if len(made_at) > 1:
                places = sorted("%s.%s" % (".".join(place), old) for place, old in made_at)
                said.append("%s.md has a name with two meanings: %s (%s)" % (one.page.name, name, ", ".join(places)))
    for place in sorted(set(names_at) - marked - on_pages):
        said.append("a file that isn't marked as not to be believed is on no page: %s/specs/%s.antt" % place)
    return said


def known_on(one):
    """The names that the sketch of a page may cite: its definitions, and the functions and clauses of its contracts."""
    names = {it.name for it in one.order} | {made for it in one.order for made in specs.constructors(it.lines)}
    for it in one.contracts:
        names |= {it.label} | specs.clauses(it)
        names |= {name for name, _ in specs.blocks("\n".join(it.lines))} if it.path.endswith(".antt") else set()
    return names


def main():
    made, said = pages()
    for one in made:
        print("%-10s %4d definitions, %5d lines" % (one.page.name, len(one.order), count(one.order)))
        with open(os.path.join(HERE, one.page.name + ".md"), "w", encoding="utf-8") as file:
            file.write(one.text)
    for line in said:
        print("  " + line)
    return 1 if said else 0


if __name__ == "__main__":
    sys.exit(main())
