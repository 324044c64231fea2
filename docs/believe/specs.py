"""Reads the definitions of `specs/`, and the contracts of public functions, as the other scripts here show them. It is run by none but these."""

import collections
import functools
import glob
import os
import re
import textwrap

MARK = re.compile(r"nothing here (?:is to|need) be believed", re.I)
IMPORT = re.compile(r"(?:ghost )?use (?:Rattle\.)?([\w.]+?)(?:\.\{(.*)\})?(?: as (\w+))?;?$")
HEADER = re.compile(r"(?:(?:abbrev|unfoldable|opaque)\s+)*(?:pub\s+)?(?:(record|data)\s+)?([^\W\d][\w-]*)\b")
WORD = re.compile(r"(?<![\w.-])[^\W\d][\w-]*(?:\.[^\W\d][\w-]*)?")
CLAUSE = re.compile(r"\b(ensures|requires|ghost)\s+(\w+)(?=\s*[{=:])")
FUNCTION = re.compile(r"\s*(pub )?(?:const )?fn (\w+)")
OWNER = re.compile(r"(?:impl|pub trait)\b(?:<[^{]*?>)?\s*(?:[\w:]+(?:<[^{]*>)?\s+for\s+)?(\w+)")

Definition = collections.namedtuple("Definition", "place name lines words")
# A function, a ghost member of a type, or a lemma: its file, its type if it has one, its name, how pages call it, its lines with the comment in front,
# and the words of its clauses.
Contract = collections.namedtuple("Contract", "path owner name label lines words")


def read(path):
    with open(path, encoding="utf-8") as file:
        return file.read()


def crates():
    """The crates, lowest first."""
    return [line.split(":")[0] for line in read("crates.txt").split("\n") if ":" in line and not line.startswith("#")]


class Names:
    """What the names of a file mean: those that it takes from others, and those of whole files."""

    def __init__(self, text):
        self.taken, self.files = {}, {}
        for line in text.split("\n"):
            found = IMPORT.match(line.strip())
            if found:
                self.take(*found.groups())

    def take(self, path, names, alias):
        """Notes an import. A place is a crate or a library, and the path behind it."""
        place = tuple(path.replace(".specs.", ".", 1).split(".", 1)) if path.startswith("disco_") else tuple(path.split(".", 1))
        if alias:
            self.files[alias] = place
        for name in (names or "").split(","):
            old, _, new = name.strip().partition(" as ")
            if old:
                self.taken[new or old] = (place, old)

    def meaning(self, word):
        """The place and the name that a word stands for, if it is taken from elsewhere."""
        first, _, rest = word.partition(".")
        if rest and first in self.files:
            return self.files[first], rest
        return self.taken.get(word) or self.taken.get(first)


def blocks(text):
    """The definitions of a file, each with the comment in front of it and the equations behind it."""
    found, comment = [], []
    for line in text.split("\n"):
        if line.startswith("use ") or not line.strip():
            comment = []
        elif line.startswith("--"):
            comment.append(line)
        elif line[0] in " \t})" and found:
            found[-1][1].append(line)
        else:
            name = HEADER.match(line).group(2)
            if found and found[-1][0] == name:
                found[-1][1].append(line)
            else:
                found.append((name, comment + [line]))
            comment = []
    return found


def is_code(line):
    return not line.startswith("--")


def code_of(lines):
    """The code of a definition, without texts and without the names of members that it declares or sets."""
    text = "\n".join(line for line in lines if is_code(line))
    text = re.sub(r"(?m)^\s+pub [\w-]+ :", " :", text)
    text = re.sub(r"[{;]\s*[\w-]+ =", " =", text)
    return re.sub(r'"(?:[^"\\]|\\.)*"', " ", text)


def words_of(code):
    """The words of a piece of code, and its signs."""
    return set(WORD.findall(code)) | set(re.split(r"[\s(){};,]+", code))


def constructors(lines):
    code = [line for line in lines if is_code(line)]
    if "data" not in code[0].split("where")[0].split():
        return []
    return [found.group(1) for found in (re.match(r"\s+(?:pub )?([\w-]+) :", line) for line in code[1:]) if found]


def definitions():
    """All definitions by place and name, the constructors of data by theirs, the places that are marked, and the names of each place."""
    found, marked, names_at = {}, set(), {}
    for path in sorted(glob.glob("crates/*/specs/*.antt")):
        place = (path.split("/")[1], os.path.basename(path)[:-5])
        text = read(path)
        if place[1] == "Lib":
            continue
        names_at[place] = Names(text)
        if MARK.search(text.split("\n", 1)[0]):
            marked.add(place)
        for name, lines in blocks(text):
            whole = Definition(place, name, lines, words_of(code_of(lines)))
            found[place, name] = whole
            for made in constructors(lines):
                found.setdefault((place, made), whole)
    return found, marked, names_at


def named_by(words, place, names, found):
    """The definitions that these words name, in a file."""
    for word in sorted(words):
        known = names.meaning(word) or (place, word.partition(".")[0])
        if known in found:
            yield found[known]


def end_of_contract(lines, at):
    """The line behind a function's clauses, or behind a ghost member: where no brace is open, that of a body, or the one behind a semicolon."""
    depth = 0
    for i in range(at, len(lines)):
        bare = lines[i].strip()
        if depth == 0 and (bare in ("{", "{}") or i > at and (FUNCTION.match(lines[i]) or lines[i].startswith("}"))):
            return i
        depth += bare.count("{") - bare.count("}")
        if depth == 0 and bare.endswith(";"):
            return i + 1
    return len(lines)


def contracts(path):
    """Of a source file the public functions that have clauses, and the ghost members of public traits and of what
    implements traits: of a type that contracts see as another value, that value alone."""
    lines, owner, header = read("crates/" + path).split("\n"), None, ""
    public = public_types(path.split("/")[0])
    for at, line in enumerate(lines):
        if line[:1] not in ("", " ", "}", "/", ")"):
            header, owns = line, OWNER.match(line)
            owner = owns.group(1) if owns else None
        in_trait = header.startswith("pub trait")
        function, ghost = FUNCTION.match(line), re.match(r"    ghost (?!use\b)(\w+)\s*[:=]", line)
        taken = lines[at:end_of_contract(lines, at)]
        if owner and line.startswith("    ") and owner not in public:
            continue
        if function and (function.group(1) or in_trait) and any(re.match(r"\s*(?:ensures|requires)\b", one) for one in taken):
            name, its = function.group(2), owner if line.startswith("    ") else None
            yield Contract(path, its, name, "%s::%s" % (its, name) if its else name, commented(lines, at) + taken, clause_words(taken))
        elif ghost and owner and (in_trait or " for " in header and ("Model for" not in header or ghost.group(1) == "Value")):
            above = [] if in_trait else [header.rstrip(" {")]
            yield Contract(path, owner, ghost.group(1), owner, above + commented(lines, at) + taken, clause_words(taken))


@functools.cache
def public_types(crate):
    text = "\n".join(read(path) for path in glob.glob("crates/%s/src/**/*.rt" % crate, recursive=True))
    return set(re.findall(r"\bpub (?:struct|enum|trait) (\w+)", text))


def commented(lines, at):
    """The comment in front of a line, without attributes behind it."""
    while lines[at - 1].strip().startswith("#["):
        at -= 1
    start = at
    while start and lines[start - 1].strip().startswith("//"):
        start -= 1
    return lines[start:at]


def lemma(path, name):
    """The statement of a lemma, behind the definitions of its file that it names."""
    made = dict(blocks(read("crates/" + path)))
    lines = made[name]
    at = next(i for i, line in enumerate(lines) if is_code(line))
    end = next(i for i in range(at + 1, len(lines)) if not lines[i].startswith(" "))
    stated = lines[:end]
    below = [made[word] for word in sorted(words_of(code_of(stated))) if word in made and word != name]
    whole = [line for one in below for line in one + [""]] + stated
    return Contract(path, None, name, name, whole, words_of(code_of(whole)))


def clause_words(lines):
    """The words of clauses, without their names and without comments."""
    text = "\n".join(line for line in lines if not line.strip().startswith("//"))
    found = re.search(r"\b(?:ensures|requires|ghost)\b", text)
    return words_of(CLAUSE.sub(r"\1", text[found.start():]))


def shown(contract):
    """A contract as it stands."""
    return textwrap.dedent("\n".join(contract.lines))


def clauses(contract):
    return {found.group(2) for line in contract.lines for found in CLAUSE.finditer(line)}
