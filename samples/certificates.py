#!/usr/bin/env python3
"""Makes samples/certificates.tsv of the rows of certified clients in crates/disco_rows.

A line of that file is one document that one client is given: the row, the client's number there, what the
document is of, its form, its certificate, its text, what comes of it (`copy RUN VERSION` where the client takes
it, `keep RUN VERSION` where it leaves it, or a fault), and, where the row shows it, the copy afterwards as
`held COUNT APP/ID=STATUS ..`, else `-`. Rows that are refused as a whole have no line.
"""
import pathlib

HERE = pathlib.Path(__file__).resolve().parent
ROWS = HERE.parent / "crates/disco_rows/data"
COLUMNS = ("row", "client", "query", "form", "certificate", "document", "answer", "copy")


def parts_of(path):
    """The parts of a row by their headings: lists of lines. A part may have a file of its own."""
    parts, lines = {}, []
    for line in path.read_text(encoding="utf-8").split("\n"):
        if line.startswith("== "):
            lines = parts.setdefault(line[3:], [])
        else:
            lines.append(line)
    for name in ("words", "events", "answers"):
        other = path.with_suffix("." + name)
        if name not in parts and other.exists():
            parts[name] = other.read_text(encoding="utf-8").split("\n")
    return {name: [line for line in part if line] for name, part in parts.items()}


def run_of(words):
    """The number of the run that the words begin with."""
    words = [piece for word in words for piece in word.split("=", 1)]
    return words[words.index("--run") + 1] if "--run" in words else "0"


def vectors(path):
    """The lines of a row."""
    parts = parts_of(path)
    run, documents, found, last = run_of(parts.get("words", [])), {}, [], {}
    for number, (event, answer) in enumerate(zip(parts["events"], parts.get("answers", [])), 1):
        words, said = event.split(" "), answer.split(" ", 3)
        if words[0] == "restart" and said[0] == "run":
            run = said[1]
        elif said[0] == "doc" and words[2] in ("apps", "delta"):
            documents[number] = [words[2], words[1], "%s %s %s" % (run, said[1], said[2]), said[3]]
        elif words[0] == "certified":
            last[words[1]] = [path.stem, words[1], *documents[int(words[2])], answer, "-"]
            found.append(last[words[1]])
        elif words[0] == "certshow" and words[1] in last:
            last[words[1]][-1] = answer
    return found


def text():
    """The file as it has to be, with the numbers of its documents and of its rows."""
    rows = [path for path in sorted(ROWS.glob("*/*.row")) if "\ncertified " in path.read_text(encoding="utf-8")]
    lines = [line for path in rows if "status" not in parts_of(path) for line in vectors(path)]
    joined = "".join("\t".join(line) + "\n" for line in [COLUMNS, *lines])
    return joined, len(lines), len({line[0] for line in lines})


def main():
    joined, documents, rows = text()
    (HERE / "certificates.tsv").write_text(joined, encoding="utf-8")
    print("%d documents of %d rows" % (documents, rows))


if __name__ == "__main__":
    main()
