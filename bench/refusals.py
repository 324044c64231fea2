"""Refuses each growth of the proved programs in turn, and judges what comes of it:
refusals.py ROOT FOLDER [--quick]

A run of `discovery replay` in which one growth is refused may come to this, and to nothing else:

- It answers as without a refusal.
- It ends with status 1 and says `discovery: fault 1`, and no answer is written: all events are answered
  before the first line is. A front of the lines could stand there only where a line of `held` of more than
  64 KiB found no memory, and no row has one.
- One event answers `fault 1`, and all others answer as they do in a run of the events without that one.
- One load answers as without a refusal, and its document isn't kept: all others answer as they do
  without that load.
- One run of leases answers `expired N fault 1`, and all others answer as they do where the first N
  instances that it cancels are cancelled in its place, one after another.

`disco_refusals`, which asks again where memory was refused, a desk or a client as its word says, has to
answer as without a refusal, or to end with status 1 behind a front of whole lines, the last of which may
say that a trial found no memory.
"""

import glob
import itertools
import json
import os
import re
import subprocess
import sys
import urllib.parse
from collections import Counter
from concurrent.futures import ThreadPoolExecutor

# The rows that `--quick` takes.
QUICK = ("registration_served_and_cancelled", "override_is_removed", "vips_of_an_instance_that_changes")

# A row with more events than this has each growth refused whose number is one more than a multiple of
# STEP, and of its other growths none: its events are alike.
MANY_EVENTS = 1000
STEP = 17

# Of how many runs of one row it is shown what they came to, where it is something else.
MOST_SHOWN = 3

# How long a run may take, in seconds.
PATIENCE = 120

REFUSED = (1, b"discovery: fault 1\n")

# What comes of a growth that is refused.
UNSEEN = "nothing seen"
NONE_WRITTEN = "ended with no answer"
ENDED = "ended behind a front"
ONE_REFUSED = "one event refused"
UNKEPT = "a document not kept"
STOPPED = "a run of leases stopped"
UNSHOWN = "a message not shown"
OTHER = "SOMETHING ELSE"
ALL = (UNSEEN, NONE_WRITTEN, ENDED, ONE_REFUSED, UNKEPT, STOPPED, UNSHOWN, OTHER)

AT_ONCE = os.cpu_count() or 1


class Came:
    """What a run came to."""

    def __init__(self, status, out, err):
        self.status, self.out, self.err = status, out, err

    def lines(self):
        return self.out.split(b"\n")[:-1]

    def __eq__(self, other):
        return (self.status, self.out, self.err) == (other.status, other.out, other.err)


class Program:
    """A program with words and an input, in which a growth may be refused."""

    def __init__(self, shim, path, words=(), given=b""):
        self.shim, self.command, self.given = shim, [path, *words], given

    def run(self, at=0):
        """What it comes to where the growth of that number is refused, and whether one was."""
        told, tell = os.pipe()
        env = dict(os.environ, LD_PRELOAD=self.shim, REFUSE_AT=str(at), REFUSE_TOLD=str(tell))
        try:
            done = subprocess.run(
                self.command, input=self.given, capture_output=True, env=env, pass_fds=(tell,), timeout=PATIENCE, check=False
            )
        finally:
            os.close(tell)
            was_told = os.read(told, 1)
            os.close(told)
        return Came(done.returncode, done.stdout, done.stderr), was_told != b""


def word_of(text):
    return urllib.parse.quote_from_bytes(text.encode(), safe="")


def keys_in(document):
    """The version of a document of all apps, and the keys of its instances."""
    kind, _base, version, text = document.split(b" ", 3)
    assert kind == b"doc"
    apps = json.loads(text)["applications"]["application"]
    return int(version), {(one["app"], one["instanceId"]) for app in apps for one in app["instance"]}


def parts_of(stem):
    """The parts of a row by their kinds: files of its own, but first what its file has under headings."""
    parts = {file[len(stem) + 1 :]: read_if_any(file, b"") for file in glob.glob(stem + ".*")}
    pieces = re.split(rb"(?m)^== (.*)\n", parts.pop("row"))
    parts.update(zip((kind.decode() for kind in pieces[1::2]), pieces[2::2]))
    return parts


class Row:
    """Events with the words of their command, and what comes out without a refusal."""

    def __init__(self, root, shim, stem):
        parts = parts_of(stem)
        self.name, self.shim = os.path.basename(stem), shim
        self.path = os.path.join(root, "crates", "discovery", "out", "discovery")
        self.words = parts.get("words", b"replay\n").decode().splitlines()
        self.events = parts.get("events")
        self.wanted = Came(int(parts.get("status", b"0\n")), parts.get("answers", b""), parts.get("faults", b""))
        self.others = {}

    def is_tried(self):
        """Rows of documents and of other commands aren't, and neither are those with an event that names
        the line of an earlier one, which would move."""
        return (
            self.events is not None
            and self.words[:1] not in (["serve"], ["follow"], ["fleet"])
            and not any(
                urllib.parse.unquote_to_bytes(line.split(b" ")[0]) in (b"take", b"certified") for line in self.lines()
            )
        )

    def lines(self):
        return self.events.removesuffix(b"\n").split(b"\n")

    def program(self, lines=None, words=None):
        given = self.events if lines is None else b"".join(line + b"\n" for line in lines)
        return Program(self.shim, self.path, self.words if words is None else words, given)

    def step(self):
        return STEP if len(self.lines()) > MANY_EVENTS else 1

    def answers(self, lines, words=None):
        came, _ = self.program(lines, words).run()
        return came.lines() if came.status == 0 else None

    def without(self, at):
        """What the events answer without the one at that place."""
        if at not in self.others:
            lines = self.lines()
            self.others[at] = self.answers(lines[:at] + lines[at + 1 :])
        return self.others[at]

    def words_with_versions(self, versions):
        words = list(self.words)
        if "--versions" in words:
            del words[words.index("--versions") : words.index("--versions") + 2]
        return words + ["--versions", str(versions)]

    def gone_first(self, at, count):
        """The keys that the run of leases at that place cancels first, each by a limit at which it stops."""
        before, event = self.lines()[:at], self.lines()[at]
        version, left = keys_in(self.answers(before + [b"load full apps"])[-1])
        gone = []
        for more in range(1, count + 1):
            answers = self.answers(before + [event, b"load full apps"], self.words_with_versions(version + more))
            now = keys_in(answers[-1])[1]
            gone.extend(left - now)
            left = now
        return gone

    def with_cancels(self, at, count):
        """What all other events answer where so many cancels stand in the place of a run of leases."""
        if (at, count) not in self.others:
            lines = self.lines()
            now = lines[at].split(b" ")[1].decode()
            gone = self.gone_first(at, count)
            cancels = [("cancel %s %s %s" % (now, word_of(app), word_of(id))).encode() for app, id in gone]
            answers = self.answers(lines[:at] + cancels + lines[at + 1 :])
            self.others[at, count] = answers[:at] + answers[at + len(cancels) :] if len(gone) == count else None
        return self.others[at, count]

    def judged(self, came):
        """What a run in which a growth was refused came to, of what it may come to."""
        if came == self.wanted:
            return UNSEEN
        if (came.status, came.err) == REFUSED:
            return NONE_WRITTEN if came.out == b"" else None
        # Words that are refused are so without memory for their message too.
        if self.wanted.status == 2 and came == Came(2, self.wanted.out, b""):
            return UNSHOWN
        if came.status != 0 or self.wanted.status != 0 or came.err != b"":
            return None
        return self.judged_lines(came.lines(), self.wanted.lines())

    def judged_lines(self, lines, wanted):
        if len(lines) != len(wanted):
            return None
        refused = [at for at, line in enumerate(lines) if line == b"fault 1" and wanted[at] != line]
        if refused:
            at = refused[0]
            return ONE_REFUSED if lines[:at] + lines[at + 1 :] == self.without(at) else None
        stopped = [at for at, line in enumerate(lines) if re.fullmatch(rb"expired \d+ fault 1", line)]
        if stopped:
            at = stopped[0]
            others = self.with_cancels(at, int(lines[at].split(b" ")[1]))
            return STOPPED if lines[:at] + lines[at + 1 :] == others else None
        return UNKEPT if any(self.is_unkept(at, lines, wanted) for at in range(len(lines))) else None

    def is_unkept(self, at, lines, wanted):
        return (
            self.lines()[at].startswith(b"load ")
            and lines[at] == wanted[at]
            and lines[:at] + lines[at + 1 :] == self.without(at)
        )


# The words of `disco_refusals`, and how many trials it makes with the second one.
WORDS = ("desk", "refreshes")
REFRESHES = 2


class Trial:
    """The program that asks again where memory was refused, with one of its words, and what it prints."""

    def __init__(self, root, shim, word):
        folder = os.path.join(root, "crates", "disco_refusals")
        self.name, self.shim, self.word = "disco_refusals " + word, shim, word
        self.path = os.path.join(folder, "out", "disco_refusals")
        # Without a word it prints the answers of the desk, and then how each trial went.
        printed = read_if_any(os.path.join(folder, "stdout"), b"").splitlines(keepends=True)
        went = [line for line in printed if line.endswith(b": yes\n")]
        lines = printed[: -len(went)] if word == "desk" else went[:REFRESHES]
        self.wanted = Came(0, b"".join(lines), b"")

    def program(self):
        return Program(self.shim, self.path, (self.word,))

    def step(self):
        return 1

    def judged(self, came):
        if came == self.wanted:
            return UNSEEN
        printed = [re.sub(rb": out of memory$", b": yes", line) for line in came.lines()]
        is_front = (
            (came.status, came.err) == (1, b"")
            and (came.out == b"" or came.out.endswith(b"\n"))
            and came.out.count(b": out of memory\n") <= 1
            and printed == self.wanted.lines()[: len(printed)]
        )
        return ENDED if is_front else None


def read_if_any(path, otherwise):
    if not os.path.exists(path):
        return otherwise
    with open(path, "rb") as file:
        return file.read()


def tries(pool, program, step):
    """The runs with each growth refused in turn, or each of so many, up to the first in which none is."""
    some = 8 * AT_ONCE * step
    for first in itertools.count(1, some):
        numbers = range(first, first + some, step)
        for at, (came, refused) in zip(numbers, pool.map(program.run, numbers)):
            if not refused:
                return
            yield at, came


def show(kind, at, came):
    print("%s: with growth %d refused it ended with status %d" % (kind.name, at, came.status))
    for text in (came.out, came.err):
        print("    " + text[:2000].decode("utf-8", "replace").replace("\n", "\n    "), flush=True)


def refuse_all(pool, kind):
    """How often each growth of it that was refused came to what."""
    whole, _ = kind.program().run()
    if whole != kind.wanted:
        show(kind, 0, whole)
        return Counter({OTHER: 1})
    counts = Counter()
    for at, came in tries(pool, kind.program(), kind.step()):
        judged = kind.judged(came) or OTHER
        counts[judged] += 1
        if judged == OTHER and counts[OTHER] <= MOST_SHOWN:
            show(kind, at, came)
    return counts


def told(counts):
    return ", ".join("%s in %d" % (what, counts[what]) for what in ALL if counts[what])


def main():
    root, work = sys.argv[1:3]
    quick = sys.argv[3:] == ["--quick"]
    shim = os.path.join(work, "refuse.so")
    files = sorted(glob.glob(os.path.join(root, "crates", "disco_rows", "data", "*", "*.row")))
    rows = [Row(root, shim, file.removesuffix(".row")) for file in files]
    rows = [row for row in rows if row.is_tried() and (not quick or row.name in QUICK)]
    trials = [Trial(root, shim, word) for word in WORDS]
    all_counts = Counter()
    with ThreadPoolExecutor(AT_ONCE) as pool:
        for kind in rows + trials:
            counts = refuse_all(pool, kind)
            all_counts += counts
            print("%s: %d growths; %s" % (kind.name, counts.total(), told(counts)), flush=True)
    runs = all_counts.total()
    print("%d rows and %d words of disco_refusals, %d runs, each with one growth refused" % (len(rows), len(trials), runs))
    print(told(all_counts))
    return 1 if all_counts[OTHER] else 0


if __name__ == "__main__":
    sys.exit(main())
