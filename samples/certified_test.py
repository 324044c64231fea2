#!/usr/bin/env python3
"""Tries samples/certified.py without a server: over the documents of samples/certificates.tsv, by lines of the
header, and by refreshes whose replies are written here. Ends with status 1 where one differs.

    python3 samples/certified_test.py
"""
import json
import pathlib
import sys

from certified import Client, Refused, certificate, changes

VECTORS = pathlib.Path(__file__).resolve().parent / "certificates.tsv"
ONE_VERSION = {"applications": {"application": [], "versions__delta": "1"}}
LAST = 2**64 - 1

# Lines of the header, and the certificate of a document that says no version, or version 1.
HEADERS = (
    ([], None),
    (["7 0 1"], [7, 0, 1]),
    (["7 0 1", "7 0 1"], None),
    (["0 1"], None),
    (["7 0 1 2"], None),
    (["7  0 1"], None),
    (["7 +0 1"], None),
    (["7 0 2"], None),
    (["%d %d 1" % (LAST, LAST)], [LAST, LAST, 1]),
    (["%d 0 1" % (LAST + 1)], None),
)


def document(version, **apps):
    """Apps with one instance each, of that action: `A="ADDED"`, or with a status behind it."""
    told = [
        {"name": app, "instance": [{"app": app, "instanceId": "1", "actionType": action, "status": status}]}
        for app, (action, _, status) in ((app, word.partition(" ")) for app, word in apps.items())
    ]
    return {"applications": {"application": told, "versions__delta": str(version)}}


A1 = document(1, A="ADDED UP")
TWO = document(3, A="MODIFIED DOWN", B="ADDED UP")
NEITHER = {"applications": {"application": []}}
# Of each refresh what the server answers for the delta and for all apps, each a status, the header's lines and
# the JSON, what comes of it, and the copy's run, version and statuses then. None stands for a fetch that fails.
REFRESHES = (
    (None, (200, [], A1), "refused", (None, None, {})),
    (None, (200, ["0 2 2"], A1), "refused", (None, None, {})),
    (None, (200, ["0 1 1"], A1), "apps", (0, 1, {"A/1": "UP"})),
    ((200, ["0 0 1"], A1), None, "delta", (0, 1, {"A/1": "UP"})),
    ((200, ["0 2 3"], document(3, A="DELETED")), (200, ["0 0 0"], document(0)), "kept", (0, 1, {"A/1": "UP"})),
    ((403, [], None), (200, [], A1), "refused", (0, 1, {"A/1": "UP"})),
    ((404, [], None), (200, ["0 0 0"], document(0)), "kept", (0, 1, {"A/1": "UP"})),
    ((503, [], None), (200, ["0 9 9"], document(9)), "refused", (0, 1, {"A/1": "UP"})),
    ((200, [], A1), (200, ["0 1 1"], A1), "apps", (0, 1, {"A/1": "UP"})),
    ((200, ["0 1 4"], document(3, A="DELETED")), None, "refused", (0, 1, {"A/1": "UP"})),
    ((200, ["0 1 2"], {"application": {}}), None, "refused", (0, 1, {"A/1": "UP"})),
    ((200, ["0 1 2"], {"applications": {"application": [{"name": "A"}]}}), None, "refused", (0, 1, {"A/1": "UP"})),
    ((200, ["0 1 3"], TWO), None, "delta", (0, 3, {"A/1": "DOWN", "B/1": "UP"})),
    ((200, ["0 1 4"], document(4, A="DELETED", B="MOVED DOWN")), None, "delta", (0, 4, {"B/1": "UP"})),
    ((200, ["7 0 4"], document(4, B="DELETED")), (200, ["7 1 1"], A1), "apps", (7, 1, {"A/1": "UP"})),
    ((403, [], None), (200, ["6 0 0"], NEITHER), "apps", (6, 0, {})),
)


def statuses(client):
    return {"/".join(key): one["status"] for key, one in client.instances.items()}


def answer_of(client, query, form, line, text):
    """What comes of a document, as the rows have it."""
    told = json.loads(text)
    cert = certificate([line], told)
    if query == "delta" and client.run is None:
        taken = client.take_delta(told, cert, form)
        return "copy without a copy" if taken else "fault 22"
    taken = client.take_apps(told, cert, form) if query == "apps" else client.take_delta(told, cert, form)
    return "%s %d %d" % ("copy" if taken else "keep", client.run, client.version)


def held_by(client):
    held = ["%s/%s=%s" % (*key, client.instances[key]["status"]) for key in sorted(client.instances)]
    return " ".join(["held", str(len(held)), *held])


def of_vectors():
    """Each line of the file: what comes of its document, and the copy then."""
    clients = {}
    for line in VECTORS.read_text(encoding="utf-8").split("\n")[1:-1]:
        row, number, query, form, cert, text, answer, copy = line.split("\t")
        client = clients.setdefault((row, number), Client(None))
        yield row, answer, answer_of(client, query, form, cert, text)
        if copy != "-":
            yield row, copy, held_by(client)


def of_headers():
    for lines, wanted in HEADERS:
        yield "header %r" % lines, wanted, certificate(lines, ONE_VERSION)
    yield "a document without a version", [7, 0, 2], certificate(["7 0 2"], NEITHER)


def of_refreshes():
    """One refresh after another, by one client."""
    replies = {}

    def fetch(path, _):
        if replies[path] is None:
            raise OSError("the server is gone")
        return replies[path]

    client = Client(fetch)
    for number, (delta, apps, came, copy) in enumerate(REFRESHES, 1):
        replies.update({"/apps/delta": delta, "/apps": apps})
        try:
            done = client.refresh()
        except Refused:
            done = "refused"
        yield "refresh %d" % number, (came, copy), (done, (client.run, client.version, statuses(client)))


def of_changes():
    old = {("A", "1"): {"status": "UP"}, ("B", "1"): {"status": "UP"}, ("C", "1"): {"status": "UP"}}
    new = {("A", "1"): {"status": "UP"}, ("B", "1"): {"status": "DOWN"}, ("D D", "1\n"): {"status": "UP"}}
    yield "changes", ["~B/1=DOWN", "+D%20D/1%0A=UP", "-C/1"], changes(old, new)


def main():
    wrong = done = 0
    for name, wanted, came in (*of_vectors(), *of_headers(), *of_refreshes(), *of_changes()):
        done += 1
        if wanted != came:
            wrong += 1
            print("%s: wanted %r, came %r" % (name, wanted, came))
    print("%d of %d are as they have to be" % (done - wrong, done))
    return 1 if wrong else 0


if __name__ == "__main__":
    sys.exit(main())
