#!/usr/bin/env python3
"""A certified client of `discovery serve`, by the six rules of docs/CERTIFICATES.md.

It keeps a copy of a registry, and prints a line for each refresh: what brought the copy up to date, the run and
the version that it is, and what came (+), changed (~) or went (-). Names are percent-encoded.

    python3 samples/certified.py [--host H] [--port P] [--form full|compact] [--every SECONDS] [--times N]
"""
import argparse
import http.client
import json
import re
import time
from urllib.parse import quote

NUMBERS = re.compile(r"(\d{1,20}) (\d{1,20}) (\d{1,20})", re.ASCII)
FAILURES = (OSError, http.client.HTTPException, LookupError, TypeError, ValueError, AttributeError, RecursionError)


class Refused(Exception):
    """A refresh was refused: a fetch failed, or what came is no document of many apps. The copy is as it was."""


def certificate(lines, document):
    """Rule 1: run, base and version of a document, by the header's lines. None where it has no certificate."""
    spelled = NUMBERS.fullmatch(lines[0]) if len(lines) == 1 else None
    numbers = [int(digits) for digits in spelled.groups()] if spelled else [2**64]
    own = document["applications"].get("versions__delta")
    return None if max(numbers) >= 2**64 or own is not None and int(own) != numbers[2] else numbers


def instances(document):
    """Each instance of a document with its app and its id, in the order of the text."""
    apps = document["applications"]["application"]
    return [((one["app"], one["instanceId"]), one) for app in apps for one in app["instance"]]


class Client:
    """A copy of a registry. `fetch(path, form)` gives the status, the header's lines and the JSON of a reply."""

    def __init__(self, fetch, form="full"):
        self.fetch, self.form = fetch, form
        self.instances = {}  # by app and id: the registry of `run` at `version`
        self.run = self.version = self.copied = None  # `copied` is the form of the copy

    def take_delta(self, document, cert, form):
        """Rules 3 and 4: applies a delta, or leaves it. Says whether it was applied."""
        if cert is None or (cert[0], form) != (self.run, self.copied) or not cert[1] <= self.version <= cert[2]:
            return False
        new = dict(self.instances)
        for key, one in instances(document):
            if one.get("actionType") in ("ADDED", "MODIFIED"):
                new[key] = one
            elif one.get("actionType") == "DELETED":
                new.pop(key, None)
        self.instances, self.version = new, cert[2]
        return True

    def take_apps(self, document, cert, form):
        """Rule 5: takes all apps, or leaves them. Says whether they were taken."""
        if cert is None:
            raise Refused("all apps came without a certificate")
        if cert[0] == self.run and cert[2] < self.version:
            return False
        self.instances = dict(instances(document))
        self.run, self.version, self.copied = cert[0], cert[2], form
        return True

    def ask(self, path, absent=()):
        """A document, its certificate and its form. None where the status says that there is no delta."""
        status, lines, document = self.fetch(path, self.form)
        if status != 200 and status not in absent:
            raise Refused("%s was answered %d" % (path, status))
        return None if status in absent else (document, certificate(lines, document), self.form)

    def refresh(self):
        """Rules 2 and 6: brings the copy up to date by a `delta`, by all `apps`, or by neither: it is `kept`."""
        try:
            delta = self.ask("/apps/delta", (403, 404)) if self.run is not None else None
            if delta and self.take_delta(*delta):
                return "delta"
            return "apps" if self.take_apps(*self.ask("/apps")) else "kept"
        except FAILURES as error:
            raise Refused(repr(error)) from error


def over_http(host, port):
    """Fetches by a connection for each request."""
    def fetch(path, form):
        line = http.client.HTTPConnection(host, port, timeout=30)
        line.request("GET", "/eureka/v2" + path, headers={"X-Eureka-Accept": form, "Connection": "close"})
        reply = line.getresponse()
        lines = reply.headers.get_all("X-Discovery-Certificate", [])
        return reply.status, lines, json.loads(reply.read() or "null")
    return fetch


def changes(old, new):
    """What came, changed and went from one copy to the next."""
    names = {key: "/".join(quote(part, safe="-._:~") for part in key) for key in [*old, *new]}
    held = ["+~"[key in old] + names[key] + "=" + new[key]["status"] for key in sorted(new) if old.get(key) != new[key]]
    return held + ["-" + names[key] for key in sorted(old) if key not in new]


if __name__ == "__main__":
    words = argparse.ArgumentParser()
    for name, usual in (("host", "127.0.0.1"), ("port", 8761), ("form", "full"), ("every", 30.0), ("times", 0)):
        words.add_argument("--" + name, default=usual, type=type(usual))
    words = words.parse_args()
    client = Client(over_http(words.host, words.port), words.form)
    while True:
        old = client.instances
        try:
            print(client.refresh(), client.run, client.version, *changes(old, client.instances), flush=True)
        except Refused as error:
            print("refused", error, flush=True)
        words.times -= 1
        if words.times == 0:
            break
        time.sleep(words.every)
