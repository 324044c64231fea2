"""Certified clients of samples/certified.py on a running server, compared with the registry version by version."""

import collections
import http.client
import json
import pathlib
import random
import subprocess
import sys
import time

sys.path.insert(0, str(pathlib.Path(__file__).resolve().parent.parent / "samples"))
from certified import Client, Refused, over_http  # noqa: E402

PORT = 18772
BASE = "/eureka/v2/apps"
APPS = 10
IDS = 10
WRITES_A_SECOND = 5
# Recent changes are kept for less time than the slowest client waits.
RETENTION_MS = 20_000
# The form of each client, and how many seconds it waits between two refreshes.
CLIENTS = (("full", 2), ("compact", 7), ("full", 45))


def started(program, run):
    words = ["serve", "--port", str(PORT), "--retention", str(RETENTION_MS), "--run", str(run)]
    server = subprocess.Popen(program + words, stdout=subprocess.PIPE)
    if not server.stdout.readline().startswith(b"listening"):
        sys.exit("the server doesn't listen")
    return server


def ask(method, path, body=None):
    """The status of a reply."""
    line = http.client.HTTPConnection("127.0.0.1", PORT, timeout=30)
    line.request(method, BASE + path, body, {"Content-Type": "application/json", "Connection": "close"})
    reply = line.getresponse()
    reply.read()
    return reply.status


class Writer:
    """Changes the registry, and keeps what it is at each version: by key status, dirty moment and last mark."""

    def __init__(self, seed):
        self.random = random.Random(seed)
        self.count = 0
        self.held = {}
        self.versions = [{}]

    def write(self):
        """A registration, a change of metadata or a cancel, of any instance."""
        self.count += 1
        key = ("A%d" % self.random.randrange(APPS), str(self.random.randrange(IDS)))
        self.random.choice((self.register, self.register, self.mark, self.cancel))(key)

    def register(self, key):
        status = self.random.choice(("UP", "DOWN"))
        instance = {
            "app": key[0], "instanceId": key[1], "hostName": "h", "ipAddr": "10.0.0.1", "status": status,
            "lastDirtyTimestamp": str(self.count), "metadata": {"mark": str(self.count)},
            "dataCenterInfo": {"name": "MyOwn"},
        }
        self.expect(204, ask("POST", "/" + key[0], json.dumps({"instance": instance})))
        self.change(key, (status, self.count, self.count))

    def mark(self, key):
        status = ask("PUT", "/%s/%s/metadata?mark=%d" % (*key, self.count))
        self.expect(200 if key in self.held else 404, status)
        if key in self.held:
            self.change(key, (*self.held[key][:2], self.count))

    def cancel(self, key):
        self.expect(200 if key in self.held else 404, ask("DELETE", "/%s/%s" % key))
        if key in self.held:
            self.change(key, None)

    def expect(self, wanted, status):
        if status != wanted:
            sys.exit("write %d was answered %d in place of %d" % (self.count, status, wanted))

    def change(self, key, value):
        self.held = {**self.held, key: value}
        if value is None:
            del self.held[key]
        self.versions.append(self.held)


def seen(form, one):
    """What is compared of an instance: the compact form has no metadata."""
    mark = int(one["metadata"]["mark"]) if form == "full" else None
    return one["status"], int(one["lastDirtyTimestamp"]), mark


class Watch:
    """A client, with what came of its refreshes."""

    def __init__(self, form, period):
        self.client = Client(over_http("127.0.0.1", PORT), form)
        self.period = period
        self.due = time.monotonic()
        self.came = collections.Counter()

    def fail(self, why):
        name = "%s, each %d seconds" % (self.client.form, self.period)
        sys.exit("%s, run %s, version %s: %s" % (name, self.client.run, self.client.version, why))

    def refresh(self, run, versions):
        """One refresh, behind which the copy has to be the registry of that run at the version that it says."""
        before = (self.client.run, self.client.version)
        try:
            self.came[self.client.refresh()] += 1
        except Refused as error:
            self.fail("refused: %s" % error)
        self.due += self.period
        if self.client.run != run:
            self.fail("the server's run is %d" % run)
        if before[0] == run and before[1] > self.client.version:
            self.fail("the version was %d before" % before[1])
        if self.client.version >= len(versions):
            self.fail("the registry's version is %d" % (len(versions) - 1))
        wanted = versions[self.client.version]
        if self.client.form == "compact":
            wanted = {key: (*value[:2], None) for key, value in wanted.items()}
        if {key: seen(self.client.form, one) for key, one in self.client.instances.items()} != wanted:
            self.fail("the copy isn't the registry at that version")

    def stay(self):
        """A refresh while there is no server, which leaves the copy as it is."""
        before = (self.client.run, self.client.version, dict(self.client.instances))
        try:
            self.client.refresh()
        except Refused:
            if before == (self.client.run, self.client.version, self.client.instances):
                return
        self.fail("a refused refresh changed the copy")


def run_once(program, run, seconds, watches):
    """One run of the server: it is written to and watched for so many seconds."""
    server = started(program, run)
    try:
        writer, begun = Writer(run), time.monotonic()
        while (now := time.monotonic()) < begun + seconds:
            for watch in watches:
                if watch.due <= now:
                    watch.refresh(run, writer.versions)
            if writer.count < (now - begun) * WRITES_A_SECOND:
                writer.write()
            else:
                time.sleep(0.01)
        for watch in watches:
            watch.refresh(run, writer.versions)
        return len(writer.versions) - 1
    finally:
        server.terminate()
        server.wait()


def main(program, _, seconds="100"):
    watches = [Watch(form, period) for form, period in CLIENTS]
    for run in (1, 2):
        print("run %d: %d versions" % (run, run_once([program], run, float(seconds), watches)), flush=True)
        for watch in watches:
            watch.stay()
            watch.due = time.monotonic()
    for watch in watches:
        name = "%s, each %d seconds" % (watch.client.form, watch.period)
        counts = [watch.came[came] for came in ("delta", "apps", "kept")]
        print("%s: %d by a delta, %d by all apps, %d by neither" % (name, *counts))
    print("each copy was the registry of its run at its version")


main(*sys.argv[1:])
