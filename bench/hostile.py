"""What one client can take of `discovery serve` and of `follow`: memory by the shape of a body, and the end of memory."""

import http.client
import json
import os
import random
import resource
import socket
import subprocess
import sys
import threading
import time

PORT = 18791
BASE = "/eureka/v2"
# Bytes of a body, and how many of one shape are registered: so many of them, or more of shorter ones.
SIZE = 1 << 20
MANY, MOST_MANY = 8, 128
# Beyond so many bytes an instance keeps at most so many times its record.
FREE_KEPT, MOST_KEPT = 4_096, 8
# Beyond so many bytes a request takes at most so many times its body.
FREE_TAKEN, MOST_TAKEN = 65_536, 160
# What a program takes that has read nothing, in bytes.
PROGRAM = 4 << 20
# What a process may have, in bytes, and what comes to it then.
LITTLE = 300_000_000
MIXED = 20_000
CANCELS, AGAIN = 1_000, 900
# A retention and a cleaning behind it, in seconds.
FORGOTTEN = 35


def counted(piece, size):
    """Pieces of consecutive numbers, as many as fit with something between each two."""
    return [piece % number for number in range(size // (len(piece % 0) + 1))]


def object_of(pieces):
    return "{%s}" % ",".join(pieces)


def list_of(piece, size):
    return "[%s]" % ",".join([piece] * (size // (len(piece) + 1)))


def deep(size):
    return list_of("[" * 100 + "]" * 100, size)


# The members of a record beside those that each needs, by shape, in some number of bytes.
SHAPES = {
    "a long id and many vips": lambda n: {"instanceId": "i" * 8_000, "vipAddress": ",".join(counted("%07d", n - 8_000))},
    "4,096 vips of 3 bytes": lambda n: {"vipAddress": ",".join("%03x" % number for number in range(4_096))},
    "many vips of 7 bytes": lambda n: {"vipAddress": ",".join(counted("%07d", n))},
    "many vips of 30 bytes": lambda n: {"vipAddress": ",".join(counted("%030d", n))},
    "many secure vips of 7 bytes": lambda n: {"secureVipAddress": ",".join(counted("%07d", n))},
    "one long vip": lambda n: {"vipAddress": "v" * n},
    "many commas": lambda n: {"vipAddress": "," * n},
    "a long id": lambda n: {"instanceId": "i" * n},
    "a long host name": lambda n: {"hostName": "h" * n},
    "100,000 entries": lambda n: {"metadata": {"%06d" % number: "" for number in range(min(100_000, n // 12))}},
    "one long entry": lambda n: {"metadata": {"a": "b" * n}},
    "entries of 40 bytes": lambda n: {"metadata": {"%040d" % number: "v" * 40 for number in range(n // 86)}},
    "escapes": lambda n: {"metadata": {"a": "\x01" * (n // 6)}},
}

# Texts in place of a member that is ignored.
IGNORED = {
    "empty objects": lambda n: list_of("{}", n),
    "empty lists": lambda n: list_of("[]", n),
    "empty texts": lambda n: list_of('""', n),
    "objects of one member": lambda n: list_of('{"a":0}', n),
    "numbers": lambda n: list_of("0", n),
    "deep lists": deep,
    "deep objects": lambda n: list_of('{"a":' * 100 + "0" + "}" * 100, n),
    "one wide object": lambda n: object_of(counted('"%07d":0', n)),
    "escaped texts": lambda n: list_of('"\\u0000\\u0000"', n),
}


def body_of(number, members, ignored="0"):
    record = {"instanceId": "i", "hostName": "h", "app": "A", "ipAddr": "10.0.0.1", "dataCenterInfo": {"name": "MyOwn"}}
    record.update(members)
    record["instanceId"] = "%d%s" % (number, record["instanceId"])
    return '{"instance":%s,"ignored":%s}' % (json.dumps(record, separators=(",", ":"), ensure_ascii=True), ignored)


class Server:
    """A server that is asked over one connection at a time."""

    def __init__(self, program, words=(), limit=None):
        def little():
            if limit:
                resource.setrlimit(resource.RLIMIT_DATA, (limit, limit))

        self.process = subprocess.Popen(
            [program, "serve", "--port", str(PORT), "--workers", "4", *words],
            stdout=subprocess.PIPE,
            preexec_fn=little,
        )
        if not self.process.stdout.readline().startswith(b"listening"):
            sys.exit("the server doesn't listen")
        self.line = None

    def __enter__(self):
        return self

    def __exit__(self, *_):
        self.process.terminate()
        self.process.wait()

    def ask(self, method, path, body=None):
        """The status of a reply, and its text."""
        for _ in range(2):
            if self.line is None:
                self.line = http.client.HTTPConnection("127.0.0.1", PORT, timeout=120)
            try:
                self.line.request(method, BASE + path, body, {"Content-Type": "application/json"})
                reply = self.line.getresponse()
                text = reply.read()
                if reply.will_close:
                    self.line.close()
                    self.line = None
                return reply.status, text
            except (http.client.HTTPException, OSError):
                self.line = None
        return 0, b""

    def register(self, body):
        status, _ = self.ask("POST", "/apps/A", body)
        if status != 204:
            sys.exit("a registration is answered %d" % status)


def number_in(process, name):
    with open("/proc/%d/status" % process.pid, encoding="ascii") as lines:
        return next(int(line.split()[1]) * 1024 for line in lines if line.startswith(name))


def forget_peak(process):
    with open("/proc/%d/clear_refs" % process.pid, "w", encoding="ascii") as refs:
        refs.write("5")


def judged(of, bytes_each, free, most):
    times = max(0, of - free) / bytes_each
    return "%5.1f times%s" % (times, "" if times <= most else " TOO MUCH")


def measure_ignored(program, name, ignored):
    """What a body takes while it is read whose record is small."""
    with Server(program) as server:
        server.register(body_of(0, {}))
        before = number_in(server.process, "VmRSS:")
        forget_peak(server.process)
        body = body_of(1, {}, ignored)
        server.register(body)
        taken = number_in(server.process, "VmHWM:") - before
        print("%-28s %8d bytes: taken %s" % (name, len(body), judged(taken, len(body), FREE_TAKEN, MOST_TAKEN)), flush=True)


def measure_shape(program, name, members):
    """What records of a shape keep, and what the first of them takes while it is read."""
    with Server(program) as server:
        server.register(body_of(0, {}))
        before = number_in(server.process, "VmRSS:")
        forget_peak(server.process)
        begun = time.perf_counter()
        server.register(body_of(1, members))
        seconds = time.perf_counter() - begun
        taken = number_in(server.process, "VmHWM:") - before
        size = len(body_of(1, members))
        half = 0
        many = min(MANY * SIZE // size, MOST_MANY)
        for number in range(2, 2 * many + 2):
            if number == many + 2:
                half = number_in(server.process, "VmRSS:")
            server.register(body_of(number, members))
        kept = (number_in(server.process, "VmRSS:") - half) / many
        begun = time.perf_counter()
        for number in range(2 * MANY):
            status, _ = server.ask("PUT", "/apps/A/%s/metadata?changed=%d" % (key_of(1, members), number))
            if status != 200:
                sys.exit("a metadata change is answered %d" % status)
            if number == MANY:
                half = number_in(server.process, "VmRSS:")
        changed = (number_in(server.process, "VmRSS:") - half) / (MANY - 1)
        print(
            "%-28s %8d bytes: taken %s, kept %s, by a metadata change %s, %4.0f ms to register"
            % (
                name,
                size,
                judged(taken, size, FREE_TAKEN, MOST_TAKEN),
                judged(kept, size, FREE_KEPT, MOST_KEPT),
                judged(changed, size, FREE_KEPT, MOST_KEPT),
                seconds * 1000,
            ),
            flush=True,
        )


def key_of(number, members):
    """An id in a path. One that is longer than a head may be is not asked for."""
    key = "%d%s" % (number, members.get("instanceId", "i"))
    return key if len(key) < 9_000 else "0i"


def answer(listener, text):
    line, _ = listener.accept()
    with line:
        line.recv(65_536)
        line.sendall(b"HTTP/1.1 200 OK\r\nContent-Length: %d\r\n\r\n" % len(text) + text)
        time.sleep(1)


def measure_follow(program, name, ignored):
    """What `follow` takes to read a document of a shape."""
    text = ('{"applications":{"versions__delta":"1","apps__hashcode":"","application":[]},"ignored":%s}' % ignored).encode()
    with socket.create_server(("127.0.0.1", PORT)) as listener:
        answering = threading.Thread(target=answer, args=(listener, text), daemon=True)
        answering.start()
        client = subprocess.Popen(
            [program, "follow", "--port", str(PORT), "--vip", "v", "--times", "1"],
            stdout=subprocess.DEVNULL,
            stderr=subprocess.DEVNULL,
        )
        taken = most_memory(client) - PROGRAM
        print("follow, %-20s %8d bytes: taken %s" % (name, len(text), judged(taken, len(text), FREE_TAKEN, MOST_TAKEN)), flush=True)


def most_memory(client):
    """The most memory that a process had, in bytes, once it has ended."""
    _, client.returncode, used = os.wait4(client.pid, 0)
    return used.ru_maxrss * 1024


def edge(program):
    """Mixed requests at the edge of memory, and what is taken again after cancels."""
    entry = {"metadata": {"a": "b" * 20_000}}
    held, counts = set(), {}
    dice = random.Random(1)
    with Server(program, ["--retention", "1000"], LITTLE) as server:

        def tell(kind, status):
            counts[kind, status] = counts.get((kind, status), 0) + 1

        def register(number):
            status, _ = server.ask("POST", "/apps/A", body_of(number, entry))
            tell("register", status)
            if status == 204:
                held.add(number)
            return status

        def cancel(number):
            status, _ = server.ask("DELETE", "/apps/A/%di" % number)
            tell("cancel", status)
            if status != (200 if number in held else 404):
                print("a cancel of %s is answered %d" % ("a held one" if number in held else "none", status))
            held.discard(number)

        for number in range(MIXED):
            kind = dice.random()
            if kind < 0.6:
                register(number)
            elif kind < 0.7 and held:
                cancel(dice.choice(sorted(held)))
            elif kind < 0.9 and held:
                tell("renew", server.ask("PUT", "/apps/A/%di" % dice.choice(sorted(held)))[0])
            else:
                tell("load", server.ask("GET", "/apps/delta" if dice.random() < 0.5 else "/apps")[0])
        full = len(held)
        for number in sorted(held)[:CANCELS]:
            cancel(number)
        time.sleep(FORGOTTEN)
        taken = sum(register(MIXED + number) == 204 for number in range(AGAIN))
        for (kind, status), count in sorted(counts.items()):
            print("    %-8s %3d: %6d" % (kind, status, count))
        print("%d were held; after %d cancels %d of %d registrations were taken" % (full, CANCELS, taken, AGAIN), flush=True)


def main():
    program = sys.argv[1]
    for name, members in SHAPES.items():
        measure_shape(program, name, members(SIZE - 1_000))
    for name, ignored in IGNORED.items():
        measure_ignored(program, name, ignored(SIZE - 1_000))
    for name, ignored in IGNORED.items():
        measure_follow(program, name, ignored(SIZE - 1_000))
    edge(program)


main()
