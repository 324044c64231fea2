"""A fleet of clients of `discovery serve`, on loopback, each with one connection that it keeps."""

import asyncio
import heapq
import multiprocessing
import os
import resource
import select
import socket
import subprocess
import sys
import time

PORT = 18771
BASE = "/eureka/v2"
APPS = 100
# Each so often a client asks for the delta in place of a heartbeat.
DELTA = 10
# How long a client waits for a reply, in seconds.
PATIENCE = 60
# A connection ends behind so many requests, and where it was silent for so many seconds.
REQUESTS = 1_000
SILENCE = 75
# Those who do harm, of each kind, and those who come and go.
HARMFUL = 1_000
VISITORS = 200
# The instances of the document that is read slowly.
INSTANCES = 10_000
# How many clients, each how many seconds they ask, and whether there are instances and those who do harm.
CASES = tuple(
    (clients, period, registered, harmful)
    for registered, harmful in ((False, False), (True, False), (True, True))
    for clients, period in ((10_000, 20), (1_000, 3))
)
# How often a second it is looked what the host took, how many seconds of processors are at most a tick of
# its clock, and how many looks in turn that found no more make the next moment calm.
LOOKS = 5
TICK = 0.015
CALM = 15
# What one read gives.
CAME = bytearray(1 << 18)

BODY = (
    '{"instance":{"instanceId":"i%d","hostName":"h%d","app":"APP%d","ipAddr":"10.0.0.1",'
    '"status":"UP","vipAddress":"v","dataCenterInfo":{"name":"MyOwn"}}}'
)


def text_of(method, path, body=""):
    return (
        "%s %s%s HTTP/1.1\r\nHost: a\r\nContent-Type: application/json\r\nContent-Length: %d\r\n\r\n%s"
        % (method, BASE, path, len(body), body)
    ).encode()


def registration(number):
    app = number % APPS
    return text_of("POST", "/apps/APP%d" % app, BODY % (number, number, app))


class Host:
    """What the host of this machine takes of its processors, look by look."""

    def __init__(self):
        self.taken = {}

    def look(self, now):
        self.taken.setdefault(int(now * LOOKS), stolen())

    def calm(self):
        """How many looks in turn, up to each, found at most a tick taken."""
        found = {}
        for look, taken in self.taken.items():
            before = self.taken.get(look - 1)
            calm = before is not None and taken - before < TICK
            found[look] = found.get(look - 1, 0) + 1 if calm else 0
        return found


def percentile(waits, hundredths):
    """In milliseconds, of seconds in their order."""
    return waits[len(waits) * hundredths // 100] * 1000


class Tally:
    """What came of all requests."""

    def __init__(self):
        self.spans = []
        self.host = Host()
        self.unanswered = 0
        self.wrong = 0
        self.ended = 0

    def in_calm(self):
        """The waits of requests that were asked and answered in calm."""
        calm = self.host.calm()
        for asked, answered in self.spans:
            last = int(answered * LOOKS) + 1
            if calm.get(last, 0) >= last - int(asked * LOOKS) + CALM:
                yield answered - asked

    def line(self, name, before, resident, taken):
        waits = sorted(answered - asked for asked, answered in self.spans) or [0.0]
        calm = sorted(self.in_calm()) or [0.0]
        print(
            "%s: %d requests, %d without a reply, %d answered otherwise, %d connections that the server ended,"
            " p50 %.1f ms, p99 %.1f ms, longest %.0f ms, memory %.1f MB before and %.1f MB with them,"
            " %.1f seconds of processors taken by the host, and of %d requests while it took next to nothing p99 %.1f ms"
            % (
                name,
                len(self.spans),
                self.unanswered,
                self.wrong,
                self.ended,
                percentile(waits, 50),
                percentile(waits, 99),
                waits[-1] * 1000,
                before / 1000,
                resident / 1000,
                taken,
                len(calm),
                percentile(calm, 99),
            ),
            flush=True,
        )


class Client:
    """One with a connection that it keeps. It makes a new one where it was ended."""

    def __init__(self, number):
        self.number = number
        self.line = None
        self.made = 0
        self.asked = None
        self.answered = 0.0
        self.came = b""
        self.left = None
        self.turn = number
        self.texts = (
            text_of("PUT", "/apps/APP%d/i%d" % (number % APPS, number)),
            text_of("GET", "/apps/delta"),
        )

    def connect(self):
        self.line = socket.create_connection(("127.0.0.1", PORT))
        self.line.setblocking(False)
        self.made = 0

    def ask(self):
        text = self.texts[self.turn % DELTA == 0] if self.turn > self.number else registration(self.number)
        self.turn += 1
        self.made += 1
        self.came = b""
        self.left = None
        self.asked = time.monotonic()
        self.line.sendall(text)

    def hear(self):
        """The status of the reply where it is whole, None where it isn't, and 0 where the connection ended."""
        try:
            count = self.line.recv_into(CAME)
        except ConnectionError:
            count = 0
        if self.left is None:
            self.came += CAME[:count]
            head, end, body = self.came.partition(b"\r\n\r\n")
            if end:
                length = head.lower().partition(b"content-length:")[2].split(b"\r\n")[0]
                self.left = int(length or 0) - len(body)
        else:
            self.left -= count
        if self.asked is not None and self.left == 0:
            return int(self.came[9:12])
        return None if count else 0

    def close(self):
        self.line.close()
        self.line = None


class Fleet:
    """Clients that ask, each at its own moment, in one loop."""

    def __init__(self, clients, period, tally):
        self.period = period
        self.tally = tally
        self.poll = select.epoll()
        self.lines = {}
        begun = time.monotonic()
        self.due = [(begun + period * k / clients, k, Client(k)) for k in range(clients)]

    def lose(self, client):
        """Its connection has ended."""
        if client.asked is not None:
            self.tally.unanswered += 1
            self.plan(client)
        elif client.made < REQUESTS and time.monotonic() - client.answered < SILENCE:
            self.tally.ended += 1
        del self.lines[client.line.fileno()]
        client.close()

    def plan(self, client):
        heapq.heappush(self.due, (client.asked + self.period, client.number, client))
        client.asked = None

    def ask(self, client):
        try:
            if client.line is None:
                client.connect()
                self.lines[client.line.fileno()] = client
                self.poll.register(client.line.fileno(), select.EPOLLIN)
            client.ask()
        except OSError:
            self.lose(client)

    def hear(self, client):
        status = client.hear()
        if status == 0:
            self.lose(client)
        elif status is not None:
            client.answered = time.monotonic()
            self.tally.spans.append((client.asked, client.answered))
            self.tally.wrong += status not in (200, 204)
            self.plan(client)

    def run(self, until):
        while (now := time.monotonic()) < until:
            self.tally.host.look(now)
            first = min(self.due[0][0], until) if self.due else until
            for line, _ in self.poll.poll(max(0, first - now), 256):
                if line in self.lines:
                    self.hear(self.lines[line])
            while self.due and self.due[0][0] <= time.monotonic():
                self.ask(heapq.heappop(self.due)[2])

    def end(self):
        """Waits for what was asked, and closes all."""
        patience = time.monotonic() + PATIENCE
        while time.monotonic() < patience and any(c.asked is not None for c in self.lines.values()):
            for line, _ in self.poll.poll(0.1, 256):
                if line in self.lines:
                    self.hear(self.lines[line])
        self.tally.unanswered += sum(c.asked is not None for c in self.lines.values())
        for client in self.lines.values():
            client.close()


def resident(server):
    with open("/proc/%d/status" % server.pid, encoding="ascii") as lines:
        return next(int(line.split()[1]) for line in lines if line.startswith("VmRSS:"))


def stolen():
    """Seconds of processors that the host of this machine gave to others since it began."""
    with open("/proc/stat", encoding="ascii") as lines:
        return int(lines.readline().split()[8]) / os.sysconf("SC_CLK_TCK")


async def again(until, todo):
    """Does it again and again, whatever comes of it."""
    while time.monotonic() < until:
        try:
            await todo()
        except (OSError, asyncio.IncompleteReadError):
            pass
        await asyncio.sleep(0.1)


async def drip(front):
    reader, writer = await asyncio.open_connection("127.0.0.1", PORT)
    try:
        writer.write(front)
        while not reader.at_eof():
            writer.write(b"x")
            await writer.drain()
            await asyncio.sleep(5)
    finally:
        writer.close()


async def read_slowly():
    line = socket.socket()
    line.setsockopt(socket.SOL_SOCKET, socket.SO_RCVBUF, 4_096)
    line.setblocking(False)
    loop = asyncio.get_running_loop()
    try:
        await loop.sock_connect(line, ("127.0.0.1", PORT))
        await loop.sock_sendall(line, text_of("GET", "/apps"))
        while await loop.sock_recv(line, 2_048):
            await asyncio.sleep(20)
    finally:
        line.close()


async def stay_silent():
    reader, writer = await asyncio.open_connection("127.0.0.1", PORT)
    try:
        await reader.read(1)
    finally:
        writer.close()


async def come_and_go():
    reader, writer = await asyncio.open_connection("127.0.0.1", PORT)
    try:
        writer.write(text_of("GET", "/apps/APP0"))
        await reader.readuntil(b"\r\n\r\n")
    finally:
        writer.close()


async def do_harm(seconds):
    until = time.monotonic() + seconds
    head = b"GET /eureka/v2/apps HTTP/1.1\r\nHost: a\r\nX-A: "
    body = b"PUT /eureka/v2/apps/A/1 HTTP/1.1\r\nHost: a\r\nContent-Length: 100000\r\n\r\n"
    kinds = [lambda: drip(head), lambda: drip(body), read_slowly, stay_silent]
    todos = [kind for kind in kinds for _ in range(HARMFUL)] + [come_and_go] * VISITORS
    tasks = [asyncio.ensure_future(again(until, todo)) for todo in todos]
    await asyncio.sleep(seconds)
    for task in tasks:
        task.cancel()


def register_all():
    client = Client(0)
    for number in range(INSTANCES):
        if client.made % REQUESTS == 0:
            client.connect()
        client.line.setblocking(True)
        client.made += 1
        client.line.sendall(registration(100_000 + number))
        client.line.recv(1 << 16)
        if client.made == REQUESTS:
            client.close()
            client.made = 0


def run_fleet(name, server, clients, period, seconds, registered, harmful):
    if registered:
        register_all()
    before, had = resident(server), stolen()
    tally = Tally()
    others = multiprocessing.Process(target=lambda: asyncio.run(do_harm(seconds))) if harmful else None
    if others:
        others.start()
    fleet = Fleet(clients, period, tally)
    fleet.run(time.monotonic() + seconds)
    with_them = resident(server)
    fleet.end()
    if others:
        others.join()
    tally.line(name, before, with_them, stolen() - had)


def with_server(program, workers, todo):
    server = subprocess.Popen(
        program + ["serve", "--port", str(PORT), "--workers", str(workers)],
        stdout=subprocess.PIPE,
    )
    try:
        if not server.stdout.readline().startswith(b"listening"):
            sys.exit("the server doesn't listen")
        todo(server)
    finally:
        server.terminate()
        server.wait()


def main():
    program = [sys.argv[1]]
    seconds = float(sys.argv[3]) if len(sys.argv) > 3 else 300
    _, hard = resource.getrlimit(resource.RLIMIT_NOFILE)
    resource.setrlimit(resource.RLIMIT_NOFILE, (hard, hard))
    for workers in (4, 64):
        for clients, period, registered, harmful in CASES:
            name = "%d workers, %d clients each %d seconds%s%s" % (
                workers,
                clients,
                period,
                ", beside %d instances" % INSTANCES if registered else "",
                " and those who do harm" if harmful else "",
            )
            with_server(
                program,
                workers,
                lambda server: run_fleet(name, server, clients, period, seconds, registered, harmful),
            )


main()
