"""How long writes wait for the publisher of `discovery serve`, on loopback, beside looks, which wait for nobody,
and how long heartbeats wait while leases run out and while secure vips are asked for."""

import gc
import multiprocessing
import re
import socket
import subprocess
import sys
import time

from holds import Holds

PORT = 18781
BASE = "/eureka/v2"
APPS = 100
INSTANCES = 10_000
WRITES_A_SECOND = 1_000
# A request more would meet the end of the connection.
REQUESTS_A_CONNECTION = 999
LONGEST = 8
# How the reply to a request that was done begins.
DONE = b"HTTP/1.1 20"
# The step of a publisher, which holds the desk's lock from its begin to its end.
STEP = "publishing::publish_step::<"
# A step that takes so many milliseconds copies a document of many instances.
LONG_STEP = 1
# A publisher begins a round each so many seconds behind the server's start, and is done a second later.
ROUND_SECONDS = 30
# As many as a server holds, with the one whose heartbeats wait.
LEASES = 65_536
# Of so many instances each, so that a server keeps the documents of no more secure vips than there are.
OF_A_SECURE_VIP = 16
# Leases run out where more than 85 of 100 of the heartbeats of a minute came, two of each instance.
RENEWALS_A_SECOND = 2_200
HEARTBEATS_A_SECOND = 1_000
# A minute is closed and leases run out each so many seconds behind the server's start. The first closing may
# come behind the first run, so that leases run out at the second at the latest.
EXPIRY_SECONDS = 60
EXPIRIES = 2
SECURE_VIP_SECONDS = 10

BODY = (
    '{"instance":{"instanceId":"i%d","hostName":"h%d","app":"APP%d","ipAddr":"10.0.0.1",'
    '"status":"UP","vipAddress":"v","dataCenterInfo":{"name":"MyOwn"}}}'
)


# An instance whose lease runs out a second behind its registration.
SHORT_LEASE = (
    '{"instance":{"instanceId":"i%d","hostName":"h%d","app":"APP%d","ipAddr":"10.0.0.1","status":"UP",'
    '"secureVipAddress":"s%d","leaseInfo":{"durationInSecs":1},"dataCenterInfo":{"name":"MyOwn"}}}'
)


class Connection:
    """A connection that is made anew before the server ends it."""

    def __init__(self):
        self.left = 0

    def ready(self):
        if self.left == 0:
            self.socket = socket.create_connection(("127.0.0.1", PORT))
            self.socket.setsockopt(socket.IPPROTO_TCP, socket.TCP_NODELAY, 1)
            self.left = REQUESTS_A_CONNECTION
        self.left -= 1

    def ask(self, method, path, body=""):
        """The seconds until the reply is there, whole."""
        self.ready()
        begun = time.perf_counter()
        self.socket.sendall(request(method, path, body))
        self.read()
        return time.perf_counter() - begun

    def read(self):
        came = b""
        while b"\r\n\r\n" not in came:
            came += self.more()
        head, rest = came.split(b"\r\n\r\n", 1)
        if not head.startswith(DONE):
            sys.exit(head.decode())
        for line in head.split(b"\r\n"):
            if line.lower().startswith(b"content-length:"):
                left = int(line.split(b":")[1]) - len(rest)
                while left > 0:
                    left -= len(self.more())

    def more(self):
        came = self.socket.recv(1 << 20)
        if not came:
            sys.exit("the server ended a connection")
        return came


def request(method, path, body=""):
    """The bytes of a request."""
    head = "%s %s%s HTTP/1.1\r\nHost: a\r\nContent-Type: application/json\r\nContent-Length: %d\r\n\r\n"
    return (head % (method, BASE, path, len(body)) + body).encode()


def ask_all(requests):
    """Sends requests that have no document, at most as many as a connection takes, before any reply is read."""
    with socket.create_connection(("127.0.0.1", PORT)) as one:
        one.sendall(b"".join(requests))
        left, cut = len(requests), b""
        while left > 0:
            came = one.recv(1 << 20)
            if not came:
                sys.exit("the server ended a connection")
            left -= (cut + came).count(DONE)
            cut = (cut + came)[1 - len(DONE) :]


def change(number):
    """The path of a change of status."""
    status = "OUT_OF_SERVICE" if number // INSTANCES % 2 == 0 else "UP"
    instance = number % INSTANCES
    return "/apps/APP%d/i%d/status?value=%s" % (instance % APPS, instance, status)


def stolen():
    """Milliseconds for which the host has held up the machine's processors, all together."""
    with open("/proc/stat") as stat:
        return int(stat.readline().split()[8]) * 10


class Waits:
    """Waits for one kind of request."""

    def __init__(self, name):
        self.name = name
        self.connection = Connection()
        self.list = []

    def ask(self, at, method, path):
        before = stolen()
        wait = self.connection.ask(method, path)
        self.list.append((wait, at, stolen() - before))

    def show(self):
        waits = sorted(self.list)
        middle, late = waits[len(waits) // 2][0], waits[int(len(waits) * 0.999)][0]
        own = max(wait for wait, _, held_up in waits if held_up == 0)
        print(
            "%d %s: median %.2f ms, 99.9th percentile %.2f ms, longest %.2f ms, and %.2f ms where the host held up nothing"
            % (len(waits), self.name, middle * 1000, late * 1000, waits[-1][0] * 1000, own * 1000)
        )
        for wait, at, held_up in reversed(waits[-LONGEST:]):
            print("    %.2f ms, %.1f s behind the start, the host held up %d ms" % (wait * 1000, at, held_up))

    def longest_in_rounds(self):
        return 1000 * max(wait for wait, at, _ in self.list if is_in_round(at))


def is_in_round(at):
    return (at + 0.5) % ROUND_SECONDS < 1.5 and at > 1


def short_lease(number):
    """The registration of an instance whose lease runs out at once."""
    app = number % APPS
    return request("POST", "/apps/APP%d" % app, SHORT_LEASE % (number, number, app, number // OF_A_SECURE_VIP))


def in_pieces(requests):
    """Lists of at most as many as a connection takes."""
    return [requests[i : i + REQUESTS_A_CONNECTION] for i in range(0, len(requests), REQUESTS_A_CONNECTION)]


def renew(until):
    """Heartbeats of the one instance that keeps its lease, so many that leases of others may run out."""
    begun, done = time.time(), 0
    while time.time() < until:
        if done > (time.time() - begun) * RENEWALS_A_SECOND:
            time.sleep(0.01)
            continue
        ask_all([request("PUT", "/apps/APP0/kept")] * REQUESTS_A_CONNECTION)
        done += REQUESTS_A_CONNECTION


def ask_secure_vips(until):
    """Asks for one secure vip after another, none of which was asked for before."""
    connection = Connection()
    for number in range(LEASES // OF_A_SECURE_VIP):
        if time.time() >= until:
            return
        connection.ask("GET", "/svips/s%d" % number)


def beat(waits, start, until):
    """Heartbeats up to a second behind the start."""
    begun, done = time.perf_counter(), 0
    while time.perf_counter() < start + until:
        if done > (time.perf_counter() - begun) * HEARTBEATS_A_SECOND:
            time.sleep(0.0002)
            continue
        waits.ask(time.perf_counter() - start, "PUT", "/apps/APP0/kept")
        done += 1


def held():
    """How many instances there are, by the hash code of all apps."""
    with socket.create_connection(("127.0.0.1", PORT)) as one:
        one.sendall(request("GET", "/apps"))
        came = b""
        while True:
            came += one.recv(1 << 20)
            found = re.search(rb'"apps__hashcode":"UP_(\d+)_"', came)
            if found:
                return int(found.group(1))


def measure_leases(start):
    """The waits of heartbeats while secure vips are asked for, and while leases run out."""
    ask_all([request("POST", "/apps/APP0", BODY.replace("i%d", "kept") % (0, 0))])
    for piece in in_pieces([short_lease(number) for number in range(LEASES - 1)]):
        ask_all(piece)
    last = EXPIRIES * EXPIRY_SECONDS + 5
    ends = time.time() + last - (time.perf_counter() - start)
    renewing = multiprocessing.Process(target=renew, args=(ends,), daemon=True)
    renewing.start()
    beside_vips, beside_leases = Waits("heartbeats beside secure vips"), Waits("heartbeats beside leases")
    asking = multiprocessing.Process(target=ask_secure_vips, args=(time.time() + SECURE_VIP_SECONDS,), daemon=True)
    asking.start()
    beat(beside_vips, start, time.perf_counter() - start + SECURE_VIP_SECONDS)
    asking.join()
    beat(beside_leases, start, last)
    renewing.join()
    print("of %d instances %d are left" % (LEASES, held()))
    return beside_vips, beside_leases


def measure(seconds):
    """The waits for changes, and for looks at a published document."""
    start, first = time.perf_counter(), Connection()
    for number in range(INSTANCES):
        first.ask("POST", "/apps/APP%d" % (number % APPS), BODY % (number, number, number % APPS))
    for path in ("/apps", "/apps/APP7", "/apps/delta"):
        first.ask("GET", path)
    # Before the first round nothing is published, and the desk answers under its lock what is looked for.
    time.sleep(max(0, start + ROUND_SECONDS + 2 - time.perf_counter()))
    changes, looks = Waits("changes"), Waits("looks")
    gc.disable()
    begun, done = time.perf_counter(), 0
    while time.perf_counter() - begun < seconds:
        if done > (time.perf_counter() - begun) * WRITES_A_SECOND:
            time.sleep(0.0002)
            continue
        at = time.perf_counter() - start
        changes.ask(at, "PUT", change(done))
        looks.ask(at, "GET", "/apps/APP7")
        done += 1
    return changes, looks


def holds_of(program):
    """The steps of the program's publisher from now on; none where the kernel lets nobody look at them."""
    try:
        return Holds(program, STEP)
    except (OSError, subprocess.CalledProcessError) as error:
        print("for how long the publisher holds the lock isn't told: %s" % error)
        return None


def show_holds(calls):
    long = sorted(length for _, length in calls if length >= LONG_STEP)
    if long:
        print(
            "%d holds of the lock by the publisher, %d of %d ms and more: median of these %.2f ms, longest %s ms"
            % (
                len(calls),
                len(long),
                LONG_STEP,
                long[len(long) // 2],
                ", ".join("%.2f" % length for length in reversed(long[-LONGEST:])),
            )
        )


def served(program, work):
    """What comes of some work beside a server, which is ended behind it."""
    server = subprocess.Popen([program, "serve", "--port", str(PORT)], stdout=subprocess.PIPE)
    try:
        if not server.stdout.readline().startswith(b"listening"):
            sys.exit("the server doesn't listen")
        return work()
    finally:
        server.kill()
        server.wait()


def main():
    program = sys.argv[1]
    seconds = float(sys.argv[3]) if len(sys.argv) > 3 else 70
    holds = holds_of(program)
    calls = []
    try:
        changes, looks = served(program, lambda: measure(seconds))
    finally:
        if holds:
            calls = holds.close()
    for waits in (changes, looks):
        waits.show()
    print(
        "near a round: longest change %.2f ms, longest look %.2f ms"
        % (changes.longest_in_rounds(), looks.longest_in_rounds())
    )
    show_holds(calls)
    start = time.perf_counter()
    for waits in served(program, lambda: measure_leases(start)):
        waits.show()


if __name__ == "__main__":
    main()
