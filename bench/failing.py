"""What a server holds after connections that failed, and whether it answers as before."""

import http.client
import re
import socket
import struct
import subprocess
import sys
import threading
import time

PORT = 18763
BASE = "/eureka/v2"
INSTANCES = 2_000
CONNECTIONS = 100_000
THREADS = 8
# What a server holds once it has met each kind of failure some thousand times.
WARM = 3_000
MAY_GROW_KIB = 1_024

BODY = (
    '{"instance":{"instanceId":"i%d","hostName":"h%d","app":"APP%d","ipAddr":"10.0.0.1",'
    '"status":"UP","vipAddress":"v","dataCenterInfo":{"name":"MyOwn"}}}'
)

CUT_HEAD = b"GET /eureka/v2/apps HTTP/1.1\r\nHost: a\r\nAcc"
ALL_APPS = b"GET /eureka/v2/apps HTTP/1.1\r\nHost: a\r\n\r\n"
RESET = struct.pack("ii", 1, 0)


def connected():
    peer = socket.socket()
    # A reply doesn't fit into what the host keeps for a peer that reads nothing.
    peer.setsockopt(socket.SOL_SOCKET, socket.SO_RCVBUF, 4_096)
    peer.connect(("127.0.0.1", PORT))
    return peer


def cut_a_head():
    peer = connected()
    peer.sendall(CUT_HEAD)
    peer.close()


def reset_a_reply():
    peer = connected()
    peer.sendall(ALL_APPS)
    peer.recv(100)
    peer.setsockopt(socket.SOL_SOCKET, socket.SO_LINGER, RESET)
    peer.close()


def read_nothing():
    peer = connected()
    peer.sendall(ALL_APPS)
    time.sleep(0.001)
    peer.close()


KINDS = [cut_a_head, reset_a_reply, read_nothing]


def fail(count):
    """Lets so many connections fail, of each kind a third, from several threads."""

    def some(first):
        for number in range(first, count, THREADS):
            try:
                KINDS[number % len(KINDS)]()
            except ConnectionError:
                pass

    threads = [threading.Thread(target=some, args=(first,)) for first in range(THREADS)]
    for thread in threads:
        thread.start()
    for thread in threads:
        thread.join()


def ask(method, path, body=None):
    connection = http.client.HTTPConnection("127.0.0.1", PORT, timeout=60)
    connection.request(method, BASE + path, body)
    reply = connection.getresponse()
    text = reply.read()
    connection.close()
    return reply.status, text


def kib_held(server):
    with open("/proc/%d/status" % server.pid) as status:
        return int(re.search(r"VmRSS:\s+(\d+) kB", status.read()).group(1))


def wait_for(server):
    while True:
        if server.poll() is not None:
            sys.exit("failing: the server ended with status %d" % server.returncode)
        try:
            socket.create_connection(("127.0.0.1", PORT)).close()
            return
        except ConnectionRefusedError:
            time.sleep(0.05)


def tried(server, count):
    for number in range(INSTANCES):
        status, _ = ask("POST", "/apps/APP%d" % (number % 20), BODY % (number, number, number % 20))
        if status != 204:
            sys.exit("failing: a registration was answered %d" % status)
    fail(WARM)
    before = ask("GET", "/apps")
    held = kib_held(server)
    began = time.monotonic()
    fail(count)
    took = time.monotonic() - began
    after = ask("GET", "/apps")
    grown = kib_held(server) - held
    print("%d connections failed in %.0f seconds" % (count, took))
    print("all apps: %d bytes, %s" % (len(after[1]), "as before" if after == before else "OTHER THAN BEFORE"))
    print("memory: %d KiB before, %d KiB more after" % (held, grown))
    return after == before and before[0] == 200 and grown <= MAY_GROW_KIB


def main():
    program = sys.argv[1]
    count = int(sys.argv[3]) if len(sys.argv) > 3 else CONNECTIONS
    server = subprocess.Popen([program, "serve", "--port", str(PORT)], stderr=subprocess.DEVNULL, stdout=subprocess.DEVNULL)
    try:
        wait_for(server)
        well = tried(server, count)
    finally:
        server.kill()
    sys.exit(0 if well else 1)


main()
