"""Requests a second of `discovery serve` and of nginx, on loopback, and what each takes of a processor."""

import http.client
import os
import re
import shutil
import subprocess
import sys
import threading
import time

PORT = 18761
NGINX_PORT = 18762
BASE = "/eureka/v2"
APPS = 100
INSTANCES = 10_000
WRITES_A_SECOND = 1_000
# A request more would meet the end of the connection.
REQUESTS_A_CONNECTION = 999
# A publisher begins a round after 30 seconds at the latest.
ROUND_SECONDS = 32

BODY = (
    '{"instance":{"instanceId":"i%d","hostName":"h%d","app":"APP%d","ipAddr":"10.0.0.1",'
    '"status":"UP","vipAddress":"v","dataCenterInfo":{"name":"MyOwn"}}}'
)

NGINX = """
worker_processes auto;
pid %(folder)s/nginx.pid;
error_log /dev/null;
events { worker_connections 64; }
http {
    access_log off;
    sendfile on;
    tcp_nopush on;
    open_file_cache max=16;
    default_type application/json;
    keepalive_requests 1000;
    server { listen 127.0.0.1:%(port)d; root %(folder)s/www; }
}
"""

HEARTBEAT = """
local n = 0
request = function()
    n = (n + 7) %% %(instances)d
    return wrk.format("PUT", "%(base)s/apps/APP" .. (n %% %(apps)d) .. "/i" .. n)
end
"""


class Connection:
    """A connection that is made anew before the server ends it."""

    def __init__(self):
        self.left = 0

    def ask(self, method, path, body=None):
        if self.left == 0:
            self.http = http.client.HTTPConnection("127.0.0.1", PORT)
            self.left = REQUESTS_A_CONNECTION
        self.left -= 1
        self.http.request(method, BASE + path, body)
        reply = self.http.getresponse()
        text = reply.read()
        if self.left == 0:
            self.http.close()
        return reply.status, text

    def get(self, path):
        status, text = self.ask("GET", path)
        if status != 200:
            sys.exit("GET %s was answered %d" % (path, status))
        return text


def register(connection, number):
    app = number % APPS
    status, _ = connection.ask("POST", "/apps/APP%d" % app, BODY % (number, number, app))
    if status != 204:
        sys.exit("a registration was answered %d" % status)


def write_on(stop):
    """Registers instances again, so many a second, until it is told to stop."""
    connection, begin, done = Connection(), time.monotonic(), 0
    while not stop.is_set():
        if done > (time.monotonic() - begin) * WRITES_A_SECOND:
            time.sleep(0.001)
            continue
        register(connection, done % INSTANCES)
        done += 1
    print("    (%d writes a second)" % (done / (time.monotonic() - begin)), flush=True)


def processes(root):
    """A process and its children."""
    found = [root]
    for name in os.listdir("/proc"):
        if name.isdigit():
            try:
                with open("/proc/%s/stat" % name, encoding="ascii", errors="replace") as text:
                    parent = int(text.read().rsplit(")", 1)[1].split()[1])
            except OSError:
                continue
            if parent == root:
                found.append(int(name))
    return found


def spent(root):
    """The seconds of processors that a process and its children took so far."""
    ticks = 0
    for pid in processes(root):
        with open("/proc/%d/stat" % pid, encoding="ascii", errors="replace") as text:
            fields = text.read().rsplit(")", 1)[1].split()
        ticks += int(fields[11]) + int(fields[12])
    return ticks / os.sysconf("SC_CLK_TCK")


def wrk(server, port, path, seconds, script=None):
    """Requests a second over 4 connections, and the microseconds of a processor that the server takes for one."""
    words = ["wrk", "-t2", "-c4", "-d%ds" % seconds, "http://127.0.0.1:%d%s" % (port, path)]
    before = spent(server.pid)
    text = subprocess.run(
        words + (["-s", script] if script else []), check=True, capture_output=True, text=True
    ).stdout
    if "Non-2xx" in text:
        sys.exit(text)
    requests = int(re.search(r"(\d+) requests in", text).group(1))
    a_second = float(re.search(r"Requests/sec:\s+([\d.]+)", text).group(1))
    return a_second, (spent(server.pid) - before) / requests * 1e6


def compare(servers, name, path, seconds):
    (ours, our_time), (theirs, their_time) = (
        wrk(server, port, address, seconds)
        for server, port, address in zip(servers, (PORT, NGINX_PORT), (BASE + path, "/" + name))
    )
    print(
        "%s: %.0f requests a second, nginx %.0f, %.2f times; %.1f microseconds of a processor each, nginx %.1f, %.2f times"
        % (name, ours, theirs, ours / theirs, our_time, their_time, our_time / their_time),
        flush=True,
    )


def started(program):
    server = subprocess.Popen(
        [program, "serve", "--port", str(PORT), "--workers", "8"], stdout=subprocess.PIPE
    )
    if not server.stdout.readline().startswith(b"listening"):
        sys.exit("the server doesn't listen")
    return server


def nginx_started(folder):
    os.makedirs(folder + "/www", exist_ok=True)
    with open(folder + "/nginx.conf", "w", encoding="ascii") as text:
        text.write(NGINX % {"folder": folder, "port": NGINX_PORT})
    return subprocess.Popen(
        ["nginx", "-p", folder, "-c", folder + "/nginx.conf", "-g", "daemon off;"]
    )


def keep(folder, name, text):
    with open(folder + "/www/" + name, "wb") as page:
        page.write(text)


def measure(servers, work, folder, seconds):
    heartbeat = work + "/heartbeat.lua"
    with open(heartbeat, "w", encoding="ascii") as text:
        text.write(HEARTBEAT % {"instances": INSTANCES, "apps": APPS, "base": BASE})
    keep(folder, "empty", Connection().get("/apps"))
    time.sleep(ROUND_SECONDS)
    compare(servers, "empty", "/apps", seconds)
    connection = Connection()
    for number in range(INSTANCES):
        register(connection, number)
    # What is asked for once is published with the next round.
    for path in ("/apps/APP7", "/apps", "/apps/delta"):
        connection.get(path)
    time.sleep(ROUND_SECONDS)
    connection = Connection()
    keep(folder, "app", connection.get("/apps/APP7"))
    keep(folder, "all", connection.get("/apps"))
    for busy in (False, True):
        stop = threading.Event()
        writer = threading.Thread(target=write_on, args=(stop,))
        if busy:
            print("while %d writes a second come in:" % WRITES_A_SECOND, flush=True)
            writer.start()
        compare(servers, "app", "/apps/APP7", seconds)
        compare(servers, "all", "/apps", seconds)
        beats = wrk(servers[0], PORT, "/", seconds, heartbeat)
        print("heartbeats: %.0f a second, %.1f microseconds of a processor each" % beats, flush=True)
        stop.set()
        if busy:
            writer.join()


def main(program, work, seconds="5"):
    folder = "/dev/shm/discovery-bench-%d" % os.getpid()
    running = []
    try:
        running.append(started(program))
        running.append(nginx_started(folder))
        measure(running, work, folder, int(seconds))
    finally:
        for one in running:
            one.terminate()
        shutil.rmtree(folder, ignore_errors=True)


main(*sys.argv[1:])
