"""What each kind of request takes of a processor, beside another server: beside.py PROGRAM FOLDER PEER [SECONDS]"""

import http.client
import os
import re
import statistics
import subprocess
import sys

PORTS = (18761, 18762)
BASE = "/eureka/v2"
APPS = 100
INSTANCES = 10_000
TURNS = 5
# A request more would meet the end of the connection.
REQUESTS_A_CONNECTION = 999

BODY = (
    '{"instance":{"instanceId":"i%d","hostName":"h%d","app":"APP%d","ipAddr":"10.0.0.1",'
    '"status":"UP","vipAddress":"v","dataCenterInfo":{"name":"MyOwn"}}}'
)

SCRIPT = """
local n = 0
local statuses = { "UP", "DOWN" }
request = function()
    n = (n + 7) %% %(instances)d
    local app, id = "APP" .. (n %% %(apps)d), "i" .. n
    local of_app = "%(base)s/apps/" .. app
    local of_one = of_app .. "/" .. id
    return %(request)s
end
"""

# Of each kind of request what wrk sends.
KINDS = {
    "heartbeat": 'wrk.format("PUT", of_one)',
    "registration": 'wrk.format("POST", of_app, { ["Content-Type"] = "application/json" }, [[%s]])'
    % '{"instance":{"instanceId":"]] .. id .. [[","hostName":"h","app":"]] .. app .. [[","ipAddr":"10.0.0.1",'
    '"status":"UP","vipAddress":"v","dataCenterInfo":{"name":"MyOwn"}}}',
    "status change": 'wrk.format("PUT", of_one .. "/status?value=" .. statuses[math.random(2)])',
    "metadata change": 'wrk.format("PUT", of_one .. "/metadata?k=" .. math.random(9))',
    "one instance": 'wrk.format("GET", of_one)',
    "an app": 'wrk.format("GET", of_app)',
    "delta": 'wrk.format("GET", "%s/apps/delta")' % BASE,
}


def fill(port):
    """Registers all instances."""
    for number in range(INSTANCES):
        if number % REQUESTS_A_CONNECTION == 0:
            server = http.client.HTTPConnection("127.0.0.1", port)
        app = "APP%d" % (number % APPS)
        words = BODY % (number, number, number % APPS)
        server.request("POST", "%s/apps/%s" % (BASE, app), words, {"Content-Type": "application/json"})
        reply = server.getresponse()
        reply.read()
        if reply.status != 204:
            sys.exit("a registration was answered %d" % reply.status)


def spent(server):
    """The seconds of processors that a server took so far."""
    with open("/proc/%d/stat" % server.pid, encoding="ascii", errors="replace") as text:
        fields = text.read().rsplit(")", 1)[1].split()
    return (int(fields[11]) + int(fields[12])) / os.sysconf("SC_CLK_TCK")


def microseconds(server, port, script, seconds):
    """The microseconds of a processor that a server takes for a request, over 4 connections."""
    words = ["wrk", "-t2", "-c4", "-d%ds" % seconds, "-s", script, "http://127.0.0.1:%d" % port]
    before = spent(server)
    text = subprocess.run(words, check=True, capture_output=True, text=True).stdout
    if "Non-2xx" in text:
        sys.exit(text)
    return (spent(server) - before) / int(re.search(r"(\d+) requests in", text).group(1)) * 1e6


def measure(servers, folder, seconds):
    took = {name: ([], []) for name in KINDS}
    for _ in range(TURNS):
        for name, request in KINDS.items():
            script = folder + "/request.lua"
            with open(script, "w", encoding="ascii") as text:
                text.write(SCRIPT % {"instances": INSTANCES, "apps": APPS, "base": BASE, "request": request})
            for server, port, times in zip(servers, PORTS, took[name]):
                times.append(microseconds(server, port, script, seconds))
    print("| Request | Microseconds | Beside | Ratio of each turn |\n|---|---|---|---|")
    for name, (ours, theirs) in took.items():
        ratios = " ".join("%.2f" % (our / their) for our, their in zip(ours, theirs))
        print("| %s | %.1f | %.1f | %s |" % (name, statistics.median(ours), statistics.median(theirs), ratios))


def started(program, port):
    server = subprocess.Popen([program, "serve", "--port", str(port), "--workers", "4"], stdout=subprocess.PIPE)
    if not server.stdout.readline():
        sys.exit("%s doesn't listen" % program)
    return server


def main(program, folder, peer, seconds="2"):
    servers = []
    try:
        for name, port in zip((program, peer), PORTS):
            servers.append(started(name, port))
            fill(port)
        measure(servers, folder, int(seconds))
    finally:
        for server in servers:
            server.terminate()


main(*sys.argv[1:])
