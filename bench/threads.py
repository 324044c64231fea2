"""Refuses each thread of `discovery serve` and of `discovery fleet` in turn: threads.py PROGRAM SHIM"""

import os
import socket
import subprocess
import sys
import threading

PORT = 18764

SERVE = ("serve", "--port", str(PORT), "--connections", "1")
FLEET = ("fleet", "--writers", "2", "--clients", "3", "--instances", "10")

LISTENING = b"listening 127.0.0.1:%d\n" % PORT
ALWAYS = {
    SERVE: (0, LISTENING, b""),
    FLEET: (0, b"fleet 10 UP_10_\nclient 0 yes\nclient 1 yes\nclient 2 yes\n", b""),
}
REFUSED = (1, b"", b"discovery: fault 20\n")

# How long a run may take, in seconds.
PATIENCE = 60


def connect():
    """Makes the one connection that the server is to serve, and ends it."""
    with socket.create_connection(("127.0.0.1", PORT), PATIENCE) as one:
        one.sendall(b"GET /eureka/v2/apps HTTP/1.1\r\nHost: a\r\nConnection: close\r\n\r\n")
        while one.recv(65536):
            pass


def run(program, shim, words, at):
    """What a run comes to in which the thread of that number is refused, and whether one was."""
    told, tell = os.pipe()
    env = dict(os.environ, LD_PRELOAD=shim, REFUSE_THREAD=str(at), REFUSE_TOLD=str(tell))
    begun = subprocess.Popen([program, *words], stdout=subprocess.PIPE, stderr=subprocess.PIPE, env=env, pass_fds=(tell,))
    os.close(tell)
    # A run that waits for ever is ended, and comes to a status below 0.
    patience = threading.Timer(PATIENCE, begun.kill)
    patience.start()
    said = begun.stdout.readline()
    if said == LISTENING:
        connect()
    out, err = begun.stdout.read(), begun.stderr.read()
    begun.wait()
    patience.cancel()
    was_told = os.read(told, 1)
    os.close(told)
    return (begun.returncode, said + out, err), was_told != b""


def refuse_all(program, shim, words):
    """How many threads were refused, and whether each run came to what it has to."""
    at = 0
    while True:
        at += 1
        came, refused = run(program, shim, words, at)
        wanted = REFUSED if refused else ALWAYS[words]
        if came != wanted:
            print("%s: with thread %d refused it came to %r" % (words[0], at, came), flush=True)
            return at, False
        if not refused:
            return at - 1, True


def main():
    program, shim = sys.argv[1:]
    well = True
    for words in ALWAYS:
        count, as_wanted = refuse_all(program, shim, words)
        print("%s: %d threads, each refused in a run of its own" % (words[0], count), flush=True)
        well = well and as_wanted and count > 0
    return 0 if well else 1


if __name__ == "__main__":
    sys.exit(main())
