#!/bin/sh
# Measures a server under a fleet whose clients keep one connection each: 10,000 that heartbeat every 20
# seconds, and 1,000 that do so every three, alone, beside 10,000 instances, and beside these and those who do
# harm, over 4 and over 64 workers: requests without a reply, connections that the server ended, waits, and
# the memory of the server before and with them. Each tenth request is for the delta. Seconds of each of the
# twelve measurements may be given as a word, 300 without; and the host has to allow 20,000 descriptors.
set -eu
root=$(CDPATH='' cd -- "$(dirname -- "$0")/.." && pwd)
. "$root/bench/on_program.sh"
NETWORK=ethernet
on_program fleet.py "$@"
