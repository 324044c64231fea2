#!/bin/sh
# Measures requests a second of a server with 10,000 instances over 4 connections, by wrk, and what each
# takes of a processor; beside each those of nginx for the same bytes from files in memory, which it hands
# to the kernel: all apps of an empty server, one app of 100 instances, all apps; heartbeats; and all but
# the first again while 1,000 writes a second come in. Wants wrk and nginx on the path, and four cores.
# Seconds of each measurement may be given as a word.
set -eu
root=$(CDPATH='' cd -- "$(dirname -- "$0")/.." && pwd)
. "$root/bench/on_program.sh"
on_program server.py "$@"
