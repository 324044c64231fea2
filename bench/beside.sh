#!/bin/sh
# Measures what each kind of request takes of a processor over 4 connections, beside another server of the
# same words, whose program is named: five turns of wrk on each, over 10,000 instances. It prints the
# medians and the ratio of each turn. Seconds of each measurement may be given as a second word.
set -eu
[ $# -ge 1 ] || { echo "usage: bench/beside.sh PEER [SECONDS]" >&2; exit 2; }
root=$(CDPATH='' cd -- "$(dirname -- "$0")/.." && pwd)
. "$root/bench/on_program.sh"
on_program beside.py "$@"
