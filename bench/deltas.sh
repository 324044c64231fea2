#!/bin/sh
# Times deltas of 100 instances of which 100 changes are kept, and of which 60,000 are: for each it
# prints the microseconds of a processor that one delta takes, each behind a change of its own, and
# how they grew with the changes. Another count and other numbers of changes may be given as words.
set -eu
. "$(dirname -- "$0")/on_program.sh"
[ $# -gt 0 ] || set -- 1000 100 60000
on_program deltas.py "$@"
