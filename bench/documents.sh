#!/bin/sh
# Times loads of one app of 200 instances, of a vip with 20, of one instance and of a delta of 20
# changes, each joined anew behind a change, over 2,000 and over 20,000 instances. For each it prints the
# microseconds of one, without the change and what comes before it, and how they grew from the smaller
# number of instances. Another count and other sizes may be given as words.
set -eu
. "$(dirname -- "$0")/on_program.sh"
[ $# -gt 0 ] || set -- 500 2000 20000
on_program documents.py "$@"
