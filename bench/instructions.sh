#!/bin/sh
# Counts the instructions of an event of `replay` by callgrind, as the difference of two runs: of a
# first registration and one again, of a renewal, a status change and a load of one instance, and of the
# loads of an app and of all apps, each joined anew behind a change. Over 2,000, 20,000 and 60,000
# instances of 100 apps, or the sizes that are given as words. Where the variable PEER has the path of
# another program that reads the same lines, it is counted beside this one. Names are short, as `APP12` and
# `i345`, or, where the variable NAMES is `long`, of 17 to 33 bytes that begin alike.
set -eu
. "$(dirname -- "$0")/on_program.sh"
[ $# -gt 0 ] || set -- 2000 20000 60000
on_program instructions.py "$@"
