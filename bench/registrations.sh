#!/bin/sh
# Times runs of 5,000, 10,000 and 20,000 registrations over 100 apps with one load of all apps
# behind them. For each it prints the seconds and the peak memory in KiB, and how they grew from the
# size before. Other sizes may be given as words.
set -eu
. "$(dirname -- "$0")/on_program.sh"
[ $# -gt 0 ] || set -- 5000 10000 20000
on_program registrations.py "$@"
