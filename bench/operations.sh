#!/bin/sh
# Times 100,000 renewals, status changes and metadata changes over 2,000 and over 20,000 instances of
# 100 apps. For each it prints the microseconds of one, without the registrations before it, and how
# they grew from the smaller number of instances. Another count and other sizes may be given as words.
set -eu
. "$(dirname -- "$0")/on_program.sh"
[ $# -gt 0 ] || set -- 100000 2000 20000
on_program operations.py "$@"
