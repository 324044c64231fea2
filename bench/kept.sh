#!/bin/sh
# Times what kept documents cost, without printing any. Loads of a kept document: of all apps of 1, of
# 2,000 and of 20,000 instances, the last of 14 MB, and of an app of 200 instances. Changes of status
# beside 4,096 kept documents and beside none: such that name no kept document, and such that drop one,
# each with the load that keeps it anew. Rounds that copy 4,096 kept documents, by key. And looks at a
# published document against loads of the kept one. It prints the microseconds of a processor that one
# of each takes, without what comes before it, and how many times those of another they are. Other
# counts of loads, changes and rounds may be given as words.
set -eu
. "$(dirname -- "$0")/on_program.sh"
[ $# -gt 0 ] || set -- 1000000 50000 20
on_program kept.py "$@"
