#!/bin/sh
# Measures how long writes wait for a publisher: 1,000 changes of status a second over one connection, to a
# server with 10,000 instances, of which all apps, an app and the delta are published each 30 seconds, each
# time anew. In turns with them 1,000 looks a second at a published document, over another connection, which
# wait for nobody: what they wait is the machine's. It prints of both the median, the 99.9th percentile and
# the longest in milliseconds, when the longest ones were and for how long the host held up the machine
# meanwhile, and the longest near a round; and, where the kernel lets it look, for how long the publisher held
# the desk's lock. It waits for the first round before it begins: until then nothing is published, and looks
# take the lock. Seconds of the measurement may be given as a word; 70 see two rounds.
#
# Then, over another server of 65,536 instances, it prints the same of 1,000 heartbeats a second over one
# connection: for ten seconds while one secure vip after another is asked for that nobody asked for before, and
# then until the leases of all other instances have run out twice, at 60 and at 120 seconds, while another
# process sends the heartbeats without which no lease runs out. Wants two free cores, and four for this.
set -eu
root=$(CDPATH='' cd -- "$(dirname -- "$0")/.." && pwd)
. "$root/bench/on_program.sh"
on_program waits.py "$@"
