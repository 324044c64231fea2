#!/bin/sh
# Times looks into an edition of 4,096 documents and of one, on 1, 2 and 4 threads, alone and beside a
# thread that writes, loads and publishes without a pause. It prints the looks a second of all threads
# together, how many times those of one thread alone they are, and how many publishes there were beside
# them. Another count of looks of each thread may be given as a word. Wants four free cores.
set -eu
root=$(CDPATH='' cd -- "$(dirname -- "$0")/.." && pwd)
cd "$root/crates/disco_tests"
rt run >/dev/null
python3 "$root/bench/looks.py" ./out/disco_tests "$@"
