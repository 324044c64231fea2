#!/bin/sh
# Refuses each growth of the proved programs in turn, one in each run: of `discovery replay` on each row
# in which no event names an earlier one, and of `disco_refusals`, which asks a desk and, in a run of its
# own, a client again where memory was refused. Of two rows with thousands of events it refuses one growth of 17. It says of each
# how many growths were refused and what came of it, and ends with 0 only where each run came to what it
# may come to, as `bench/refusals.py` says. With `--quick` it takes three rows and both runs of that. It
# needs a C compiler, `cc`, for what refuses.
set -eu
root=$(CDPATH='' cd -- "$(dirname -- "$0")/.." && pwd)
work=$(mktemp -d)
trap 'rm -rf "$work"' EXIT
trap 'exit 1' HUP INT TERM
cc -shared -fPIC -O2 -o "$work/refuse.so" "$root/bench/refuse.c" -ldl
"$root/discovery" replay </dev/null
(cd "$root/crates/disco_refusals" && "${RT:-rt}" run) >"$work/log" 2>&1 || {
    tail -n 20 "$work/log" >&2
    exit 1
}
python3 "$root/bench/refusals.py" "$root" "$work" "$@"
