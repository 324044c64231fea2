#!/bin/sh
# Refuses each thread of the proved program in turn, one in each run: of `discovery serve`, which is to
# serve one connection, and of `discovery fleet` with two writers and three clients. Each such run has to
# end with status 1 and `discovery: fault 20`, and to print nothing; where none is refused, it has to end
# as always. It says of each command how many threads were refused, and ends with 0 only where all runs
# came to that. It needs a C compiler, `cc`, for what refuses.
set -eu
root=$(CDPATH='' cd -- "$(dirname -- "$0")/.." && pwd)
work=$(mktemp -d)
trap 'rm -rf "$work"' EXIT
trap 'exit 1' HUP INT TERM
cc -shared -fPIC -O2 -o "$work/refuse.so" "$root/bench/refuse.c" -ldl
"$root/discovery" replay </dev/null
python3 "$root/bench/threads.py" "$root/crates/discovery/out/discovery" "$work/refuse.so"
