#!/bin/sh
# Runs the test command of the README on a fresh clone of what is committed. It prints that command's
# last line, the minutes by the clock and the minutes of processors, and of each crate the processor
# minutes of its proof, its tests and its edits, by a look at the prover's processes twice a second.
# All that the command printed stays in a file that is named at the end.
set -eu
root=$(CDPATH='' cd -- "$(dirname -- "$0")/.." && pwd)
work=$(mktemp -d)
trap 'rm -rf "$work/clone"' EXIT
trap 'exit 1' HUP INT TERM
git clone -q "$root" "$work/clone"
python3 "$root/bench/gate.py" "$work/clone" "$work/gate.log"
