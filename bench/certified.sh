#!/bin/sh
# Runs samples/certified.py against a server whose registry changes five times a second, and which is started
# again halfway. Three clients refresh: each 2 seconds, each 7 in the compact form, and each 45, when the delta no
# longer reaches the copy. It compares each copy with the registry of that run at that version, as the writes
# made it, and prints how many refreshes went by a delta, by all apps, or by neither. It ends with status 1 where
# a copy is another one, or a version falls. Seconds of each of the two runs may be given as a word, 100 without.
set -eu
root=$(CDPATH='' cd -- "$(dirname -- "$0")/.." && pwd)
. "$root/bench/on_program.sh"
on_program certified.py "$@"
