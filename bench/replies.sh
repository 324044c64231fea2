#!/bin/sh
# Prints what a GET of a kept document costs in memory, read, answered and written, without sockets: by
# the size of the document, by how many fields the request has, and in pieces of 100 bytes.
set -eu
root=$(CDPATH='' cd -- "$(dirname -- "$0")/.." && pwd)
work=$(mktemp -d)
trap 'rm -rf "$work"' EXIT
trap 'exit 1' HUP INT TERM
cd "$root/crates/disco_rows"
rt run >/dev/null
python3 "$root/bench/replies.py" "$root/crates/disco_rows/out/disco_rows" "$work"
