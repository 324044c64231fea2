#!/bin/sh
# Proves a crate from nothing on one processor, over the crates below it, which are proved first where
# they aren't. It prints the seconds in all, and which parts of the proof take the most: of a function F,
# F.Proof is its proof and F.Lts what the borrow checker needs of its locals; a file of proofs/ has its
# own name.
set -eu
[ $# -eq 1 ] || { echo "usage: bench/slow.sh CRATE" >&2; exit 2; }
root=$(CDPATH='' cd -- "$(dirname -- "$0")/.." && pwd)
python3 "$root/bench/slow.py" "$root/crates/$1"
