#!/bin/sh
# Measures what one client can take: for bodies of a mebibyte of many shapes the memory while one is read,
# what an instance keeps, and what a metadata change of it keeps more; what `follow` takes to read a document
# of such a shape; and what comes of requests where the server may have 300 MB, before and after cancels.
# `TOO MUCH` stands behind what is more than it may be.
set -eu
root=$(CDPATH='' cd -- "$(dirname -- "$0")/.." && pwd)
. "$root/bench/on_program.sh"
on_program hostile.py "$@"
