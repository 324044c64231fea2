#!/bin/sh
# Lets 100,000 connections to a server fail: a third end inside a head, a third are reset in the midst of
# a reply of some 1,400,000 bytes, and of a third no reply is read. It prints the server's memory before
# and after, and ends well where the server answers as before and holds no more than 1 MiB more. The
# number of connections may be given as a word.
set -eu
root=$(CDPATH='' cd -- "$(dirname -- "$0")/.." && pwd)
. "$root/bench/on_program.sh"
on_program failing.py "$@"
