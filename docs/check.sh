#!/bin/sh
# Looks over the pages, in seconds and without the kit. It ends with 1 where a page names a file, a crate, an
# option, a clause, a heading or a figure that isn't there, where a generated page isn't as its script writes
# it, where a word of this repository is used before it is said, or where the sample of a certified client
# fails. It prints a line a finding. It needs Python 3 and nothing else, and writes nothing.
set -eu
root=$(CDPATH='' cd -- "$(dirname -- "$0")/.." && pwd)
run() {
    python3 -E -B -X utf8 "$@" || status=1
}
status=0
run "$root/docs/check.py"
run "$root/docs/words.py" --quiet
run "$root/samples/certified_test.py"
exit "$status"
