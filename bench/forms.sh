#!/bin/sh
# Times loads of all apps of 20,000 instances in the full and in the compact form, each joined anew behind
# a change. It prints the milliseconds of one in each, without the changes and the registrations before
# it, and how many times those of the compact form the full one takes. Another count and another size may be given as words.
set -eu
. "$(dirname -- "$0")/on_program.sh"
[ $# -gt 0 ] || set -- 10 20000
on_program forms.py "$@"
