#!/usr/bin/env bash
# Measures what it takes to decide ten view changes: in the worst case, in which each has 32 prepared rows and 32
# pre-prepared rows of 16 digests, and in the plain case, in which nothing was prepared. Prints the processor time of one
# decision in each (a few milliseconds at most are wanted).
#
# usage: bench/choice.sh
set -eu
top=$(dirname "$(dirname "$(readlink -f "$0")")")
"$top/scripts/program" pws_change_bench plain 0 >/dev/null
exec python3 "$top/bench/choice.py" "$top/crates/pws_change_bench/out/pws_change_bench"
