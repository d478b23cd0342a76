#!/usr/bin/env bash
# Measures what reading texts of elements costs: makes texts of 32,768 bytes of several kinds, reads each many times, and
# prints the processor time of one reading against that of plain text (at most 25 times as much is wanted), and against
# expat's, where Python has it. Each name has its own copy of its namespace, so the texts in which one namespace takes half
# of the room and all names are in it are the worst.
#
# usage: bench/envelopes.sh
set -eu
top=$(dirname "$(dirname "$(readlink -f "$0")")")
printf '<a/>' | "$top/scripts/program" pws_mark_bench 1 >/dev/null
exec python3 "$top/bench/envelopes.py" "$top/crates/pws_mark_bench/out/pws_mark_bench"
