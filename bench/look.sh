#!/usr/bin/env bash
# Measures what a line costs the looker: gives it 100,000 and 200,000 lines of texts. Prints the lines that it answers in
# a second of processor time, and the time of the second against that of the first (at most 2.3 is wanted).
#
# usage: bench/look.sh
set -eu
top=$(dirname "$(dirname "$(readlink -f "$0")")")
"$top/scripts/program" pws_look_program event --lines </dev/null >/dev/null
exec python3 "$top/bench/look.py" "$top/crates/pws_look_program/out/pws_look_program"
