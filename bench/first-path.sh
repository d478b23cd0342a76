#!/usr/bin/env bash
# Measures that reading, replay and report are linear in the input: makes schedules of the first form of 16,000,
# 32,000 and 64,000 lines, runs the proved program on them, and prints the time of each against the one before (at
# most 2.3 is wanted) and the peak memory against the size of the input (at most 12 times
# is wanted; it needs the command time, of Debian's package of that name).
#
# usage: bench/first-path.sh
set -eu
top=$(dirname "$(dirname "$(readlink -f "$0")")")
"$top/pws-sim" run <"$top/examples/repeats.pws" >/dev/null
exec python3 "$top/bench/first_path.py" "$top/crates/pws_sim_program/out/pws_sim_program"
