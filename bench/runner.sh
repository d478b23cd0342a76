#!/usr/bin/env bash
# Measures what an effect costs the runner of a script: gives 10,000, 20,000 and 40,000 requests to a script that answers
# each at once, and to one that waits for an answer meanwhile. Prints the processor time of each against the one before
# (at most 2.3 is wanted).
#
# usage: bench/runner.sh
set -eu
top=$(dirname "$(dirname "$(readlink -f "$0")")")
"$top/scripts/program" pws_driver_bench echo 0 >/dev/null
exec python3 "$top/bench/runner.py" "$top/crates/pws_driver_bench/out/pws_driver_bench"
