#!/usr/bin/env bash
# Measures what the gate costs: runs `rt ci` at the top of the repository, which proves all from nothing, and then prints
# a table of processor minutes by crate and by sort of work, the dearest crate first, and how long each took by the wall
# clock. Ends with the status of `rt ci`. With the number of a process it watches that one, an `rt ci` that runs already,
# and what runs below it; what ended before isn't seen.
#
# usage: bench/gate.sh [PROCESS]
set -eu
top=$(dirname "$(dirname "$(readlink -f "$0")")")
cd "$top"
exec python3 "$top/bench/gate.py" "$@"
