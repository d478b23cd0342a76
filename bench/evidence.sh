#!/usr/bin/env bash
# Measures what it takes to hear a statement, and to find the candidates, in a store of evidence that holds all that it may
# of fifteen other groups of ten replicas, with bodies of 32,768 bytes; and in one that holds all that it may of one such
# group, with bodies of 8 bytes. What is heard has no body of its own; no two bodies are the same, so that what may be
# proposed are aborts and readings: the time is that of looking up. Prints for each call the time of 10,000 in either
# store, and how many times as long those in the large one take (at most 20 are wanted).
#
# usage: bench/evidence.sh
set -eu
top=$(dirname "$(dirname "$(readlink -f "$0")")")
"$top/scripts/program" pws_evidence_bench one hear 0 >/dev/null
exec python3 "$top/bench/evidence.py" "$top/crates/pws_evidence_bench/out/pws_evidence_bench"
