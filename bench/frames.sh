#!/usr/bin/env bash
# Measures that reading frames is linear in the stream, however it is cut: makes streams of 16, 32 and 64 MiB of
# frames, feeds each to the proved reader in pieces of 1, 100 and 65,536 bytes, and prints the time of each against the
# one before (at most 2.3 is wanted, at every size of piece).
#
# usage: bench/frames.sh
set -eu
top=$(dirname "$(dirname "$(readlink -f "$0")")")
printf '' | "$top/scripts/program" pws_frames_bench 1 >/dev/null
exec python3 "$top/bench/frames.py" "$top/crates/pws_frames_bench/out/pws_frames_bench"
