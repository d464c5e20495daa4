#!/bin/sh
# Times the longest walks through the jobs of a busy window, each by a run of its own.
# Usage: bench/time_bounds.sh [CASE..]
set -eu
cd "$(dirname "$0")/../crates/cpa_bench"
rt run >/dev/null 2>&1
if [ $# -eq 0 ]; then
    set -- tdma preemptive-quiet preemptive-busy round-robin-quiet round-robin-busy can-quiet can-busy
fi
for case in "$@"; do
    begin=$(date +%s%N)
    line=$(./out/cpa_bench bounds "$case")
    end=$(date +%s%N)
    echo "$line $(((end - begin) / 1000000)) ms"
done
