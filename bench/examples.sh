#!/usr/bin/env bash
# Prints for each file of examples/ the seconds and the end of the report by one worker and by four, with a plain run's budget or with the
# words that are given: bench/examples.sh --budget 1000000000000. A run is ended after LIMIT seconds (120, if nothing is said).
set -eu
top=$(cd "$(dirname "$0")/.." && pwd)
limit=${LIMIT:-120}
(cd "$top/crates/cvrp" && rt run < "$top/examples/E-n7-k2.vrp" > /dev/null)
program=$top/crates/cvrp/out/cvrp

for file in "$top"/examples/*.vrp; do
    line=$(basename "$file" .vrp)
    for workers in 1 4; do
        start=$(date +%s.%N)
        ending=$(timeout "$limit" "$program" --workers "$workers" "$@" < "$file" | tail -n 2 | paste -sd ' ' || true)
        end=$(date +%s.%N)
        seconds=$(awk -v a="$start" -v b="$end" 'BEGIN { printf "%.2f", b - a }')
        line="$line | $workers: $seconds s, ${ending:-not ended}"
    done
    echo "$line"
done
