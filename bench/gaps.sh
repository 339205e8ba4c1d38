#!/usr/bin/env bash
# Prints for each file of bench/data what a run ends with after so many seconds by four workers: bench/gaps.sh [SECONDS ..] (5, 20 and
# 60, if nothing is said). The report's last two lines are the cost, and `Proven` or `Open` with a lower bound.
set -eu
top=$(cd "$(dirname "$0")/.." && pwd)
(cd "$top/crates/cvrp" && rt run < "$top/examples/E-n7-k2.vrp" > /dev/null)
program=$top/crates/cvrp/out/cvrp
[ $# -gt 0 ] || set -- 5 20 60

for file in "$top"/bench/data/*.vrp; do
    for seconds in "$@"; do
        ending=$("$program" --workers 4 --seconds "$seconds" < "$file" | tail -n 2 | paste -sd ' ')
        echo "$(basename "$file" .vrp), $seconds seconds: $ending"
    done
done
