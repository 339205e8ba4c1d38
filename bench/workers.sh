#!/usr/bin/env bash
# Prints the seconds to `Proven` by 1, 2 and 4 workers, for 64 pieces and for more, on the instances whose trees are large enough.
# Each is the least of three runs. Needs the Rattle kit's command rt, which builds the program at its first use.
set -eu
top=$(cd "$(dirname "$0")/.." && pwd)
cases=$top/crates/check_cases/data
(cd "$top/crates/cvrp" && rt run < "$cases/E-n7-k2.vrp" > /dev/null)
program=$top/crates/cvrp/out/cvrp

seconds() {
    for _ in 1 2 3; do
        local start end
        start=$(date +%s.%N)
        "$program" --workers "$2" --pieces "$3" --budget 1000000000000 < "$cases/$1.vrp" > /dev/null
        end=$(date +%s.%N)
        awk -v a="$start" -v b="$end" 'BEGIN { printf "%.2f\n", b - a }'
    done | sort -g | head -n 1
}

for name in P-n16-k8 P-n19-k2 21-ceil14-big; do
    for pieces in 64 8192; do
        one=$(seconds "$name" 1 "$pieces")
        two=$(seconds "$name" 2 "$pieces")
        four=$(seconds "$name" 4 "$pieces")
        echo "$name, $pieces pieces: $one, $two, $four seconds by 1, 2 and 4 workers"
    done
done
