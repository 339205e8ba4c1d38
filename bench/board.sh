#!/usr/bin/env bash
# Times one worker of the program, whose board offers plans to a register, beside the search with a board of its own
# (`bench search`), over the same tree as one piece, from the same first plan. The two run in turn, ROUNDS times (5, if nothing is
# said), so that what else the machine does falls on both. Prints seconds, the least of all rounds, and the ratio. Needs the Rattle
# kit's command rt, which builds both.
set -eu
top=$(cd "$(dirname "$0")/.." && pwd)
rounds=${ROUNDS:-5}
cases=$top/crates/check_cases/data
alone=$("$top/bench/build.sh")
(cd "$top/crates/cvrp" && rt run < "$cases/E-n7-k2.vrp" > /dev/null)
program=$top/crates/cvrp/out/cvrp
budget=1000000000000

# The lesser of the number $1 and the seconds that the rest takes as a command.
least() {
    local so_far=$1 start end
    shift
    start=$(date +%s.%N)
    "$@" > /dev/null 2>&1
    end=$(date +%s.%N)
    awk -v a="$start" -v b="$end" -v least="$so_far" 'BEGIN { took = b - a; printf "%.3f", took < least ? took : least }'
}

run_program() {
    "$program" --pieces 1 --budget "$budget" < "$1"
}

for name in P-n16-k8 P-n19-k2 21-ceil14-big; do
    own=1000000
    shared=1000000
    for _ in $(seq "$rounds"); do
        own=$(least "$own" "$alone" search "$cases/$name.vrp" "$budget" savings)
        shared=$(least "$shared" run_program "$cases/$name.vrp")
    done
    ratio=$(awk -v a="$own" -v b="$shared" 'BEGIN { printf "%.2f", a / b }')
    echo "$name: $own seconds alone, $shared as a worker; ratio $ratio"
done
