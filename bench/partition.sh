#!/usr/bin/env bash
# Seeks the cheapest choice among the routes of pools (`bench partition`), each three times, and prints what was found and how
# long the quickest run took. A pool is a file whose first line has a truck's capacity, the cost of the best plan that is known, and each
# customer's demand; each line after it a route's cost and its customers. Choices are sought that cost no more than that plan.
#     bench/partition.sh POOL ..
# Needs the Rattle kit's command rt.
set -eu
top=$(cd "$(dirname "$0")/.." && pwd)
program=$("$top/bench/build.sh")
budget=1000000000000
[ $# -gt 0 ] || set -- "$top/crates/bench/data/P-n16-k8.pool"

# What was found, and then how long it took.
choose() {
    "$program" partition "$1" "$2" "$budget" 2>&1 | tr '\n' ' '
}

for pool in "$@"; do
    cost=$(head -n 1 "$pool" | cut -d ' ' -f 2)
    for _ in 1 2 3; do
        choose "$pool" "$((cost + 1))" | sed 's/ milliseconds *$/\n/'
    done | awk '{ print $NF, $0 }' | sort -g | head -n 1 | cut -d ' ' -f 2- | sed 's/$/ milliseconds/'
done
