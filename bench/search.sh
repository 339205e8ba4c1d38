#!/usr/bin/env bash
# Times the proved search (`bench search`) beside a plain kernel in Rust (bench/kernel.rs), with the same budget.
# Prints for each file how many million partial plans each looks at in a second, and the ratio. Both prune by the same bounds,
# keep ties and, in symmetric instances, close routes in one direction alone and stop at partial plans without completion, so the two look at the
# same ones.
# Needs the Rattle kit's command rt, rustc and awk.
set -eu
top=$(cd "$(dirname "$0")/.." && pwd)
cases=$top/crates/check_cases/data
program=$("$top/bench/build.sh")
budget=${1:-100000000}
room=$(mktemp -d)
trap 'rm -rf "$room"' EXIT

rustc -O -o "$room/kernel" "$top/bench/kernel.rs"

# The best of three runs, in millions a second.
best() {
    for _ in 1 2 3; do
        "$@"
    done | sort -g | tail -n 1
}

proved_rate() {
    "$program" search "$1" "$budget" 2>&1 > /dev/null | sed -n 's/.*, \([0-9.]*\) million each second/\1/p'
}

kernel_rate() {
    "$room/kernel" "$budget" < "$1" | sed 's/.* million\/s \([0-9.]*\) .*/\1/'
}

for name in P-n16-k8 E-n22-k4 20-euc12-tight P-n19-k2; do
    ours=$(best proved_rate "$cases/$name.vrp")
    theirs=$(best kernel_rate "$cases/$name.vrp")
    ratio=$(awk -v a="$ours" -v b="$theirs" 'BEGIN { printf "%.2f", a / b }')
    echo "$name: proved $ours, kernel $theirs million each second; ratio $ratio"
done
