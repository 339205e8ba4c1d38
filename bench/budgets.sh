#!/usr/bin/env bash
# Runs the program on files with small budgets and with the default one, and prints for each run its budget, processor seconds, verdict and
# cost. A smaller budget is saved on the pieces, so where the default one proves a plan by routes, none should take longer.
#     bench/budgets.sh [FILE ..]
# PROGRAM may name a program that is built already. Needs the Rattle kit's command rt, and GNU time.
set -eu
top=$(cd "$(dirname "$0")/.." && pwd)
program=${PROGRAM:-$top/cvrp}
room=$(mktemp -d)
trap 'rm -rf "$room"' EXIT
[ $# -gt 0 ] || set -- "$top"/examples/*.vrp

for file; do
    for budget in default 1000 10000 100000 1000000; do
        options=()
        [ "$budget" = default ] || options=(--budget "$budget")
        /usr/bin/time -f '%U %S' -o "$room/time" "$program" "${options[@]}" < "$file" > "$room/report" 2> "$room/errors" || true
        seconds=$(tail -1 "$room/time" | awk '{ printf "%.2f", $1 + $2 }')
        cost=$(sed -n 's/^Cost //p' "$room/report")
        echo "$(basename "$file") $budget: $seconds s, $(tail -1 "$room/report"), cost ${cost:-none}"
    done
done
uptime
