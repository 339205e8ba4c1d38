#!/usr/bin/env bash
# Prints for each file of examples/ how many partial plans one worker's search looks at and the seconds, with tables over all customers
# for every piece, and with a piece's own after a first look, over 64 pieces and over 65,536 (`bench search`). A run is ended after
# LIMIT seconds (60, if nothing is said). Needs the Rattle kit's command rt, which builds the program.
set -eu
top=$(cd "$(dirname "$0")/.." && pwd)
limit=${LIMIT:-60}
program=$("$top/bench/build.sh")

# Partial plans and seconds of a run.
measured() {
    timeout "$limit" "$program" search "$@" 2>&1 | sed -n 's/.*: \([0-9]*\) partial plans.*/\1/p; s/^\([0-9.]* seconds\),.*/\1/p' | paste -sd ' '
}

for file in "$top"/examples/*.vrp; do
    for pieces in 64 65536; do
        all=$(measured "$file" 1000000000000 savings "$pieces" all || true)
        own=$(measured "$file" 1000000000000 savings "$pieces" own || true)
        echo "$(basename "$file" .vrp), $pieces pieces: all ${all:-not ended} | own ${own:-not ended}"
    done
done
