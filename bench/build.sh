#!/usr/bin/env bash
# Proves and builds the program that the other scripts here time (crates/bench), and prints its path. rt also runs what it has built:
# without words and with nothing on standard input, the program does nothing.
set -eu
top=$(cd "$(dirname "$0")/.." && pwd)
(cd "$top/crates/bench" && rt run) < /dev/null >&2
echo "$top/crates/bench/out/bench"
