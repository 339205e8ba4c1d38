#!/usr/bin/env bash
# Times reading, by `bench search` with a budget of one partial plan: it reads the file, makes the instance,
# and looks at the empty plan alone. Files of 1,200 nodes beside a plain reference in Rust (bench/reference.rs), and 16 MiB of
# anything. Prints seconds, the ratio and the memory; needs the Rattle kit's command rt, rustc, python3 and GNU time.
set -eu
top=$(cd "$(dirname "$0")/.." && pwd)
program=$("$top/bench/build.sh")
room=$(mktemp -d)
trap 'rm -rf "$room"' EXIT
rustc -O -o "$room/reference" "$top/bench/reference.rs"
python3 - "$program" "$room" <<'PY'
import random, subprocess, sys, time

program, room = sys.argv[1], sys.argv[2]
random.seed(1)
count = 1200
most = 16 * 1024 * 1024
place = lambda: random.randint(-100_000_000, 100_000_000)
head = ["TYPE : CVRP", f"DIMENSION : {count}", "CAPACITY : 1000000000"]
tail = ["DEMAND_SECTION"] + [f"{k} {0 if k == 1 else random.randint(0, 10**9)}" for k in range(1, count + 1)]
tail += ["DEPOT_SECTION", "1", "-1", "EOF"]
points = ["EDGE_WEIGHT_TYPE : EUC_2D", "NODE_COORD_SECTION"] + [f"{k} {place()} {place()}" for k in range(1, count + 1)]
rows = [[str(random.randint(0, 99_999)) for _ in range(count)] for _ in range(count)]
matrix = ["EDGE_WEIGHT_TYPE : EXPLICIT", "EDGE_WEIGHT_FORMAT : FULL_MATRIX", "EDGE_WEIGHT_SECTION"]

def joined(*parts):
    return ("\n".join(line for part in parts for line in part) + "\n").encode()

files = {
    "points of 1,200 nodes": joined(head, points, tail),
    "FULL_MATRIX of 1,200 nodes": joined(head, matrix, [" ".join(row) for row in rows], tail),
}
odd = {
    "FULL_MATRIX of 1,200 nodes, numbers as 123.00": joined(head, matrix, [" ".join(w + ".00" for w in row) for row in rows], tail),
    "16 MiB of blanks": b" " * most,
    "16 MiB of line feeds": b"\n" * most,
    "16 MiB of digits, outside a section": b"1" * most,
    "16 MiB of digits in a section": b"DEPOT_SECTION\n" + b"1" * (most - 14),
    "16 MiB of short numbers in a section": b"DEPOT_SECTION\n" + b"1 " * (most // 2 - 7),
    "16 MiB of remarks": b"NAME\n" * (most // 5),
    "16 MiB of skipped data": b"DISPLAY_DATA_SECTION\n" + b"7\n" * (most // 2 - 20),
    "16 MiB of zero bytes": bytes(most),
    "one byte more than 16 MiB": b"\n" * (most + 1),
}

def measured(command):
    best = None
    for _ in range(10):
        start = time.perf_counter()
        done = subprocess.run(command, stdout=subprocess.PIPE, stderr=subprocess.PIPE)
        took = time.perf_counter() - start
        best = took if best is None else min(best, took)
    asked = subprocess.run(["time", "-f", "%M"] + command, stdout=subprocess.DEVNULL, stderr=subprocess.PIPE)
    return best, done, int(asked.stderr.split()[-1]) // 1024

for name, data in (files | odd).items():
    path = f"{room}/input"
    with open(path, "wb") as file:
        file.write(data)
    ours, done, memory = measured([program, "search", path, "1"])
    answer = "an instance" if done.returncode == 0 else done.stderr.decode().strip()
    print(f"{name} ({len(data) / 2**20:.1f} MiB): {ours:.3f} s, {memory} MiB, {answer}")
    if name in files:
        theirs, wanted, _ = measured([f"{room}/reference", path])
        assert done.stdout.endswith(wanted.stdout), "the two costs differ"
        print(f"    reference: {theirs:.3f} s, ratio {ours / theirs:.2f}")
PY
