#!/usr/bin/env python3
"""Files of many customers, each searched for so many seconds: how long a run really takes, and what it ends with.

    python3 compare/seconds.py [SECONDS [SEED]]      # one second, if nothing is said
"""

import os
import random
import subprocess
import sys
import time

PROGRAM = os.path.join(os.path.dirname(os.path.dirname(os.path.abspath(__file__))), "crates", "cvrp", "out", "cvrp")
# Nodes, what a truck carries, and the greatest demand.
SIZES = [(51, 160, 40), (101, 200, 50), (201, 1_000, 100), (601, 1_000_000_000, 400_000_000), (1_200, 100, 20), (1_200, 30_000, 5_000)]


def scattered_file(seed, nodes, capacity, most):
    """Customers anywhere in a square, of any demand."""
    dice = random.Random(f"{seed} {nodes} {capacity}")
    points = "".join(f"{node} {dice.randrange(1_000)} {dice.randrange(1_000)}\n" for node in range(1, nodes + 1))
    rows = "1 0\n" + "".join(f"{node} {dice.randint(1, most)}\n" for node in range(2, nodes + 1))
    return (f"TYPE : CVRP\nDIMENSION : {nodes}\nEDGE_WEIGHT_TYPE : EUC_2D\nCAPACITY : {capacity}\nNODE_COORD_SECTION\n"
            f"{points}DEMAND_SECTION\n{rows}DEPOT_SECTION\n1\n-1\nEOF\n").encode()


def told(data, seconds, words):
    """The status, the last two lines of the report, the last line on standard error, and the seconds."""
    begun = time.monotonic()
    ran = subprocess.run([PROGRAM, "--seconds", seconds] + words, input=data, capture_output=True)
    took = time.monotonic() - begun
    report = " ".join(ran.stdout.decode().splitlines()[-2:])
    lines = ran.stderr.decode().splitlines()
    return f"{took:.2f} seconds, status {ran.returncode}, {report}; {lines[-1] if lines else ''}"


def main():
    seconds = sys.argv[1] if len(sys.argv) > 1 else "1"
    seed = sys.argv[2] if len(sys.argv) > 2 else "1"
    for nodes, capacity, most in SIZES:
        data = scattered_file(seed, nodes, capacity, most)
        for words in ([], ["--workers", "4", "--progress"], ["--pieces", "65536"]):
            print(f"{nodes} nodes, {capacity}, {' '.join(words)}: {told(data, seconds, words)}", flush=True)


if __name__ == "__main__":
    main()
