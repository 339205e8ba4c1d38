#!/usr/bin/env python3
"""Files of large capacity, whose demands have no common divisor, cut into as many pieces as there may be.

    python3 compare/large.py [SEED]      # runs them one by one for at most a minute each, and prints what each takes
"""

import os
import random
import subprocess
import sys
import time
from functools import reduce
from math import gcd

PROGRAM = os.path.join(os.path.dirname(os.path.dirname(os.path.abspath(__file__))), "crates", "cvrp", "out", "cvrp")
CUSTOMERS = [7, 8, 32]
CAPACITIES = [970, 1_800, 2_503, 4_688]
BUDGETS = [1, 1_000, 5_000, 100_000]
MOST_PIECES = 65_536
# How many seconds a run has.
LONG = 60


def large_file(seed, customers, capacity):
    """A file of this many customers and this capacity, of which a truck carries two to five."""
    dice = random.Random(f"{seed} {customers} {capacity}")
    demands = [0] + [dice.randint(capacity // 6, capacity // 2) for _ in range(customers)]
    while reduce(gcd, demands) > 1:
        demands[1] += 1
    nodes = range(1, customers + 2)
    points = "".join(f"{node} {dice.randrange(100)} {dice.randrange(100)}\n" for node in nodes)
    rows = "".join(f"{node} {demands[node - 1]}\n" for node in nodes)
    return (f"TYPE : CVRP\nDIMENSION : {customers + 1}\nEDGE_WEIGHT_TYPE : EUC_2D\nCAPACITY : {capacity}\nNODE_COORD_SECTION\n"
            f"{points}DEMAND_SECTION\n{rows}DEPOT_SECTION\n1\n-1\nEOF\n").encode()


def large_files(seed):
    """Each file once for each budget, with the budget."""
    return [(large_file(seed, customers, capacity), budget)
            for customers in CUSTOMERS for capacity in CAPACITIES for budget in BUDGETS]


def told(data, budget):
    """The last line of the report, and the seconds."""
    begun = time.monotonic()
    words = ["--pieces", str(MOST_PIECES), "--budget", str(budget)]
    try:
        printed = subprocess.run([PROGRAM] + words, input=data, capture_output=True, timeout=LONG).stdout
    except subprocess.TimeoutExpired:
        return "not waited for"
    return f"{printed.decode().splitlines()[-1]}, {time.monotonic() - begun:.2f} seconds"


def main():
    seed = sys.argv[1] if len(sys.argv) > 1 else "1"
    for customers in CUSTOMERS:
        for capacity in CAPACITIES:
            data = large_file(seed, customers, capacity)
            for budget in BUDGETS:
                print(f"{customers} customers, {capacity}, budget {budget}: {told(data, budget)}", flush=True)


if __name__ == "__main__":
    main()
