#!/usr/bin/env python3
"""Several builds of the program beside each other, over random problems and files: how each run ends, and what it takes.

    python3 compare/versions.py COUNT SEED SECONDS PROGRAM PROGRAM.. [-- FILE..]      # COUNT random problems, then the files
"""

import os
import random
import resource
import subprocess
import sys
from concurrent.futures import ThreadPoolExecutor

# What the random problems are like, and what each kind asks for.
KINDS = ["plain", "long routes", "one truck", "tight trucks", "impossible trucks", "one-way", "zero demands", "huge capacity"]
BUDGETS = ["999", "1000", "10000", "1000000", None, None, None, None]
# How many problems are worked on at once.
PROCESSES = 2


def made_problem(dice, kind):
    """A file of 5 to 60 customers, and the options of its run."""
    customers = dice.randint(5, 60)
    demands = [dice.randint(1, 30) for _ in range(customers)]
    whole = sum(demands)
    routes = 1 if kind == "one truck" else dice.randint(1, 3) if kind == "long routes" else max(2, customers // dice.randint(3, 9))
    capacity = max(max(demands), -(-whole * dice.choice([100, 103, 110, 130]) // (100 * routes)))
    if kind == "zero demands":
        demands = [0 if dice.random() < 0.4 else demand for demand in demands]
    if kind == "huge capacity":
        capacity, demands = capacity * 1_000_003, [demand * 1_000_003 - dice.randrange(1_000) for demand in demands]
    words = []
    if kind in ("tight trucks", "one truck"):
        words = ["--trucks", str(max(1, -(-sum(demands) // capacity)))]
    if kind == "impossible trucks":
        words = ["--trucks", str(max(1, -(-sum(demands) // capacity) - dice.randint(0, 1)))]
    budget = dice.choice(BUDGETS)
    return file_of(dice, kind, demands, capacity), words + (["--budget", budget] if budget else [])


def file_of(dice, kind, demands, capacity):
    """The bytes of a file: points in a square, or weights that differ by direction."""
    nodes = len(demands) + 1
    side = dice.choice([20, 100, 1_000])
    points = [(dice.randint(0, side), dice.randint(0, side)) for _ in range(nodes)]
    head = f"TYPE : CVRP\nDIMENSION : {nodes}\nCAPACITY : {capacity}\n"
    if kind == "one-way":
        rows = "\n".join(" ".join(str(abs(a[0] - b[0]) + abs(a[1] - b[1]) + dice.randint(0, side // 4)) for b in points) for a in points)
        body = f"EDGE_WEIGHT_TYPE : EXPLICIT\nEDGE_WEIGHT_FORMAT : FULL_MATRIX\nEDGE_WEIGHT_SECTION\n{rows}\n"
    else:
        body = "EDGE_WEIGHT_TYPE : EUC_2D\nNODE_COORD_SECTION\n" + "".join(f"{node} {x} {y}\n" for node, (x, y) in enumerate(points, 1))
    rows = "1 0\n" + "".join(f"{node} {demand}\n" for node, demand in enumerate(demands, 2))
    return f"{head}{body}DEMAND_SECTION\n{rows}DEPOT_SECTION\n1\n-1\nEOF\n".encode()


def ended(program, data, words, seconds):
    """The last two lines of the report, or `cut off`, and the processor seconds."""
    limit = lambda: resource.setrlimit(resource.RLIMIT_CPU, (seconds, seconds))
    words = ["/usr/bin/time", "-f", "%U %S", program, "--workers", "1", *words]
    ran = subprocess.run(words, input=data, capture_output=True, preexec_fn=limit)
    last = ran.stderr.decode().splitlines()[-1].split()
    report = " ".join(ran.stdout.decode().splitlines()[-2:]) or "cut off"
    return report, sum(map(float, last))


def compared(number, seed, seconds, programs, files):
    """The row of one problem."""
    if number < len(files):
        name, words = files[number], []
        with open(name, "rb") as it:
            data = it.read()
        name = os.path.basename(name)
    else:
        dice = random.Random(f"{seed} {number - len(files)}")
        kind = KINDS[number % len(KINDS)]
        data, words = made_problem(dice, kind)
        name = f"{kind} {number - len(files)}, {data.count(10) and data.split()[5].decode()} nodes"
    runs = [ended(it, data, words, seconds) for it in programs]
    return f"{name} {' '.join(words)}\t" + "\t".join(f"{report}; {took:.2f}" for report, took in runs)


def main():
    count, seed, seconds = int(sys.argv[1]), sys.argv[2], int(sys.argv[3])
    rest = sys.argv[4:] + ([] if "--" in sys.argv else ["--"])
    programs, files = rest[: rest.index("--")], rest[rest.index("--") + 1 :]
    with ThreadPoolExecutor(PROCESSES) as pool:
        for row in pool.map(lambda number: compared(number, seed, seconds, programs, files), range(len(files) + count)):
            print(row, flush=True)


if __name__ == "__main__":
    main()
