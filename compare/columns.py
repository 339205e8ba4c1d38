#!/usr/bin/env python3
"""Compares runs that generate columns with a plain slow program: small random problems of 10 and 11 customers, whose trees are too large
for the first look. Half of them cost differently by direction; demands are 1, small, or partly 0. The slow program finds the least cost of
a plan over all sets of customers.

    python3 compare/columns.py SEED SECONDS [PROGRAM]

It prints each problem that is not proven at the least cost, and how many were compared. Problems that end before columns are generated
are not counted.
"""

import os
import random
import subprocess
import sys
import time

NONE = 10 ** 9


def least_tours(weights, demands, capacity):
    """For each set of customers, as bits, the least cost of a route that serves it, or NONE."""
    count = len(demands) - 1
    sets = 1 << count
    load = [0] * sets
    tours = [NONE] * sets
    ends = [[NONE] * count for _ in range(sets)]
    for customer in range(count):
        ends[1 << customer][customer] = weights[0][customer + 1]
    for some in range(1, sets):
        first = (some & -some).bit_length() - 1
        load[some] = load[some & (some - 1)] + demands[first + 1]
        if load[some] > capacity:
            continue
        for last in range(count):
            cost = ends[some][last]
            if cost >= NONE:
                continue
            tours[some] = min(tours[some], cost + weights[last + 1][0])
            for other in range(count):
                if not some >> other & 1:
                    more = some | 1 << other
                    ends[more][other] = min(ends[more][other], cost + weights[last + 1][other + 1])
    return tours


def least_cost(weights, demands, capacity):
    """The least cost of a plan."""
    tours = least_tours(weights, demands, capacity)
    best = [NONE] * len(tours)
    best[0] = 0
    for some in range(1, len(tours)):
        first = some & -some
        part = some ^ first
        while True:
            route = part | first
            best[some] = min(best[some], best[some ^ route] + tours[route])
            if part == 0:
                break
            part = (part - 1) & (some ^ first)
    return best[-1]


def random_problem(dice):
    """Weights, demands and a capacity."""
    count = dice.choice([10, 11])
    places = range(count + 1)
    if dice.random() < 0.6:
        weights = [[0 if i == j else dice.randint(1, 30) for j in places] for i in places]
    else:
        points = [(dice.randint(0, 50), dice.randint(0, 50)) for _ in places]
        weights = [[int(((a - c) ** 2 + (b - d) ** 2) ** 0.5 + 0.5) for c, d in points] for a, b in points]
    least, most = dice.choice([(1, 1), (1, 9), (0, 5)])
    demands = [0] + [dice.randint(least, most) for _ in range(count)]
    return weights, demands, max(max(demands), sum(demands) * dice.choice([3, 4, 5]) // 10)


def file_of(weights, demands, capacity):
    """The problem as a file."""
    rows = "".join(" ".join(map(str, row)) + "\n" for row in weights)
    wanted = "".join(f"{node} {demand}\n" for node, demand in enumerate(demands, 1))
    return (f"TYPE : CVRP\nDIMENSION : {len(demands)}\nEDGE_WEIGHT_TYPE : EXPLICIT\nEDGE_WEIGHT_FORMAT : FULL_MATRIX\n"
            f"CAPACITY : {capacity}\nEDGE_WEIGHT_SECTION\n{rows}DEMAND_SECTION\n{wanted}DEPOT_SECTION\n1\n-1\nEOF\n")


def main():
    dice = random.Random(int(sys.argv[1]))
    end = time.time() + float(sys.argv[2])
    here = os.path.dirname(os.path.abspath(__file__))
    program = sys.argv[3] if len(sys.argv) > 3 else os.path.join(here, "..", "cvrp")
    compared = wrong = 0
    while time.time() < end:
        problem = random_problem(dice)
        text = file_of(*problem)
        ran = subprocess.run([program, "--progress", "--workers", "2"], input=text, capture_output=True, text=True, check=False)
        if "columns" not in ran.stderr:
            continue
        compared += 1
        cost = least_cost(*problem)
        if not ran.stdout.endswith(f"Cost {cost}\nProven\n"):
            wrong += 1
            print(f"the least cost is {cost}:\n{text}{ran.stdout}")
    print(f"{compared} compared, {wrong} wrong")
    sys.exit(wrong > 0 or compared == 0)


if __name__ == "__main__":
    main()
