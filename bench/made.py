#!/usr/bin/env python3
"""Files of 100 to 1,000 customers, made as those of the X set by Uchoa and others (2017): half of the customers lie anywhere in a
square, the others about a few seeds, and the capacity is such that routes have about as many customers as wanted.

    python3 bench/made.py FOLDER      # writes them there; those in bench/data came of it
"""

import math
import os
import random
import sys

# The side of the square.
SIDE = 1_000
# How far from a seed customers crowd.
CROWD = 40
# Customers, customers to a route, where the depot is, and the least and the greatest demand.
FILES = [
    (100, 15, "random", 1, 100),
    (200, 5, "central", 1, 100),
    (300, 8, "random", 5, 10),
    (1_000, 10, "central", 5, 10),
    (1_000, 5, "central", 1, 100),
    (1_000, 15, "central", 1, 100),
]


def points_of(dice, customers, depot):
    """The depot, and then the customers, no two in one point."""
    middle = (SIDE // 2, SIDE // 2)
    anywhere = lambda: (dice.randint(0, SIDE), dice.randint(0, SIDE))
    points = [middle if depot == "central" else anywhere()]
    seeds = []

    def is_near_a_seed(point):
        return dice.random() <= sum(math.exp(-math.dist(point, seed) / CROWD) for seed in seeds)

    count = dice.randint(3, 8)
    while len(points) <= customers:
        point = anywhere()
        is_free = point not in points
        if len(points) <= customers // 2:
            if is_free:
                points.append(point)
                if len(seeds) < count:
                    seeds.append(point)
        elif is_free and is_near_a_seed(point):
            points.append(point)
    return points


def made_file(customers, to_a_route, depot, least, greatest):
    """A file of this many customers."""
    dice = random.Random(f"{customers} {to_a_route}")
    points = points_of(dice, customers, depot)
    demands = [0] + [dice.randint(least, greatest) for _ in range(customers)]
    capacity = max(-(-sum(demands) * to_a_route // customers), greatest)
    rows = "".join(f"{node} {east} {north}\n" for node, (east, north) in enumerate(points, 1))
    wanted = "".join(f"{node} {demand}\n" for node, demand in enumerate(demands, 1))
    return (f"NAME : made-{customers}-{to_a_route}\nTYPE : CVRP\nDIMENSION : {customers + 1}\nEDGE_WEIGHT_TYPE : EUC_2D\n"
            f"CAPACITY : {capacity}\nNODE_COORD_SECTION\n{rows}DEMAND_SECTION\n{wanted}DEPOT_SECTION\n1\n-1\nEOF\n")


def main():
    folder = sys.argv[1]
    os.makedirs(folder, exist_ok=True)
    for row in FILES:
        with open(os.path.join(folder, f"made-{row[0]}-{row[1]}.vrp"), "w", encoding="ascii") as out:
            out.write(made_file(*row))


if __name__ == "__main__":
    main()
