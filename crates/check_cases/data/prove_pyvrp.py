#!/usr/bin/env python3
"""Has a plan that PyVRP found proven, or bettered, by the program `cvrp`:

    python3 examples/prove_pyvrp.py           # with cvrp on the PATH
    python3 examples/prove_pyvrp.py ./cvrp    # with the launcher
"""

import sys
from pathlib import Path

HERE = Path(__file__).resolve().parent
sys.path.append(str(HERE.parents[2] / "python"))

import cvrp  # noqa: E402

# What PyVRP found. With PyVRP these are `[route.visits() for route in result.best.routes()]` and `result.cost()`, where `result` is
# `pyvrp.solve(pyvrp.read("examples/E-n51-k5.vrp", "round"), stop=MaxRuntime(1))`.
PLAN = [
    [5, 49, 10, 39, 33, 45, 15, 44, 37, 17, 12],
    [6, 14, 25, 24, 43, 7, 23, 48, 27],
    [8, 26, 31, 28, 3, 36, 35, 20, 22, 1, 32, 46],
    [11, 2, 29, 21, 16, 50, 34, 30, 9, 38],
    [18, 13, 41, 19, 40, 42, 4, 47],
]
COST = 521

solution = cvrp.solve(HERE / "E-n51-k5.vrp", seconds=60, start=PLAN, program=sys.argv[1] if len(sys.argv) > 1 else "cvrp")

print(f"PyVRP's plan costs {COST}, cvrp's {solution.cost}.")
if solution.proven:
    print("That is proven: no lawful plan costs less.")
else:
    print(f"No lawful plan costs less than {solution.best_lower_bound}.")
for route in solution.routes:
    print(*route)
