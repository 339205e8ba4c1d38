#!/usr/bin/env python3
"""Files in which many plans cost as little: whoever proves a plan, by however many workers and whatever budget, prints the same bytes.

    python3 compare/ties.py [CVRP [FILES [SEED]]]      # crates/cvrp/out/cvrp, 30 files and seed 1, if nothing is said
"""

import os
import random
import subprocess
import sys
from collections import Counter

PROGRAM = os.path.join(os.path.dirname(os.path.dirname(os.path.abspath(__file__))), "crates", "cvrp", "out", "cvrp")
# What a run is asked for beside the trucks.
RUNS = ([["--workers", workers] for workers in ("1", "2", "8")]
        + [["--budget", budget] for budget in ("999", "1000", "20000", "1000000", "100000000")])
# A run that takes longer is not waited for.
SECONDS = 60


def grid_file(dice):
    """A file of 15 to 32 customers on places of a grid, each of whom demands 1, and the words that limit its trucks, if they are limited."""
    customers = dice.randint(15, 32)
    columns = dice.randint(4, 8)
    rows = customers // columns + dice.randint(1, 2)
    step = dice.choice((1, 2, 5, 10))
    places = [(step * east, step * north) for east in range(columns) for north in range(rows)]
    points = dice.sample(places, customers + 1)
    capacity = dice.randint(2, 6)
    nodes = "".join(f"{node} {east} {north}\n" for node, (east, north) in enumerate(points, 1))
    demands = "1 0\n" + "".join(f"{node} 1\n" for node in range(2, customers + 2))
    data = (f"TYPE : CVRP\nDIMENSION : {customers + 1}\nEDGE_WEIGHT_TYPE : EUC_2D\nCAPACITY : {capacity}\n"
            f"NODE_COORD_SECTION\n{nodes}DEMAND_SECTION\n{demands}DEPOT_SECTION\n1\n-1\nEOF\n").encode()
    least = -(-customers // capacity)
    return data, dice.choice(([], ["--trucks", str(least)], ["--trucks", str(least + 1)]))


def answered(program, data, words):
    """The report and its verdict; nothing where the run is not waited for."""
    try:
        ran = subprocess.run([program] + words, input=data, capture_output=True, timeout=SECONDS)
    except subprocess.TimeoutExpired:
        return None
    verdict = ran.stdout.split(b"\n")[-2].split() if ran.stdout else [b"nothing"]
    return ran.stdout, verdict


def cost(report):
    """What a report's plan costs; None where it has none."""
    costs = [int(line[5:]) for line in report.split(b"\n") if line.startswith(b"Cost ")]
    return costs[0] if costs else None


def faults(answers):
    """What is wrong about the answers to one file, as texts. Each answer is a report and its verdict."""
    proven = {report for report, verdict in answers if verdict in ([b"Proven"], [b"NoPlan"])}
    found = [f"{len(proven)} different reports are proven"] if len(proven) > 1 else []
    for report, verdict in answers:
        if verdict[0] not in (b"Proven", b"NoPlan", b"Open"):
            found.append(f"no verdict: {report!r}")
        for other in proven:
            least = cost(other)
            if verdict[0] == b"Open" and least is not None and int(verdict[1]) > least:
                found.append(f"{verdict[1].decode()} is no lower bound of {least}")
            if verdict[0] == b"Open" and cost(report) is not None and (least is None or cost(report) < least):
                found.append(f"a plan of cost {cost(report)} beside the proven {least}")
    return found


def main():
    program = sys.argv[1] if len(sys.argv) > 1 else PROGRAM
    files = int(sys.argv[2]) if len(sys.argv) > 2 else 30
    dice = random.Random(sys.argv[3] if len(sys.argv) > 3 else "1")
    counts, wrong = Counter(), 0
    for number in range(files):
        data, trucks = grid_file(dice)
        told = [answered(program, data, trucks + words) for words in RUNS]
        answers = [answer for answer in told if answer is not None]
        counts["not waited for"] += len(told) - len(answers)
        counts.update(verdict[0].decode() for _, verdict in answers)
        for fault in faults(answers):
            wrong += 1
            print(f"file {number}, {' '.join(trucks)}: {fault}\n{data.decode()}", flush=True)
    print(f"{files} files, {len(RUNS)} runs each: {dict(counts)}; {wrong} differences")
    return 1 if wrong else 0


if __name__ == "__main__":
    sys.exit(main())
