#!/usr/bin/env python3
"""Plans to begin with, in odd spellings and damaged: what the program says of each with --check, beside a second reader here.

    python3 compare/plans.py [PLANS [SEED]]      # 1,000 plans and seed 1, if nothing is said
"""

import os
import random
import subprocess
import sys
import tempfile
from collections import Counter

from slow_judge import is_symmetric, plan_cost
from slow_reader import Refused, numeral, outcome, whole, words

TOP = os.path.dirname(os.path.dirname(os.path.abspath(__file__)))
PROGRAM = os.path.join(TOP, "crates", "cvrp", "out", "cvrp")
# How far from 0 a number of a plan may lie.
MOST = 10**18
BYTES = b"0123456789 \t\r\n#:.-+eERrCcost\x00\xff"


def refuse_line(line):
    raise Refused(f"line {line}: neither a route nor a cost")


def number_of(token, least, line):
    """A whole number, or the refusal of its line."""
    try:
        return whole(token, least, MOST)
    except Refused:
        raise Refused(f"line {line}: bad number") from None


def stated_cost(tokens, line):
    """The cost that a line states."""
    if len(tokens) != 1:
        refuse_line(line)
    value = numeral(tokens[0])
    if value is None or (value.denominator == 1 and not 0 <= value <= MOST):
        raise Refused(f"line {line}: bad number")
    return value


def route_number(heading, line):
    """The number in the heading of a route."""
    tokens = words(heading)[1:]
    if tokens and tokens[0].startswith(b"#"):
        tokens = ([tokens[0][1:]] if tokens[0] != b"#" else []) + tokens[1:]
    if len(tokens) != 1:
        refuse_line(line)
    return number_of(tokens[0], 0, line)


def read(text, customers):
    """The routes of a text, each with its number, and the cost that it states, if any."""
    routes, cost = [], None
    for line, spelled in enumerate(text.split(b"\n"), 1):
        tokens = words(spelled)
        if not tokens:
            continue
        first = tokens[0][:-1] if tokens[0].endswith(b":") else tokens[0]
        if first.lower() == b"cost":
            stated = stated_cost(tokens[1:], line)
            if cost is not None:
                raise Refused(f"line {line}: repeated cost")
            cost = stated
        elif first.lower() == b"route" and b":" in spelled:
            heading, behind = spelled.split(b":", 1)
            number = route_number(heading, line)
            stops = []
            for token in words(behind):
                stops.append(number_of(token, -MOST, line))
                if not 1 <= stops[-1] <= customers:
                    raise Refused(f"route {number}: {stops[-1]} is not a customer")
            if stops:
                routes.append((number, stops))
        else:
            refuse_line(line)
    return routes, cost


def check(problem, routes, trucks):
    """Refuses routes that are no lawful plan."""
    served = set()
    for number, stops in routes:
        for stop in stops:
            if stop in served:
                raise Refused(f"route {number}: customer {stop} is served twice")
            served.add(stop)
        load = sum(problem.demands[place_node(problem, stop)] for stop in stops)
        if load > problem.capacity:
            raise Refused(f"route {number}: load {load} above capacity {problem.capacity}")
    for customer in range(1, len(problem.customers) + 1):
        if customer not in served:
            raise Refused(f"customer {customer} is not served")
    if trucks is not None and len(routes) > trucks:
        raise Refused(f"{len(routes)} routes, more than there are trucks")


def place_node(problem, place):
    """The node of a customer by its number in a plan."""
    return sorted(problem.customers)[place - 1]


def wanted(problem, text, trucks):
    """What the program has to do: its exit status, its report, and what it tells on standard error."""
    try:
        routes, stated = read(text, len(problem.customers))
        check(problem, routes, trucks)
    except Refused as refusal:
        return 3, "", f"cvrp: start plan: {refusal}\n"
    nodes = [[place_node(problem, stop) for stop in stops] for _, stops in routes]
    cost = plan_cost(problem, nodes)
    if is_symmetric(problem):
        nodes = [route if route[0] <= route[-1] else route[::-1] for route in nodes]
    lines = [f"Route #{k}: {' '.join(map(str, route))}\n" for k, route in enumerate(sorted(nodes), 1)]
    told = "" if stated in (None, cost) else f"cvrp: start plan: it states another cost than its true one, {cost}\n"
    return 0, "".join(lines) + f"Cost {cost}\nLawful\n", told


def some_plan(dice, problem):
    """A plan in some spelling, lawful as a rule: now and then trucks carry too much."""
    most = problem.capacity * dice.choice([1] * 9 + [2])
    stops = list(range(1, len(problem.customers) + 1))
    dice.shuffle(stops)
    routes, load = [], most + 1
    for stop in stops:
        demand = problem.demands[place_node(problem, stop)]
        if load + demand > most or dice.randrange(5) == 0:
            routes, load = routes + [[]], 0
        routes[-1].append(stop)
        load += demand
    end = dice.choice(["\n", "\r\n", "\n\n", " \n"])
    word = dice.choice(["Route #{}:", "route #{}:", "Route {} :", "ROUTE # {}:"])
    lines = [f"{word.format(k)} {' '.join(map(str, route))}" for k, route in enumerate(routes, 1)]
    cost = plan_cost(problem, [[place_node(problem, stop) for stop in route] for route in routes])
    lines += dice.choice([[], [f"Cost {cost}"], [f"cost {cost}.0"], [f"Cost: {cost}"], [f"Cost {cost + 1}"]])
    return (end.join(lines) + dice.choice(["", end])).encode()


def damaged(dice, text):
    """The text with a few bytes changed, left out or doubled."""
    for _ in range(dice.randint(1, 3)):
        at = dice.randrange(len(text) + 1)
        new = dice.choice([b"", bytes([dice.choice(BYTES)]), text[at:at + 4] * 2])
        text = text[:at] + new + text[at + dice.randrange(3):]
    return text


def told(path, data, trucks):
    """What the program does."""
    limit = [] if trucks is None else ["--trucks", str(trucks)]
    ran = subprocess.run([PROGRAM, "--start", path, "--check"] + limit, input=data, capture_output=True)
    return ran.returncode, ran.stdout.decode(), ran.stderr.decode()


def main():
    count = int(sys.argv[1]) if len(sys.argv) > 1 else 1_000
    dice = random.Random(sys.argv[2] if len(sys.argv) > 2 else "1")
    names = ["three-nodes", "E-n7-k2", "02-asym6-full", "11-euc9-depot6", "E-n13-k4", "E-n22-k4"]
    files = [open(os.path.join(TOP, "examples", name + ".vrp"), "rb").read() for name in names]
    problems = [(data, outcome(data)[0]) for data in files]
    seen, differences = Counter(), 0
    with tempfile.TemporaryDirectory() as room:
        path = os.path.join(room, "plan.sol")
        for index in range(count):
            data, problem = dice.choice(problems)
            text = some_plan(dice, problem)
            if index % 4 != 0:
                text = damaged(dice, text)
            trucks = dice.choice([None, None, 1, 3])
            with open(path, "wb") as file:
                file.write(text)
            expected, found = wanted(problem, text, trucks), told(path, data, trucks)
            seen[expected[0], " ".join(word for word in expected[2].split() if word.strip(":-,").isalpha())] += 1
            if expected != found:
                differences += 1
                print(text, trucks, expected, found, sep="\n", flush=True)
    for (status, line), times in sorted(seen.items()):
        print(f"{times:6} status {status} {line}")
    print(f"{count} plans, {differences} differences")


if __name__ == "__main__":
    main()
