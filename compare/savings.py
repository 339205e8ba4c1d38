#!/usr/bin/env python3
"""The cost of a plan by savings for each file that is named, computed slowly, beside the cost for each weight of the way saved.

    python3 compare/savings.py [--trucks N] FILE ..
"""

import sys

from slow_judge import is_symmetric, load, plan_cost
from slow_reader import outcome

# How many near neighbours a customer has, and the tenths of its weight that the arc between two customers counts.
NEAR = 40
TENTHS = range(4, 21)


def joints(problem):
    """The pairs of customers of which one is a near neighbour of the other: in a symmetric problem the lower one first, and
    elsewhere in either order."""
    near = {}
    for one in problem.customers:
        others = [node for node in problem.customers if node != one]
        near[one] = set(sorted(others, key=lambda node: (problem.weight(one, node), node))[:NEAR])
    turns = is_symmetric(problem)
    return [(one, other) for one in problem.customers for other in problem.customers
            if (one < other if turns else one != other) and (other in near[one] or one in near[other])]


def saving(problem, one, other, tenths):
    """Ten times what is saved where a truck drives from one customer to another."""
    by_depot = problem.weight(one, problem.depot) + problem.weight(problem.depot, other)
    return 10 * by_depot - tenths * problem.weight(one, other)


def ends_at(route, node, turns):
    """The route so turned that it ends at a node, or None."""
    if route[-1] == node:
        return route
    return route[::-1] if turns and route[0] == node else None


def starts_at(route, node, turns):
    """The route so turned that it starts at a node, or None."""
    if route[0] == node:
        return route
    return route[::-1] if turns and route[-1] == node else None


def joined(problem, pairs, tenths, trucks):
    """The routes that are left when all pairs were looked at, the greatest saving first."""
    turns = is_symmetric(problem)
    routes = {node: [node] for node in problem.customers}
    for one, other in sorted(pairs, key=lambda pair: (-saving(problem, *pair, tenths), pair)):
        if routes[one] is routes[other]:
            continue
        head, tail = ends_at(routes[one], one, turns), starts_at(routes[other], other, turns)
        if head is None or tail is None or load(problem, head) + load(problem, tail) > problem.capacity:
            continue
        many = trucks is not None and len({id(route) for route in routes.values()}) > trucks
        if saving(problem, one, other, 10) < 0 and not many:
            continue
        whole = head + tail
        for node in whole:
            routes[node] = whole
    return list({id(route): route for route in routes.values()}.values())


def savings(problem, trucks=None):
    """The cost of the plan for each weight, None where it has more routes than there are trucks."""
    pairs = joints(problem)
    costs = []
    for tenths in TENTHS:
        routes = joined(problem, pairs, tenths, trucks)
        fits = trucks is None or len(routes) <= trucks
        costs.append(plan_cost(problem, routes) if fits else None)
    return costs


def main(words):
    trucks = None
    if words[:1] == ["--trucks"]:
        trucks, words = int(words[1]), words[2:]
    for name in words:
        with open(name, "rb") as file:
            problem, refusal = outcome(file.read())
        if refusal is not None:
            print(f"{name}: {refusal}")
            continue
        costs = savings(problem, trucks)
        found = [cost for cost in costs if cost is not None]
        print(f"{name}: {min(found) if found else 'no plan'}, by weight {costs}")


if __name__ == "__main__":
    main(sys.argv[1:])
