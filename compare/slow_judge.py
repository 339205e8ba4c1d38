"""What is wrong with the program's answer to a problem, judged slowly: its routes, its cost and its verdict."""

import re
from itertools import combinations

# With no more customers the least cost is computed, and the program has to find it. With more of them it may take long.
MOST_CUSTOMERS = 8

# What a missing plan counts as.
NO_COST = 4_000_000_000_000

REPORT = rb"((?:Route #[0-9]+:(?: [0-9]+)+\n)*)Cost ([0-9]+)\n(?:Proven|Open ([0-9]+))\n"

REPORT_WITHOUT_PLAN = rb"(?:NoPlan|Open ([0-9]+))\n"


def fault(problem, status, printed, error, trucks=None, ample=True):
    """What is wrong with an exit status, standard output and standard error, or None. There are this many trucks, or as many as
    are wanted. With an ample budget a problem of few customers has to be solved."""
    if error != b"":
        return "no report"
    missing = re.fullmatch(REPORT_WITHOUT_PLAN, printed)
    if missing is not None:
        lower = None if missing.group(1) is None else int(missing.group(1))
        return fault_without_plan(problem, status, printed, lower, trucks, ample)
    found = re.fullmatch(REPORT, printed)
    if found is None:
        return "no report"
    routes = [[int(node) for node in line.split(b":")[1].split()] for line in found.group(1).splitlines()]
    cost = int(found.group(2))
    lower = None if found.group(3) is None else int(found.group(3))
    firsts = [route[0] for route in routes]
    if printed != text(routes, cost, lower):
        return "numbers are spelled in another way"
    if sorted(node for route in routes for node in route) != problem.customers:
        return "not each customer is served once"
    if trucks is not None and len(routes) > trucks:
        return "there are more routes than trucks"
    if any(load(problem, route) > problem.capacity for route in routes):
        return "a truck is overloaded"
    if firsts != sorted(firsts):
        return "the routes do not rise"
    # Nodes rise as places do among customers, and a route has no other nodes.
    if is_symmetric(problem) and any(route[0] > route[-1] for route in routes):
        return "a route runs backward"
    if cost != plan_cost(problem, routes):
        return "the cost is not that of the routes"
    if has_trucks_for_each(problem, trucks) and cost > plan_cost(problem, [[node] for node in problem.customers]):
        return "one truck for each customer costs less"
    if status != (0 if lower is None else 1):
        return "the verdict has another status"
    if lower is not None and lower > cost:
        return "the lower bound is above the cost"
    if len(problem.customers) <= MOST_CUSTOMERS:
        if lower is not None and ample:
            return "few customers, and nothing proved"
        least = least_cost(problem, trucks)
        if least is None or not (cost if lower is None else lower) <= least <= cost:
            return f"the least cost is {least}"
    return None


def fault_without_plan(problem, status, printed, lower, trucks, ample):
    """What is wrong with a report that has no plan, or None: no number stands for NoPlan."""
    if has_trucks_for_each(problem, trucks):
        return "no plan, and there is a truck for each customer"
    if printed != (b"NoPlan\n" if lower is None else f"Open {lower}\n".encode()):
        return "numbers are spelled in another way"
    if status != (0 if lower is None else 1):
        return "the verdict has another status"
    if lower is not None and lower > NO_COST:
        return "the lower bound is above what a missing plan counts as"
    if len(problem.customers) <= MOST_CUSTOMERS:
        if lower is not None and ample:
            return "few customers, and nothing proved"
        least = least_cost(problem, trucks)
        if least is not None and (lower is None or least < lower):
            return f"there is a plan of cost {least}"
    return None


def has_trucks_for_each(problem, trucks):
    """Whether there is a truck for each customer."""
    return trucks is None or len(problem.customers) <= trucks


def text(routes, cost, lower):
    """A report, letter by letter."""
    lines = [f"Route #{number}: {' '.join(map(str, route))}\n" for number, route in enumerate(routes, 1)]
    verdict = "Proven" if lower is None else f"Open {lower}"
    return ("".join(lines) + f"Cost {cost}\n{verdict}\n").encode()


def load(problem, nodes):
    return sum(problem.demands[node] for node in nodes)


def is_symmetric(problem):
    """Whether there and back cost the same between any two of the depot and the customers."""
    places = [problem.depot] + problem.customers
    return all(problem.weight(start, end) == problem.weight(end, start) for start, end in combinations(places, 2))


def plan_cost(problem, routes):
    """The cost of all ways of some routes, from the depot and back to it."""
    cost = 0
    for route in routes:
        stops = [problem.depot] + route + [problem.depot]
        cost += sum(problem.weight(start, end) for start, end in zip(stops, stops[1:]))
    return cost


def least_cost(problem, trucks=None):
    """The least cost of a plan with this many trucks, or as many as are wanted; None where there is no plan."""
    routes = route_costs(problem)
    if has_trucks_for_each(problem, trucks):
        return plan_costs(problem, routes)[frozenset(problem.customers)]
    plans = {frozenset(): 0}
    for _ in range(trucks):
        plans = with_one_more(problem, routes, plans)
    return plans.get(frozenset(problem.customers))


def sets_of_customers(problem):
    """All sets of customers but the empty one, those with fewer customers first."""
    sizes = range(1, len(problem.customers) + 1)
    return [frozenset(nodes) for size in sizes for nodes in combinations(problem.customers, size)]


def route_costs(problem):
    """The least cost of a route for each set of customers that a truck carries: from that of a walk through the set."""
    depot = problem.depot
    places = [depot] + problem.customers
    ways = {(start, end): problem.weight(start, end) for start in places for end in places if start != end}
    sets = sets_of_customers(problem)
    # From the depot through the set, to one of it at the end.
    walks = {}
    for nodes in sets:
        for last in nodes:
            before = nodes - {last}
            walks[nodes, last] = min((walks[before, node] + ways[node, last] for node in before), default=ways[depot, last])
    return {
        nodes: min(walks[nodes, last] + ways[last, depot] for last in nodes)
        for nodes in sets
        if load(problem, nodes) <= problem.capacity
    }


def plan_costs(problem, routes):
    """The least cost of a plan for each set of customers, with as many trucks as are wanted."""
    plans = {frozenset(): 0}
    for nodes in sets_of_customers(problem):
        # Some route serves the lowest of them.
        first = min(nodes)
        plans[nodes] = min(routes[some] + plans[nodes - some] for some in routes if first in some and some <= nodes)
    return plans


def with_one_more(problem, routes, plans):
    """The least costs with one truck more than in these, for each set of customers that this many trucks can serve."""
    more = {frozenset(): 0}
    for nodes in sets_of_customers(problem):
        first = min(nodes)
        rests = [(some, nodes - some) for some in routes if first in some and some <= nodes]
        costs = [routes[some] + plans[rest] for some, rest in rests if rest in plans]
        if costs:
            more[nodes] = min(costs)
    return more
