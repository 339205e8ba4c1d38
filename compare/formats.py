#!/usr/bin/env python3
"""Plans in other forms: what the program prints of an answer as a solution, as JSON and as a picture, beside its report.

    python3 compare/formats.py [FILES [SEED]]      # 400 files and seed 1, if nothing is said
"""

import json
import random
import subprocess
import sys
import tempfile
import xml.etree.ElementTree as xml
from collections import Counter

from compare import PROGRAM, some_file
from slow_judge import load, plan_cost
from slow_reader import Refused, before_the_end, keyword_line, outcome, whole, words

SVG = "{http://www.w3.org/2000/svg}"
# How far from 0 a coordinate may lie.
FAR = 100_000_000
# How many customers have labels, and how many routes a list.
MOST_LABELS, MOST_LISTED = 150, 24


def points_of(data, nodes):
    """The points of these nodes from the first section that has whole coordinates for each, or None."""
    section = None
    for line in before_the_end(data) + [b"EOF"]:
        found = keyword_line(line)
        if found is None:
            if section is not None:
                section += words(line)
            continue
        points = None if section is None else whole_points(section)
        if points is not None and all(node in points for node in nodes):
            return points
        section = [] if found[0] in (b"NODE_COORD_SECTION", b"DISPLAY_DATA_SECTION") else None
    return None


def whole_points(tokens):
    """The points of a section by their nodes, or None where a token is no whole coordinate."""
    try:
        numbers = [whole(token, -FAR, FAR) for token in tokens]
    except Refused:
        return None
    return {node: (x, y) for node, x, y in zip(numbers[::3], numbers[1::3], numbers[2::3])}


def run(data, options, form, more=()):
    """What the program does."""
    given = ["--format", form] + options + list(more)
    ran = subprocess.run([PROGRAM] + given, input=data, capture_output=True, timeout=60)
    return ran.returncode, ran.stdout.decode(), ran.stderr.decode()


def parts_of(report):
    """The routes of a report, its cost and its verdict with the number behind it."""
    *lines, verdict = report.splitlines()
    cost = int(lines.pop().split()[1]) if lines else None
    routes = [[int(node) for node in line.split(":")[1].split()] for line in lines]
    return routes, cost, verdict.split()


def gap_of(cost, bound):
    """By how many hundredths of a percent the bound has to be raised to reach the cost, or None."""
    if cost is None or bound is None or bound == 0 < cost:
        return None
    return 0 if cost <= bound else -((bound - cost) * 10_000 // bound)


def customers_of(problem, route):
    """The customers of a route by their places: from 1 by rising node."""
    return [sorted(problem.customers).index(node) + 1 for node in route]


def route_of(problem, route):
    """A route as the JSON has it."""
    numbers = {"nodes": route, "customers": customers_of(problem, route)}
    return {**numbers, "load": load(problem, route), "cost": plan_cost(problem, [route])}


def name_of(data):
    """What a file calls itself, or None."""
    for line in before_the_end(data):
        keyword, rest = keyword_line(line) or (None, None)
        if keyword == b"NAME":
            try:
                return rest.rstrip(b" \t\r").decode() or None
            except UnicodeDecodeError:
                return None
    return None


def bound_fault(verdict, cost, bound, best):
    """What is wrong with the best lower bound, or None: only of an open answer it may be another than the report's."""
    if verdict != "Open":
        return None if best == bound else f"not {bound} as the best lower bound"
    return None if type(best) is int and bound <= best and (cost is None or best <= cost) else f"{best} as the best lower bound"


def json_fault(problem, data, parts, status, found):
    """What is wrong with what is printed as JSON, or None."""
    routes, cost, verdict = parts
    bound = int(verdict[1]) if verdict[0] == "Open" else cost if verdict[0] == "Proven" else None
    told = json.loads(found[1])
    best = told.pop("best_lower_bound", None)
    fault = bound_fault(verdict[0], cost, bound, best)
    if fault is not None:
        return fault
    wanted = {
        "verdict": verdict[0],
        "cost": cost,
        "lower_bound": bound,
        "gap": gap_of(cost, best),
        "customers": len(problem.customers),
        "capacity": problem.capacity,
        "depot": problem.depot,
        "routes": [route_of(problem, route) for route in routes],
        "name": name_of(data),
        "stated_cost": None,
    }
    if f"cvrp {told.pop('version', None)}\n" != subprocess.run([PROGRAM, "--version"], capture_output=True).stdout.decode():
        return "the version is another"
    options = told.pop("options", None)
    if options is None or sorted(options) != ["budget", "depot", "pieces", "seconds", "trucks", "workers"]:
        return "the options are not as they should be"
    return None if (told, found[0], found[2]) == (wanted, status, "") else f"not {wanted}"


def solution_fault(problem, data, options, parts, status, found):
    """What is wrong with what is printed as a solution, or None. Where it has a plan it is given back to the program."""
    routes, cost, verdict = parts
    if cost is None:
        return None if found == (status, "", f"cvrp: no plan to print: {verdict[0]}\n") else "there is no plan"
    lines = [f"Route #{k}: {' '.join(map(str, customers_of(problem, r)))}\n" for k, r in enumerate(routes, 1)]
    if found != (status, "".join(lines) + f"Cost {cost}\n", ""):
        return "the solution is another"
    with tempfile.NamedTemporaryFile(suffix=".sol") as file:
        file.write(found[1].encode())
        file.flush()
        again = run(data, options, "sol", ["--start", file.name, "--check"])
    return None if again == (0, found[1], "") else f"read as a plan to begin with: {again}"


def picture_fault(problem, data, parts, status, found):
    """What is wrong with what is drawn, or None."""
    routes, _, _ = parts
    points = points_of(data, [problem.depot] + problem.customers)
    if points is None:
        refusal = "cvrp: no picture: the file has no whole coordinates for each node\n"
        return None if found == (3, "", refusal) else "there is nothing to draw"
    if found[0] != status or found[2] != "":
        return "the exit status is another"
    top = xml.fromstring(found[1])
    if len(list(top.iter(SVG + "circle"))) != len(problem.customers):
        return "the customers are others"
    labels = len(problem.customers) + 1 if len(problem.customers) <= MOST_LABELS else 0
    listed = len(routes) if len(routes) <= MOST_LISTED else 0
    if len(list(top.iter(SVG + "text"))) != labels + listed + 1:
        return "the labels are others"
    return room_fault(top) or ways_fault(problem, points, routes, list(top.iter(SVG + "path")))


def room_fault(top):
    """A line of the list or the caption for which the page is too narrow, or None. Letters are three fifths as wide as high."""
    width = int(top.get("viewBox").split()[2])
    listed = [(text, 200) for group in top.iter(SVG + "g") if group.get("font-size") == "200" for text in group.iter(SVG + "text")]
    for text, size in listed + [(text, 280) for text in top.findall(SVG + "text")]:
        if int(text.get("x")) + len(text.text) * size * 3 // 5 > width:
            return f"there is no room for {text.text}"
    return None


def ways_fault(problem, points, routes, paths):
    """What is wrong with the ways that are drawn, or None: where there are many routes, their legs at the depot come first."""
    few = len(routes) <= MOST_LISTED
    legs = [path.get("d") for path in paths if path.get("stroke-dasharray") is None]
    drawn = [path.get("d") for path in paths if path.find(SVG + "title") is not None]
    wanted = [[problem.depot] + route if few else route for route in routes]
    return corners_fault(problem, points, wanted, drawn) or corners_fault(
        problem, points, [] if few else [[route[0], problem.depot, route[-1]] for route in routes], legs
    )


def corners_fault(problem, points, wanted, ways):
    """What is wrong with where the corners lie, or None: the map is as wide or as high as the page, and lies the right way up."""
    nodes = [problem.depot] + problem.customers
    left, top = min(points[n][0] for n in nodes), max(points[n][1] for n in nodes)
    extent = max(max(points[n][0] for n in nodes) - left, top - min(points[n][1] for n in nodes), 1)
    if len(ways) != len(wanted):
        return "the routes are others"
    for nodes, way in zip(wanted, ways):
        corners = [tuple(map(int, corner.split())) for corner in way.strip("MZ").split("L")]
        places = [(400 + (x - left) * 9200 // extent, 400 + (top - y) * 9200 // extent) for x, y in map(points.get, nodes)]
        if corners != places:
            return f"the way through {nodes} lies elsewhere"
    return None


def some_options(dice):
    """Options by which a report is always the same."""
    budget = dice.choice([1, 10, 1_000, 100_000])
    trucks = dice.choice([None, None, None, 1, 2, 5])
    return ["--budget", str(budget)] + ([] if trucks is None else ["--trucks", str(trucks)])


def faults(data, problem, options):
    """What is wrong in each form, by its name."""
    status, report, _ = run(data, options, "report")
    parts = parts_of(report)
    yield "json", json_fault(problem, data, parts, status, run(data, options, "json"))
    yield "sol", solution_fault(problem, data, options, parts, status, run(data, options, "sol"))
    yield "svg", picture_fault(problem, data, parts, status, run(data, options, "svg"))


def main():
    count = int(sys.argv[1]) if len(sys.argv) > 1 else 400
    seed = sys.argv[2] if len(sys.argv) > 2 else "1"
    dice = random.Random(seed)
    seen, differences, index = Counter(), 0, 0
    while sum(seen.values()) < 3 * count:
        data, _ = some_file(seed, index)
        index += 1
        problem, _ = outcome(data)
        if problem is None:
            continue
        options = some_options(dice)
        for form, fault in faults(data, problem, options):
            seen[form] += 1
            if fault is not None:
                differences += 1
                print(form, options, fault, data[:2_000], sep="\n", flush=True)
    print(f"{count} files in three forms, {differences} differences")


if __name__ == "__main__":
    main()
