"""What a CVRP file means, read slowly: the problem, or why the file is refused."""

import re
from collections import namedtuple
from fractions import Fraction

MOST_BYTES = 16_777_216
MOST_NODES = 1_200
MOST = 1_000_000_000
MOST_COORDINATE = 100_000_000

BLANKS = b" \t\r"
REMARKS = [b"NAME", b"COMMENT", b"NODE_COORD_TYPE", b"DISPLAY_DATA_TYPE"]
SECTIONS = [b"NODE_COORD_SECTION", b"EDGE_WEIGHT_SECTION", b"DEMAND_SECTION", b"DEPOT_SECTION"]
DISPLAY = b"DISPLAY_DATA_SECTION"
# The keywords that may stand once, in the order in which they are missed.
KEYS = [b"TYPE", b"DIMENSION", b"CAPACITY", b"EDGE_WEIGHT_TYPE", b"EDGE_WEIGHT_FORMAT"] + SECTIONS
LEFT_OUT = [b"EDGE_DATA_FORMAT", b"EDGE_DATA_SECTION", b"FIXED_EDGES_SECTION", b"TOUR_SECTION"]
TYPES_LEFT_OUT = [b"TSP", b"ATSP", b"SOP", b"HCP", b"TOUR"]
METRICS = [b"EUC_2D", b"CEIL_2D", b"MAN_2D", b"MAX_2D", b"ATT"]
METRICS_LEFT_OUT = [b"EUC_3D", b"MAX_3D", b"MAN_3D", b"GEO", b"XRAY1", b"XRAY2", b"SPECIAL"]

# Which cells a layout lists, and whether by rows or by columns.
LAYOUTS = {
    b"FULL_MATRIX": (lambda i, j: True, "rows"),
    b"UPPER_ROW": (lambda i, j: i < j, "rows"),
    b"LOWER_ROW": (lambda i, j: i > j, "rows"),
    b"UPPER_DIAG_ROW": (lambda i, j: i <= j, "rows"),
    b"LOWER_DIAG_ROW": (lambda i, j: i >= j, "rows"),
    b"UPPER_COL": (lambda i, j: i < j, "columns"),
    b"LOWER_COL": (lambda i, j: i > j, "columns"),
    b"UPPER_DIAG_COL": (lambda i, j: i <= j, "columns"),
    b"LOWER_DIAG_COL": (lambda i, j: i >= j, "columns"),
}


# The depot; the other nodes that are no depots, by rising number; the demand of each node; and a function from two nodes.
Problem = namedtuple("Problem", "depot customers demands capacity weight")


class Refused(Exception):
    """The file is refused, and its text says why."""


def cells(layout, n):
    """The cells that a layout lists, in its order."""
    is_listed, order = LAYOUTS[layout]
    nodes = range(1, n + 1)
    if order == "rows":
        return [(i, j) for i in nodes for j in nodes if is_listed(i, j)]
    return [(i, j) for j in nodes for i in nodes if is_listed(i, j)]


def numeral(token):
    """The exact value of a numeral, or None."""
    found = re.fullmatch(rb"([+-]?)([0-9]*)(\.?)([0-9]*)(?:[eE]([+-]?)([0-9]{1,4}))?", token)
    if found is None:
        return None
    sign, before, _, after, power_sign, power = found.groups()
    if not 1 <= len(before + after) <= 18:
        return None
    exponent = int(power or b"0")
    if exponent > 18:
        return None
    if power_sign == b"-":
        exponent = -exponent
    value = Fraction(int(before + after)) * Fraction(10) ** (exponent - len(after))
    return -value if sign == b"-" else value


def whole(token, low, high):
    """The whole number that a token is, from low to high; or else the fault."""
    value = numeral(token)
    if value is None:
        raise Refused("bad number")
    if value.denominator != 1:
        raise Refused("number is not whole")
    if not low <= value <= high:
        raise Refused("bad number")
    return int(value)


def words(line):
    """The tokens of a line."""
    return re.findall(rb"[^ \t\r]+", line)


def keyword_line(line):
    """The keyword of a line and what stands behind it, or None where the line is no keyword line."""
    found = re.match(rb"[ \t\r]*([A-Za-z][A-Za-z0-9_]*)[ \t\r]*:?[ \t\r]*", line)
    return None if found is None else (found.group(1), line[found.end():])


def is_explicit(lines):
    """Whether the first line that says how weights are given says that they are listed."""
    for line in lines:
        keyword, rest = keyword_line(line) or (None, None)
        if keyword == b"EDGE_WEIGHT_TYPE":
            return words(rest)[:1] == [b"EXPLICIT"]
    return False


def before_the_end(data):
    """The lines before the line EOF."""
    lines = []
    for line in data.split(b"\n"):
        if (keyword_line(line) or (None, None))[0] == b"EOF":
            break
        lines.append(line)
    return lines


def value_of(keyword, rest, explicit):
    """The value that a keyword's line gives it; or else the fault."""
    value = (words(rest) or [b""])[0]
    if keyword == b"TYPE":
        if value in TYPES_LEFT_OUT:
            raise Refused("not supported")
        allowed = [b"CVRP"]
    elif keyword == b"EDGE_WEIGHT_TYPE":
        if value in METRICS_LEFT_OUT:
            raise Refused("not supported")
        allowed = METRICS + [b"EXPLICIT"]
    elif keyword == b"EDGE_WEIGHT_FORMAT":
        allowed = list(LAYOUTS) + ([] if explicit else [b"FUNCTION"])
    else:
        try:
            return whole(value, 1, MOST_NODES if keyword == b"DIMENSION" else MOST)
        except Refused:
            raise Refused("bad value")
    if value not in allowed:
        raise Refused("bad value")
    return value


class Reading:
    """What the lines up to here said."""

    def __init__(self, explicit):
        self.explicit = explicit
        self.section = None
        self.values = {}

    def read(self, line):
        """Reads one more line."""
        found = keyword_line(line)
        if found is not None:
            self.keyword(*found)
        elif words(line):
            self.data(words(line))

    def keyword(self, keyword, rest):
        if keyword not in REMARKS + KEYS + LEFT_OUT + [DISPLAY]:
            raise Refused("unknown keyword")
        if keyword in LEFT_OUT:
            raise Refused("not supported")
        if keyword in self.values:
            raise Refused("repeated keyword")
        self.section = None
        if keyword in SECTIONS + [DISPLAY]:
            if words(rest):
                raise Refused("bad value")
            self.section = keyword
        if keyword in SECTIONS:
            self.values[keyword] = []
        elif keyword in KEYS:
            self.values[keyword] = value_of(keyword, rest, self.explicit)

    def data(self, tokens):
        if self.section is None:
            raise Refused("data outside a section")
        skipped = b"NODE_COORD_SECTION" if self.explicit else b"EDGE_WEIGHT_SECTION"
        if self.section in [DISPLAY, skipped]:
            return
        node = (-MOST, MOST)
        amount = (0, MOST)
        coordinate = (-MOST_COORDINATE, MOST_COORDINATE)
        kinds = {
            b"NODE_COORD_SECTION": [node, coordinate, coordinate],
            b"EDGE_WEIGHT_SECTION": [amount],
            b"DEMAND_SECTION": [node, amount],
            b"DEPOT_SECTION": [node],
        }[self.section]
        numbers = self.values[self.section]
        for token in tokens:
            low, high = kinds[len(numbers) % len(kinds)]
            numbers.append(whole(token, low, high))


def unused(explicit):
    """The keywords that such a file does not need."""
    if explicit:
        return [b"NODE_COORD_SECTION"]
    return [b"EDGE_WEIGHT_FORMAT", b"EDGE_WEIGHT_SECTION"]


def values_of(data):
    """The value of each keyword and the numbers of each section, where no line is at fault."""
    lines = before_the_end(data)
    reading = Reading(is_explicit(lines))
    for number, line in enumerate(lines, 1):
        try:
            reading.read(line)
        except Refused as fault:
            raise Refused(f"line {number}: {fault}")
    for key in KEYS:
        if key not in reading.values and key not in unused(reading.explicit):
            raise Refused(f"missing {key.decode()}")
    return reading


def check_counts(reading, depots):
    """Whether each section has as many numbers as it needs."""
    values = reading.values
    n = values[b"DIMENSION"]
    if reading.explicit:
        counts = {b"EDGE_WEIGHT_SECTION": len(cells(values[b"EDGE_WEIGHT_FORMAT"], n))}
    else:
        counts = {b"NODE_COORD_SECTION": 3 * n}
    counts[b"DEMAND_SECTION"] = 2 * n
    for key, count in counts.items():
        if len(values[key]) != count:
            raise Refused(f"wrong count in {key.decode()}")
    if not depots:
        raise Refused("wrong count in DEPOT_SECTION")


def check_nodes(key, nodes, n, once):
    """Whether the nodes that a section names are nodes, each named once where they have to be."""
    for index, node in enumerate(nodes):
        if not 1 <= node <= n or (once and node in nodes[:index]):
            raise Refused(f"bad node {node} in {key.decode()}")


def least(holds):
    """The least whole number from 0 on that has a property, which each greater one has too."""
    high = 1
    while not holds(high):
        high *= 2
    low = 0
    while low < high:
        middle = (low + high) // 2
        if holds(middle):
            high = middle
        else:
            low = middle + 1
    return low


def distance(metric, start, end):
    """The weight between two points."""
    east, north = abs(start[0] - end[0]), abs(start[1] - end[1])
    square = east * east + north * north
    if metric == b"EUC_2D":
        return least(lambda k: 4 * square < (2 * k + 1) ** 2)
    if metric == b"CEIL_2D":
        return least(lambda k: k * k >= square)
    if metric == b"MAN_2D":
        return east + north
    if metric == b"MAX_2D":
        return max(east, north)
    return least(lambda k: 10 * k * k >= square)


def weight_function(reading):
    """The weight from a node to another one."""
    values = reading.values
    if reading.explicit:
        layout = values[b"EDGE_WEIGHT_FORMAT"]
        weights = dict(zip(cells(layout, values[b"DIMENSION"]), values[b"EDGE_WEIGHT_SECTION"]))
        return lambda i, j: weights[i, j] if (i, j) in weights else weights[j, i]
    listed = values[b"NODE_COORD_SECTION"]
    points = {node: point for node, point in zip(listed[0::3], zip(listed[1::3], listed[2::3]))}
    return lambda i, j: distance(values[b"EDGE_WEIGHT_TYPE"], points[i], points[j])


def problem_of(n, depots, demands, capacity, weight, chosen=None):
    """The problem with the chosen one of the depots, or the first of them."""
    depot = depots[0] if chosen is None else chosen
    return Problem(depot, [node for node in range(1, n + 1) if node not in depots], demands, capacity, weight)


def problem(data, chosen):
    """The problem that a file means with the chosen depot, if one is; or else the refusal."""
    if len(data) > MOST_BYTES:
        raise Refused("input too long")
    reading = values_of(data)
    values = reading.values
    n = values[b"DIMENSION"]
    depots = values[b"DEPOT_SECTION"]
    if -1 in depots:
        depots = depots[:depots.index(-1)]
    check_counts(reading, depots)
    if not reading.explicit:
        check_nodes(b"NODE_COORD_SECTION", values[b"NODE_COORD_SECTION"][0::3], n, True)
    demand_section = values[b"DEMAND_SECTION"]
    check_nodes(b"DEMAND_SECTION", demand_section[0::2], n, True)
    check_nodes(b"DEPOT_SECTION", depots, n, False)
    demands = dict(zip(demand_section[0::2], demand_section[1::2]))
    for node in range(1, n + 1):
        if node in depots and demands[node] != 0:
            raise Refused(f"node {node}: a depot has a demand")
    if chosen is not None and chosen not in depots:
        raise Refused(f"node {chosen}: not a depot")
    for node in range(1, n + 1):
        if node not in depots and demands[node] > values[b"CAPACITY"]:
            raise Refused(f"node {node}: demand above capacity")
    return problem_of(n, depots, demands, values[b"CAPACITY"], weight_function(reading), chosen)


def outcome(data, chosen=None):
    """The problem that a file means and None, or None and the text of its refusal. A depot may be chosen."""
    try:
        return problem(data, chosen), None
    except Refused as fault:
        return None, str(fault)
