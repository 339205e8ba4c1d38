"""Files by a seed: valid ones in every spelling, each with its problem, and damaged ones."""

import re

from slow_reader import LAYOUTS, METRICS, METRICS_LEFT_OUT, TYPES_LEFT_OUT, LEFT_OUT, KEYS
from slow_reader import cells, distance, problem_of

ODD_TOKENS = [
    "3.5", "1e19", "-1.0", "0x1", "1000000000000000000", "999999999999999999", "1e18", "1e-1", "10e-1", "-10e-1", "-1",
    "0", "-0", "+0", "1", "2", "3", "1201", "1200", "1000000000", "1000000001", "-1000000000", "-1000000001", "100000000",
    "100000001", "-100000000", "-100000001", ".", "+", "-", "+.", "1.2.3", "1e", "1e+", "1e00000", "1e0000", "1e0018",
    "1e0019", "1e-18", "1e-19", ".5", "5.", "+5", "--5", "+-5", "0.000000000000000001", "0.0000000000000000001",
    "0e18", "0e-18", "0.0e5", "000000000000000001", "0000000000000000001", "1E2", "1.5e1", "1.55e1", "15e-1", ":", "1:",
    "e5", "EOF", "1_000", "1,5", "\x00", "1\x00", "\x0b", "\x0c", "\xff", "\u0661", "NaN", "inf", "1/2", "_", "(1)",
    "1e1e1", "1.e1", ".e1", "1e.5", "1e1.0", "-.5e1", "+.5e1", "9223372036854775808", "18446744073709551617", "4294967297",
    "65537", "-65535", "1000000000.5", "1e9", "1e10", "-1e9", "-1e10", "100000000e-1", "1.0000000005e9",
]

# The tokens next to a rule's edge, which the dice are to find often.
EDGE_TOKENS = [
    "100000001", "-100000001", "1000000001", "-1000000001", "-1", "1000000000.5", "-1000000000.5", "123456789012345.75",
    "1e18", "1e19", "1e-18", "1e-19", "0e19", "1e0018", "1e00018", "1e0019", "000000000000000000", "0000000000000000000",
    "1\x0c", "\x0c", "\x0b1", "1\x0b2", "+-1", "1:",
]

# What may stand behind each of these keywords, and what may not.
VALUES = {
    b"TYPE": ["CVRP", "cvrp", "CVRPTW"] + [word.decode() for word in TYPES_LEFT_OUT],
    b"EDGE_WEIGHT_TYPE": ["EXPLICIT", "explicit", "CVRP"] + [word.decode() for word in METRICS + METRICS_LEFT_OUT],
    b"EDGE_WEIGHT_FORMAT": ["FUNCTION", "FUNCTION", "FUNCTION", "function"] + [word.decode() for word in LAYOUTS],
    b"DIMENSION": ["0", "1", "2", "1200", "1201", "-1", "1.5", "3e0", "1e3", "1201e0", "e", "+", "1200.5"],
    b"CAPACITY": ["0", "1", "1000000000", "1000000001", "1e9", "1e10", "0.5", ".", "1000000000.5", "-0"],
}

ODD_VALUES = [word.decode() for word in METRICS_LEFT_OUT + TYPES_LEFT_OUT + METRICS + list(LAYOUTS)] + [
    "EXPLICIT", "FUNCTION", "CVRP", "explicit", "euc_2d", "cvrp", "EUC_2D:", ":EUC_2D", "CVRPX", "CVR", "VRP", "",
    "FULL_MATRI", "FULL_MATRIXX", "GEOM", "ATT\x00",
]

ODD_LINES = [word.decode() for word in LEFT_OUT + KEYS] + [
    "VEHICLES : 2", "DISTANCE : 200", "SERVICE_TIME : 10", "FIXED_EDGES_SECTION : 1", "TOUR_SECTION", "e5", "eof", "EOF:",
    "EOFX", "EOF_", "EOF-1", "EOF", "name : small", "NAME", "NAME:", "COMMENT", "DISPLAY_DATA_SECTION", "5", "-1", "1 2 3",
    "DISPLAY_DATA_SECTION 1", "DISPLAY_DATA_SECTION :", "DISPLAY_DATA_SECTION : :", "NODE_COORD_TYPE : THREED_COORDS",
    "DISPLAY_DATA_TYPE : ?", "_NAME", "9NAME", "NAME2", "TYPE : CVRP", "TYPE : TSP", "DIMENSION : 3", "DIMENSION : 3.0",
    "CAPACITY : 100", "CAPACITY+100", "CAPACITY -1", "EDGE_WEIGHT_TYPE : EXPLICIT", "EDGE_WEIGHT_TYPE : EUC_2D",
    "EDGE_WEIGHT_TYPE : GEO", "EDGE_WEIGHT_FORMAT : FUNCTION", "EDGE_WEIGHT_FORMAT : FULL_MATRIX", "\x0bNAME", "\x00",
    "\xffNAME", ":", ": NAME", "EDGE_WEIGHT_TYPE", "NODE_COORD_SECTION :", "DEMAND_SECTION 1", "DEPOT_SECTION : 1",
]

GARBAGE = ["3.5", "x", "-1", "0x1", ":", "1e99", "\x00", "\xff\xfe", "?", "1", "22", "EOF", "NAME", "\x0b", "CAPACITY"]


def spelled(dice, value):
    """A numeral of this value."""
    sign = "-" if value < 0 else dice.choice(["", "", "", "+"])
    if value == 0:
        sign = dice.choice(["", "", "+", "-"])
    digits = str(abs(value))
    kind = dice.randrange(8)
    if kind < 3:
        text = sign + digits
    elif kind == 3:
        text = sign + "0" * dice.randint(1, 18 - len(digits)) + digits
    elif kind == 4:
        text = sign + digits + "." + "0" * dice.randint(0, 18 - len(digits))
    elif kind == 5:
        places = dice.randint(0, min(18, 18 - len(digits)))
        text = sign + digits + "0" * places + power(dice, -places)
    else:
        places = dice.randint(0, len(digits) + 2)
        padded = digits.rjust(places, "0")
        zeros = "0" * dice.randint(0, 18 - len(padded))
        whole, part = padded[:len(padded) - places], padded[len(padded) - places:]
        text = sign + whole + "." + part + zeros + power(dice, places)
    return text


def power(dice, exponent):
    """A power of ten behind a numeral."""
    if exponent == 0 and dice.randrange(2):
        return ""
    sign = "-" if exponent < 0 else dice.choice(["", "+"])
    if exponent == 0:
        sign = dice.choice(["", "+", "-"])
    digits = str(abs(exponent))
    return dice.choice("eE") + sign + digits.rjust(dice.randint(len(digits), 4), "0")


def spoilt_rows(dice, rows, n):
    """The rows of a section with another node, another amount, or a row or a token more or less."""
    rows = [list(row) for row in rows]
    if not rows:
        return rows
    place = dice.randrange(len(rows))
    kind = dice.randrange(8)
    if kind < 3:
        rows[place][0] = str(dice.choice([0, n + 1, -5, -1, dice.randint(1, n), dice.randint(1, n), 1_000_000_000]))
    elif kind < 6:
        rows[place][-1] = str(dice.choice([0, 1, 2, 50, 1_000_000_000]))
    elif kind == 6:
        rows[place:place + 1] = dice.choice([[], [rows[place], rows[place]]])
    else:
        rows[place] = dice.choice([rows[place][1:], rows[place][:1] + rows[place]])
    return [row for row in rows if row]


class Style:
    """How a file is spelled: its blanks, its line ends, its numerals."""

    def __init__(self, dice, spoils=False):
        self.dice = dice
        # Whether what the file says is spoilt, and its spelling not; and for how many nodes.
        self.spoils = spoils
        self.nodes = 1
        self.is_plain = dice.randrange(3) == 0
        self.end = dice.choice(["\n", "\n", "\r\n"])
        self.spells_oddly = not self.is_plain and dice.randrange(2) == 0

    def number(self, value):
        return spelled(self.dice, value) if self.spells_oddly else str(value)

    def blank(self, least):
        """Some blanks, at least this many."""
        if self.is_plain:
            return " " * least
        count = self.dice.choice([least, least, least, 1, 2, 3])
        return "".join(self.dice.choice("   \t\t\r") for _ in range(max(least, count)))

    def line(self, text):
        """A line of the file, and perhaps a line of blanks behind it."""
        if self.is_plain:
            return text + self.end
        lines = self.blank(0) + text + self.blank(0) + self.end
        while self.dice.randrange(12) == 0:
            lines += self.blank(0) + self.end
        return lines

    def value(self, keyword, value):
        """A keyword's line."""
        if self.is_plain:
            return self.line(f"{keyword} : {value}")
        colon = self.dice.choice([" : ", ":", ": ", " :", " ", "\t", "  :\t"])
        if value[:1] in "+-." and value and self.dice.randrange(4) == 0:
            colon = ""
        behind = self.dice.choice(["", "", "", " trucks", " 5 : 6", "\t\xff\x00"])
        return self.line(keyword + colon + value + behind)

    def section(self, keyword, rows):
        """A section's keyword and its tokens, a row a line or spread as it comes."""
        if self.spoils and self.dice.randrange(3) == 0:
            rows = spoilt_rows(self.dice, rows, self.nodes)
        text = self.line(keyword if self.is_plain else keyword + self.dice.choice(["", "", " :", ":", " : "]))
        if not self.is_plain and self.dice.randrange(3) == 0:
            tokens = [token for row in rows for token in row]
            rows = []
            while tokens:
                count = self.dice.choice([1, 1, 2, 3, 7, len(tokens)])
                rows.append(tokens[:count])
                tokens = tokens[count:]
        for row in rows:
            line = ""
            for token in row:
                line += (self.blank(1) if line else "") + token
            text += self.line(line)
        return text

    def garbage(self):
        """Rows of a section that is not looked at. None begins with a letter."""
        rows = []
        for _ in range(self.dice.randrange(4)):
            row = [self.dice.choice(GARBAGE) for _ in range(self.dice.randint(1, 5))]
            if row[0][0].isascii() and row[0][0].isalpha():
                row[0] = "1" + row[0]
            rows.append(row)
        # A row's tokens may be spread over lines, so no word may come to stand first.
        return [[token if not (token[0].isascii() and token[0].isalpha()) else "(" + token for token in row] for row in rows]


def some_size(dice):
    """How many nodes: few, since the program takes long where there are more than some ten."""
    kind = dice.randrange(100)
    if kind < 60:
        return dice.randint(1, 6)
    if kind < 97:
        return dice.randint(1, 9)
    return dice.randint(1, 60)


def some_number(dice, low, high):
    """A number in a range, often a small one or an end."""
    kind = dice.randrange(10)
    if kind < 6:
        return dice.randint(max(low, -30), min(high, 30))
    if kind < 8:
        return dice.choice([low, high])
    return dice.randint(low, high)


def valid_file(dice, n=None, spoils=False):
    """The bytes of a file, and the problem that it means, where the file is not spoilt."""
    style = Style(dice, spoils)
    n = n or some_size(dice)
    style.nodes = n
    depots = dice.sample(range(1, n + 1), dice.randint(1, min(n, dice.choice([1, 1, 1, 2, 4]))))
    capacity = dice.choice([1, 2, 100, 1_000_000_000, dice.randint(1, 1_000_000_000)])
    demands = [0 if node in depots else some_number(dice, 0, capacity) for node in range(1, n + 1)]
    blocks = [
        style.value("TYPE", "CVRP"),
        style.value("DIMENSION", style.number(n)),
        style.value("CAPACITY", style.number(capacity)),
    ]
    explicit = dice.randrange(2) == 0
    weights, weight_blocks = (matrix_blocks if explicit else point_blocks)(dice, style, n)
    blocks += weight_blocks
    rows = [[style.number(node), style.number(demand)] for node, demand in enumerate(demands, 1)]
    blocks.append(style.section("DEMAND_SECTION", shuffled(dice, style, rows)))
    blocks.append(style.section("DEPOT_SECTION", depot_rows(dice, style, depots)))
    for _ in range(dice.choice([0, 1, 2, 4])):
        blocks.append(some_remark(dice, style))
    if not style.is_plain:
        dice.shuffle(blocks)
    if spoils and dice.randrange(6) == 0:
        del blocks[dice.randrange(len(blocks))]
    problem = problem_of(n, depots, dict(enumerate(demands, 1)), capacity, lambda i, j: weights[i, j])
    return ("".join(blocks) + the_end(dice, style)).encode("latin-1"), problem


def shuffled(dice, style, rows):
    return rows if style.is_plain else dice.sample(rows, len(rows))


def matrix_blocks(dice, style, n):
    """Weights that are listed: their table, and their blocks of lines."""
    layout = dice.choice(list(LAYOUTS))
    weights, rows, first = {}, [], None
    for i, j in cells(layout, n):
        weight = some_number(dice, 0, 1_000_000_000)
        weights[i, j] = weight
        if layout != b"FULL_MATRIX":
            weights[j, i] = weight
        side = i if LAYOUTS[layout][1] == "rows" else j
        if side != first:
            rows.append([])
            first = side
        rows[-1].append(style.number(weight))
    blocks = [
        style.value("EDGE_WEIGHT_TYPE", "EXPLICIT"),
        style.value("EDGE_WEIGHT_FORMAT", layout.decode()),
        style.section("EDGE_WEIGHT_SECTION", rows),
    ]
    if dice.randrange(4) == 0:
        blocks.append(style.section("NODE_COORD_SECTION", style.garbage()))
    return weights, blocks


def point_blocks(dice, style, n):
    """Weights by points: their table, and their blocks of lines."""
    metric = dice.choice(METRICS)
    span = dice.choice([5, 100, 100_000_000])
    points = {node: (some_number(dice, -span, span), some_number(dice, -span, span)) for node in range(1, n + 1)}
    rows = [[style.number(node), style.number(x), style.number(y)] for node, (x, y) in points.items()]
    blocks = [
        style.value("EDGE_WEIGHT_TYPE", metric.decode()),
        style.section("NODE_COORD_SECTION", shuffled(dice, style, rows)),
    ]
    if dice.randrange(4) == 0:
        layout = dice.choice([word.decode() for word in LAYOUTS] + ["FUNCTION"])
        blocks.append(style.value("EDGE_WEIGHT_FORMAT", layout))
    if dice.randrange(4) == 0:
        blocks.append(style.section("EDGE_WEIGHT_SECTION", style.garbage()))
    weights = Distances(metric, points)
    return weights, blocks


class Distances:
    """The table of distances, each computed when it is asked for."""

    def __init__(self, metric, points):
        self.metric, self.points = metric, points

    def __getitem__(self, pair):
        return distance(self.metric, self.points[pair[0]], self.points[pair[1]])


def depot_rows(dice, style, depots):
    """The depots, some of them again, and the end of their list, which need not stand."""
    listed = depots + [dice.choice(depots) for _ in range(dice.choice([0, 0, 0, 1, 3]))]
    rows = [[style.number(node)] for node in listed]
    if dice.randrange(5):
        rows.append([style.number(-1)])
        for _ in range(dice.choice([0, 0, 0, 0, 1, 3])):
            rows.append([style.number(dice.choice([-1, 0, 5, 1201, 1_000_000_000, -1_000_000_000]))])
    return rows


def some_remark(dice, style):
    keyword = dice.choice(["NAME", "COMMENT", "COMMENT", "NODE_COORD_TYPE", "DISPLAY_DATA_TYPE", "DISPLAY_DATA_SECTION"])
    if keyword == "DISPLAY_DATA_SECTION":
        return style.section(keyword, style.garbage())
    return style.value(keyword, dice.choice(["", "x", "TWOD_COORDS", "three nodes: (1, 2)", "\xff\x00\x0b", "EOF", "3.5"]))


def spoilt_file(dice):
    """The bytes of a file that may say what no file may, mostly in lawful lines."""
    return valid_file(dice, None, True)[0]


def the_end(dice, style):
    """What stands at the end of a file, if anything does."""
    kind = dice.randrange(6)
    if kind == 0:
        return ""
    if kind == 1:
        return "EOF"
    if kind == 2:
        return style.line(dice.choice(["EOF", "EOF:", " EOF 5", "EOF-1", "EOF : x"])) + "VEHICLES : 2\n1 2 3\nTYPE : TSP"
    return style.line("EOF")


def damaged(dice, data):
    """The file with some damage done to it, once or a few times."""
    for _ in range(dice.choice([1, 1, 1, 2, 3])):
        data = dice.choice(DAMAGES)(dice, data)
    return data


def byte_damage(dice, data):
    if not data:
        return data
    place = dice.randrange(len(data))
    some = bytes([dice.choice([dice.randrange(256), dice.choice(b" \t\r\n:.-+eE0123456789_ABYZaz")])])
    kind = dice.randrange(4)
    if kind == 0:
        return data[:place] + some + data[place + 1:]
    if kind == 1:
        return data[:place] + data[place + 1:]
    if kind == 2:
        return data[:place] + some + data[place:]
    return data[:place + 1] + data[place:]


def line_damage(dice, data):
    lines = data.split(b"\n")
    place, other = dice.randrange(len(lines)), dice.randrange(len(lines))
    kind = dice.randrange(4)
    if kind == 0:
        del lines[place]
    elif kind == 1:
        lines.insert(other, lines[place])
    elif kind == 2:
        lines[place], lines[other] = lines[other], lines[place]
    else:
        lines.insert(place, dice.choice(ODD_LINES).encode("utf-8"))
    return b"\n".join(lines)


def cut_damage(dice, data):
    return data[:dice.randrange(len(data) + 1)]


def token_damage(dice, data):
    """A token that is no word gets another one's place."""
    tokens = list(re.finditer(rb"(?m)(?<![^ \t\r\n])[0-9+.-][^ \t\r\n]*", data))
    if not tokens:
        return data
    token = dice.choice(tokens)
    odd = dice.choice(dice.choice([ODD_TOKENS, EDGE_TOKENS])).encode("utf-8")
    if dice.randrange(4) == 0:
        odd = dice.choice(tokens).group()
    return data[:token.start()] + odd + data[token.end():]


def count_damage(dice, data):
    """A token more or less."""
    tokens = list(re.finditer(rb"(?<![^ \t\r\n])[0-9+.-][^ \t\r\n]*", data))
    if not tokens:
        return data
    token = dice.choice(tokens)
    if dice.randrange(2):
        return data[:token.start()] + data[token.end():]
    return data[:token.end()] + b" " + dice.choice(tokens).group() + data[token.end():]


def keyword_damage(dice, data):
    """A keyword in small letters, or another one in its place, or another value."""
    keywords = list(re.finditer(rb"(?m)^[ \t\r]*([A-Z][A-Z0-9_]*)([ \t\r]*:?[ \t\r]*)([^ \t\r\n]*)", data))
    if not keywords:
        return data
    found = dice.choice(keywords)
    kind = dice.randrange(4)
    if kind == 0:
        return data[:found.start(1)] + found.group(1).lower() + data[found.end(1):]
    if kind == 1:
        return data[:found.start(1)] + dice.choice(LEFT_OUT + KEYS) + data[found.end(1):]
    values = ODD_VALUES if kind == 2 else ODD_TOKENS
    return data[:found.start(3)] + dice.choice(values).encode("utf-8") + data[found.end(3):]


def value_damage(dice, data):
    """Another value behind a keyword that has one."""
    keyword = dice.choice(list(VALUES))
    found = re.search(rb"(?m)^[ \t\r]*" + keyword + rb"(?![A-Z_])[ \t\r]*:?[ \t\r]*([^ \t\r\n]*)", data)
    if found is None:
        return data
    return data[:found.start(1)] + dice.choice(VALUES[keyword]).encode() + data[found.end(1):]


def kind_damage(dice, data):
    """The line that says how weights are given stands elsewhere, perhaps behind the end, or another one beside it."""
    lines = data.split(b"\n")
    places = [place for place, line in enumerate(lines) if b"EDGE_WEIGHT_TYPE" in line]
    if places and dice.randrange(2):
        moved = lines.pop(dice.choice(places))
    else:
        moved = b"EDGE_WEIGHT_TYPE : " + dice.choice([b"EXPLICIT", b"EUC_2D", b"explicit", b"GEO", b""])
    lines.insert(dice.choice([0, len(lines), dice.randint(0, len(lines))]), moved)
    data = b"\n".join(lines)
    return dice.choice([value_damage, token_damage, kept, line_damage])(dice, data)


def kept(_, data):
    return data


DAMAGES = [
    byte_damage, byte_damage, line_damage, cut_damage, token_damage, token_damage, count_damage, keyword_damage,
    value_damage, kind_damage,
]


def fixed_files():
    """The files at the edges that no dice find: how long a file may be, how many nodes, how large the numbers."""
    small = (b"TYPE : CVRP\nDIMENSION : 2\nEDGE_WEIGHT_TYPE : EUC_2D\nCAPACITY : 1\nNODE_COORD_SECTION\n1 0 0\n2 3 4\n"
             b"DEMAND_SECTION\n1 0\n2 1\nDEPOT_SECTION\n1\n-1\n")
    most = 16_777_216
    files = [b"", b"\n", small, small + b" " * (most - len(small)), small + b" " * (most - len(small) + 1),
             small + b"EOF\n" + b"x" * (most - len(small) - 4), small + b"EOF\n" + b"x" * (most - len(small) - 3),
             b"\n" * most, b"\n" * (most + 1), b"x" * most, b"x" * (2 * most), b"5" * most,
             b"TYPE : CVRP\nDEPOT_SECTION\n" + b"1 " * 8_000_000, small[:-3] + b"2 1\n" * 100_000,
             b"DEMAND_SECTION\n" + b"1 0\n" * 1_000_000, b"NODE_COORD_SECTION\n" + b"1 0 0\n" * 600_000 + b"1 0 .5\n"]
    for kinds in [b"EUC_2D EXPLICIT", b"EXPLICIT EUC_2D", b"explicit EXPLICIT", b"GEO EXPLICIT", b"EXPLICIT GEO"]:
        first, second = kinds.split()
        for line in [b"EDGE_WEIGHT_FORMAT : FUNCTION", b"NODE_COORD_SECTION\n1 .5", b"EDGE_WEIGHT_SECTION\n.5"]:
            files.append(b"%s\nEDGE_WEIGHT_TYPE : %s\nEDGE_WEIGHT_TYPE : %s\n" % (line, first, second))
            files.append(b"%s\nEOF\nEDGE_WEIGHT_TYPE : %s\n" % (line, first))
    for word in TYPES_LEFT_OUT + METRICS_LEFT_OUT:
        files += [small.replace(b"CVRP", word), small.replace(b"EUC_2D", word)]
    for n in [1_199, 1_200, 1_201]:
        rows = b"".join(b"%d %d %d\n" % (node, node * 80_000, -node * 70_001) for node in range(1, n + 1))
        demands = b"".join(b"%d %d\n" % (node, 0 if node == n else 1_000_000_000) for node in range(1, n + 1))
        for metric in METRICS:
            files.append(b"DEPOT_SECTION\n%d\n-1\nTYPE : CVRP\nDIMENSION : %d\nEDGE_WEIGHT_TYPE : %s\nCAPACITY : 1000000000\n"
                         b"NODE_COORD_SECTION\n%sDEMAND_SECTION\n%sEOF\n" % (n, n, metric, rows, demands))
    return files
