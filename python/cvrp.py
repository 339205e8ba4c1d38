"""Plans the routes of delivery trucks with the program `cvrp`, and tells whether a plan is proven to be a cheapest one.

    import cvrp

    solution = cvrp.solve("E-n51-k5.vrp", seconds=60, workers=4)
    print(solution.cost, solution.best_lower_bound, solution.proven)

One file, for Python 3.8 and later, without dependencies. The program has to be on the PATH, or is named by `program`.
"""

from __future__ import annotations

import json
import os
import re
import subprocess
import tempfile
from dataclasses import dataclass
from typing import Any, Dict, Iterable, List, Optional, Union

__all__ = ["Instance", "Refused", "Solution", "read", "solve"]

Path = Union[str, "os.PathLike[str]"]
Routes = List[List[int]]

# A file's bytes are kept as they are, whatever encoding its remarks have.
ENCODING, ERRORS = "utf-8", "surrogateescape"

BLANKS = " \t\r"
KEYWORD = re.compile(r"[ \t\r]*([A-Za-z][A-Za-z0-9_]*)[ \t\r]*:?(.*)")


@dataclass(frozen=True)
class Instance:
    """A problem: the text of a TSPLIB file, and what it says of itself.

    `name` and `dimension` (all nodes, depots among them) are None where the text doesn't state them. Only the program looks at the
    rest.
    """

    text: str
    name: Optional[str] = None
    dimension: Optional[int] = None


@dataclass(frozen=True)
class Solution:
    """What a run found.

    `routes` has each route's customers in the order in which they are served, numbered from 1 without the depot, as a .sol file of
    CVRPLIB has them; `nodes` has the same routes by the node numbers of the problem's file. Both are empty, and `cost` is None, where
    no plan is known. No feasible plan costs less than `best_lower_bound`, and `gap` is how far the plan may be above that, in hundredths of
    a percent, rounded up: 0 where it is proven, None where cost or bound is not known. `lower_bound` is the number that a report has
    behind `Open`: never above the other, and the same where `seconds` are given. `proven` says that the plan is a cheapest one, and the
    one that each proven run prints. `cost_is_least` says that no plan costs less, though the run may not know which plan of this cost each
    run would print; None where cost or bound is not known.

    `verdict` is `Proven`; `Open`, where the search ended before it knew; or `NoPlan`, where so few trucks can't serve all customers.

    `name` is what the problem's file calls itself, `stated_cost` the cost that the file of the plan to begin with states, true or not,
    each None where it says none; and `version` is the program's.
    """

    routes: Routes
    nodes: Routes
    cost: Optional[int]
    lower_bound: Optional[int]
    best_lower_bound: Optional[int]
    cost_is_least: Optional[bool]
    gap: Optional[int]
    proven: bool
    verdict: str
    name: Optional[str]
    stated_cost: Optional[int]
    version: str


class Refused(Exception):
    """The program refused the problem, the plan to begin with or an option, or it had no memory or no input.

    The text is the program's own, and `status` its exit status, from 2 to 5.
    """

    def __init__(self, text: str, status: int) -> None:
        super().__init__(text)
        self.status = status


def read(path: Path) -> Instance:
    """Reads a TSPLIB file. Nothing is refused here: the program does that."""
    with open(path, "rb") as file:
        text = file.read().decode(ENCODING, ERRORS)
    stated = _stated(text)
    return Instance(text, stated.get("NAME") or None, _whole(stated.get("DIMENSION", "")))


def solve(
    instance_or_path: Union[Instance, Path],
    seconds: Optional[int] = None,
    workers: Optional[int] = None,
    trucks: Optional[int] = None,
    start: Union[None, Path, Iterable[Iterable[int]]] = None,
    program: Path = "cvrp",
) -> Solution:
    """Searches for a cheapest plan.

    `seconds` limits the search, `workers` is how many threads it has, and `trucks` how many routes a plan may have; an option that is
    None has the program's default. `start` is a plan to begin with, which is checked first: the path of a .sol file, or the routes
    themselves, as lists of customers numbered from 1 (`[route.visits() for route in result.best.routes()]` with PyVRP and one depot).
    The answer costs no more than that plan.

    Raises `Refused` where the program refuses, and `RuntimeError` where it ends in another way.
    """
    instance = instance_or_path if isinstance(instance_or_path, Instance) else read(instance_or_path)
    words = [os.fspath(program), "--format", "json"]
    for option, value in (("--seconds", seconds), ("--workers", workers), ("--trucks", trucks)):
        if value is not None:
            words += [option, str(value)]
    with tempfile.TemporaryDirectory() as room:
        if start is not None:
            words += ["--start", _plan_file(start, room)]
        ran = subprocess.run(words, input=instance.text.encode(ENCODING, ERRORS), stdout=subprocess.PIPE, stderr=subprocess.PIPE)
    told = ran.stderr.decode(ENCODING, "replace").strip()
    if 2 <= ran.returncode <= 5:
        raise Refused(told, ran.returncode)
    if ran.returncode not in (0, 1):
        raise RuntimeError(f"{words[0]} ended with status {ran.returncode}: {told}")
    return _solution(json.loads(ran.stdout))


def _solution(answer: Dict[str, Any]) -> Solution:
    """What the program's JSON says."""
    return Solution(
        routes=[list(route["customers"]) for route in answer["routes"]],
        nodes=[list(route["nodes"]) for route in answer["routes"]],
        cost=answer["cost"],
        lower_bound=answer["lower_bound"],
        best_lower_bound=answer["best_lower_bound"],
        cost_is_least=answer["cost_is_least"],
        gap=answer["gap"],
        proven=answer["verdict"] == "Proven",
        verdict=answer["verdict"],
        name=answer["name"],
        stated_cost=answer["stated_cost"],
        version=answer["version"],
    )


def _plan_file(start: Union[Path, Iterable[Iterable[int]]], room: str) -> str:
    """The path of a plan to begin with, which is written into the folder where it comes as lists."""
    if isinstance(start, (str, os.PathLike)):
        # A whole path never looks like an option.
        return os.path.abspath(start)
    path = os.path.join(room, "start.sol")
    with open(path, "w", encoding="ascii") as file:
        for k, route in enumerate(start, 1):
            file.write(f"Route #{k}: {' '.join(str(int(customer)) for customer in route)}\n")
    return path


def _stated(text: str) -> Dict[str, str]:
    """The first value of each keyword, up to the end of the file."""
    stated: Dict[str, str] = {}
    for line in text.split("\n"):
        found = KEYWORD.match(line)
        if found is None:
            continue
        if found[1] == "EOF":
            break
        stated.setdefault(found[1], found[2].strip(BLANKS))
    return stated


def _whole(value: str) -> Optional[int]:
    """The whole number that a value begins with, or None. TSPLIB writes it as 51, 51.0 or 5.1e1."""
    try:
        number = float(value.split()[0])
    except (IndexError, ValueError):
        return None
    return int(number) if number.is_integer() else None
