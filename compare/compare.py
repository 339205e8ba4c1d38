#!/usr/bin/env python3
"""Compares the program with the slow reader and the slow judge beside this script, on files made by a seed.

    python3 compare/compare.py [FILES [SEED [PROCESSES]]]
"""

import multiprocessing
import os
import random
import re
import subprocess
import sys
import time
from collections import Counter, namedtuple

from files import damaged, fixed_files, spoilt_file, valid_file
from hostile import hostile_files
from large import MOST_PIECES, large_files
from slow_judge import MOST_CUSTOMERS, fault
from slow_reader import outcome

TOP = os.path.dirname(os.path.dirname(os.path.abspath(__file__)))
PROGRAM = os.path.join(TOP, "crates", "cvrp", "out", "cvrp")
NOT_BUILT = 70
# How many seconds the program has: where the file is refused or has few customers, and where it has many.
LONG, SHORT = 60, 1
# The least budget that always proves a file of few customers.
AMPLE = 10_000_000
# How many differences are shown.
SHOWN = 10


def some_file(seed, index):
    """File number `index`: its bytes, and its problem where it was made as a valid file."""
    dice = random.Random(f"{seed} {index}")
    if index % 4 == 0:
        n = dice.randint(200, 1200) if index % 2000 == 0 else None
        return valid_file(dice, n)
    if index % 4 == 1:
        return spoilt_file(dice), None
    data, _ = valid_file(dice)
    return damaged(dice, data), None


# The options of a run. Without a budget, a depot or a limit on trucks the program takes its own.
Options = namedtuple("Options", "workers pieces budget depot trucks")


def some_options(data):
    """Some options, the same ones for the same file. Half of the files have no more than workers and pieces."""
    dice = random.Random(data)
    workers, pieces = dice.choice([1, 2, 3, 8]), dice.choice([1, 2, 64, 1000])
    if dice.randrange(2) == 0:
        return Options(workers, pieces, None, None, None)
    budget = dice.choice([None, None, 1, 10, 1_000, 10_000_000])
    depot = dice.choice([None, None, 1, 2, 3, dice.randint(1, 1_200)])
    trucks = dice.choice([None, None, 1, 2, 3, dice.randint(1, 1_200)])
    return Options(workers, pieces, budget, depot, trucks)


def large_options(data, budget):
    """The options of a file of large capacity: some workers, as many pieces as there may be, and this budget."""
    return Options(some_options(data).workers, MOST_PIECES, budget, None, None)


def words(options):
    """The words of a command line that ask for these options."""
    pairs = [(f"--{name}", str(value)) for name, value in options._asdict().items() if value is not None]
    return [word for pair in pairs for word in pair]


def run(data, options, seconds):
    """What the program does with a file: exit status, standard output, standard error. It is killed after this many seconds,
    and has no status then."""
    try:
        ended = subprocess.run([PROGRAM] + words(options), input=data, capture_output=True, timeout=seconds)
    except subprocess.TimeoutExpired as killed:
        return None, killed.stdout or b"", killed.stderr or b""
    return ended.returncode, ended.stdout, ended.stderr


def same(one, other):
    """Whether two problems are one, by all weights where there are at most 60 nodes, and else by those of 60 nodes."""
    if one[:4] != other[:4]:
        return False
    places = [one.depot] + one.customers
    pairs = [pair for i in places[:60] for j in places if i != j for pair in [(i, j), (j, i)]]
    return all(one.weight(i, j) == other.weight(i, j) for i, j in pairs)


def refused(data, options, refusal):
    """A file to be refused: its kind, which is the refusal without its numbers, what is wrong, and what the program did."""
    found = run(data, options, LONG)
    kind = re.sub(r"(?<![A-Z_])-?[0-9]+", "N", refusal)
    right = found == (3, b"", f"cvrp: {refusal}\n".encode())
    return kind, None if right else f"it has to be refused: {refusal}", found


def solved(data, options, problem):
    """A file to be solved: the same."""
    few = len(problem.customers) <= MOST_CUSTOMERS
    found = run(data, options, LONG if few else SHORT)
    if found == (None, b"", b"") and not few:
        return "(not waited for)", None, found
    kind = "few customers" if few else "many customers"
    is_open = re.search(rb"^Open ", found[1], re.MULTILINE) is not None
    ample = options.budget is None or options.budget >= AMPLE
    return f"({'open' if is_open else 'solved'}, {kind})", fault(problem, *found, options.trucks, ample), found


def compare(job):
    """One file: what kind of outcome it has, and what differs."""
    seed, index, data, options = job
    made = None
    if data is None:
        data, made = some_file(seed, index)
    options = options or some_options(data)
    problem, refusal = outcome(data, options.depot)
    kind, wrong, found = refused(data, options, refusal) if problem is None else solved(data, options, problem)
    if made is not None:
        problem, _ = outcome(data)
        if problem is None or not same(made, problem):
            wrong = "the slow reader and the maker of the file differ"
    return kind, wrong and (index, data, options, wrong, found)


def main():
    count = int(sys.argv[1]) if len(sys.argv) > 1 else 40_000
    seed = sys.argv[2] if len(sys.argv) > 2 else "1"
    processes = int(sys.argv[3]) if len(sys.argv) > 3 else 3
    # The launcher builds the program where it is missing or old.
    launched = subprocess.run([os.path.join(TOP, "cvrp")], stdin=subprocess.DEVNULL, capture_output=True)
    if launched.returncode == NOT_BUILT:
        sys.exit(launched.stderr.decode())
    jobs = [("fixed", index, data, None) for index, data in enumerate(fixed_files() + hostile_files())]
    jobs += [("large", index, data, large_options(data, budget)) for index, (data, budget) in enumerate(large_files(seed))]
    jobs += [(seed, index, None, None) for index in range(count)]
    begun = time.monotonic()
    kinds, differences = Counter(), []
    with multiprocessing.Pool(processes) as pool:
        for kind, difference in pool.imap_unordered(compare, jobs, chunksize=20):
            kinds[kind] += 1
            if difference:
                differences.append(difference)
    for index, data, options, wrong, found in sorted(differences, key=lambda difference: len(difference[1]))[:SHOWN]:
        print(f"file {index}: {wrong}\n  bytes: {data[:3000]!r}\n  words: {words(options)}\n  found: {found}")
    for kind, times in kinds.most_common():
        print(f"{times:8} {kind}")
    print(f"{len(jobs)} files, seed {seed}, {round(time.monotonic() - begun)} seconds: {len(differences)} differences")
    sys.exit(1 if differences else 0)


if __name__ == "__main__":
    main()
