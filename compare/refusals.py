#!/usr/bin/env python3
"""Runs the program once for each request for memory that it makes, and refuses just that one. It has to write the whole report, or
nothing, and to say then that there is no memory.

    python3 compare/refusals.py [FILE ..]      # the small file and a few of examples/, if none is named

Each file is solved by one worker and by two. Needs a C compiler.
"""

import os
import subprocess
import sys
import tempfile
from collections import Counter

from compare import NOT_BUILT, PROGRAM, TOP

HERE = os.path.dirname(os.path.abspath(__file__))
FILES = [os.path.join(TOP, "examples", name + ".vrp") for name in ["three-nodes", "E-n7-k2", "04-att6-unit", "02-asym6-full"]]
NO_MEMORY = b"cvrp: out of memory\n"
SHARES = [["--workers", workers, "--pieces", pieces] for workers in ["1", "2"] for pieces in ["1", "64"]]


def run(data, words, library, refused, counter):
    """What the program does with a file where this request is refused: exit status, standard output, standard error."""
    room = dict(os.environ, LD_PRELOAD=library, REFUSED=str(refused), REQUESTS=counter)
    ended = subprocess.run([PROGRAM] + words, input=data, capture_output=True, timeout=60, env=room)
    return ended.returncode, ended.stdout, ended.stderr


def outcome(found, report):
    """How a run ended, or None where it may not end so. A thread that can't be made is done without."""
    if found == report:
        return "the whole report"
    if found[0] == 4 and found[1] == b"" and found[2] in (NO_MEMORY, b""):
        return "out of memory"
    return None


def refusals(name, words, library, counter):
    """Refuses each request in turn: how many there are, how the runs ended, and which ended in another way."""
    with open(name, "rb") as file:
        data = file.read()
    report = run(data, words, library, 0, counter)
    with open(counter) as file:
        requests = int(file.read())
    outcomes, faults = Counter(), []
    # The second worker's requests come in any order, so a few numbers more are tried.
    for refused in range(1, requests + 3):
        found = run(data, words, library, refused, counter)
        ended = outcome(found, report)
        outcomes[ended] += 1
        if ended is None:
            faults.append((refused, found))
    return requests, outcomes, faults


def main():
    launched = subprocess.run([os.path.join(TOP, "cvrp")], stdin=subprocess.DEVNULL, capture_output=True)
    if launched.returncode == NOT_BUILT:
        sys.exit(launched.stderr.decode())
    wrong = 0
    with tempfile.TemporaryDirectory() as room:
        library, counter = os.path.join(room, "refuse_growth.so"), os.path.join(room, "requests")
        source = os.path.join(HERE, "refuse_growth.c")
        subprocess.run(["cc", "-O1", "-shared", "-fPIC", "-fno-builtin", "-o", library, source], check=True)
        for name in sys.argv[1:] or FILES:
            for words in SHARES:
                requests, outcomes, faults = refusals(name, words, library, counter)
                ends = ", ".join(f"{times} {ended}" for ended, times in outcomes.items())
                print(f"{os.path.basename(name)} {' '.join(words)}: {requests} requests: {ends}")
                for refused, found in faults[:5]:
                    print(f"  request {refused} refused: {found}")
                wrong += len(faults)
    print(f"{wrong} faults")
    sys.exit(1 if wrong else 0)


if __name__ == "__main__":
    main()
