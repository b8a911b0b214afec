#!/usr/bin/env python3
"""Plays traces by `rangelock crew N`, by `rangelock live N` and by `rangelock cut N KEY`, and says of each transcript whether it is one
legal history: random ones by 1 to 16 workers, crowded ones, a tenth as many, by 16, and one that the program makes. A run that has not ended after a
minute is one that waits for ever.

usage: threads.py PATH_OF_RANGELOCK [HOW_MANY [FIRST_SEED]]
"""

import random
import subprocess
import sys

from accept import Wrong, accept
from table import Trace
from traces import crowded_trace, random_trace

MOST_SECONDS = 60


MARKS = {"crew": [], "live": [], "cut": ['"b"']}


def played(path, player, workers, trace):
    written, marks = b"", MARKS[player]
    try:
        ran = subprocess.run([path, player, str(workers), *marks], input=trace, capture_output=True, check=False, timeout=MOST_SECONDS)
        written = ran.stdout
        if ran.returncode != 0:
            raise Wrong("the status is %d" % ran.returncode)
        accept(Trace(trace), written, [mark.encode() for mark in marks])
    except subprocess.TimeoutExpired:
        wrong = "it has not ended after %d seconds" % MOST_SECONDS
    except Wrong as why:
        wrong = str(why)
    else:
        return True
    sys.stdout.buffer.write(trace + b"-- the program wrote\n" + written)
    print("refused by", player, "with", workers, "workers:", wrong)
    return False


def main():
    path, how_many, first = sys.argv[1], *(int(a) for a in (sys.argv[2:] + ["200", "0"][len(sys.argv) - 2 :]))
    seeds = range(first, first + how_many)
    made = subprocess.run([path, "make", "7", "40", "1000"], capture_output=True, check=True).stdout
    plays = [(random.Random(seed).randint(1, 16), random_trace(seed)) for seed in seeds]
    plays += [(16, crowded_trace(seed)) for seed in seeds[::10]] + [(4, made)]
    for player in MARKS:
        if not all(played(path, player, workers, trace) for workers, trace in plays):
            return 1
    print(len(MARKS) * len(plays), "plays, each transcript accepted")
    return 0


if __name__ == "__main__":
    sys.exit(main())
