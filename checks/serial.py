#!/usr/bin/env python3
"""Plays random traces by `rangelock serial` and by the player here, and compares the bytes.

usage: serial.py PATH_OF_RANGELOCK [HOW_MANY [FIRST_SEED]]
"""

import subprocess
import sys

from player import Player
from table import Trace
from traces import random_trace


def main():
    path, how_many, first = sys.argv[1], *(int(a) for a in (sys.argv[2:] + ["1000", "0"][len(sys.argv) - 2 :]))
    for seed in range(first, first + how_many):
        trace = random_trace(seed)
        ran = subprocess.run([path, "serial"], input=trace, capture_output=True, check=False)
        wanted = Player(Trace(trace)).play()
        if ran.returncode != 0 or ran.stdout != wanted:
            sys.stdout.buffer.write(trace + b"-- the program wrote\n" + ran.stdout + b"-- wanted\n" + wanted)
            print("they differ at seed", seed)
            return 1
    print(how_many, "traces, the same bytes")
    return 0


if __name__ == "__main__":
    sys.exit(main())
