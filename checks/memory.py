#!/usr/bin/env python3
"""Refuses each allocation of some runs in turn: the status is 0, or 6 with nothing written. Needs cc, and glibc.

usage: memory.py PATH_OF_RANGELOCK
"""

import os
import subprocess
import sys
import tempfile

HERE = os.path.dirname(os.path.abspath(__file__))
EXAMPLES = os.path.join(HERE, "..", "examples")
RUNS = [
    (["serial"], "deadlock_of_two.trace"),
    (["crew", "2"], "deadlock_of_two.trace"),
    (["cut", "1", '"d"'], "kept_apart.trace"),
    (["store"], "transfer.script"),
    (["make", "7", "4", "20"], "empty.trace"),
    (["sum", "7", "4", "20"], "empty.trace"),
]


def run(path, shim, words, trace, number, told):
    env = dict(os.environ, LD_PRELOAD=shim, REFUSE=str(number), REFUSED=told)
    with open(os.path.join(EXAMPLES, trace), "rb") as lines:
        return subprocess.run([path, *words], stdin=lines, capture_output=True, env=env, check=False)


def refuse_each(path, room, words, trace):
    """Whether each allocation could be refused; told is how many there are, and how many ended the run."""
    shim, told = os.path.join(room, "refuse.so"), os.path.join(room, "refused")
    number = ended = 0
    while True:
        ran = run(path, shim, words, trace, number + 1, told)
        if ran.returncode not in (0, 6) or (ran.returncode == 6 and ran.stdout):
            print(*words, "with allocation", number + 1, "refused: status", ran.returncode, "and", ran.stdout)
            return False
        if not os.path.exists(told):
            print(*words, "-", number, "allocations,", ended, "of which ended it with status 6 and nothing written")
            return number > 0
        os.remove(told)
        number += 1
        ended += ran.returncode == 6


def main():
    path = os.path.abspath(sys.argv[1])
    with tempfile.TemporaryDirectory() as room:
        shim = os.path.join(room, "refuse.so")
        subprocess.run(["cc", "-O1", "-shared", "-fPIC", "-o", shim, os.path.join(HERE, "refuse.c")], check=True)
        return 0 if all(refuse_each(path, room, words, trace) for words, trace in RUNS) else 1


if __name__ == "__main__":
    sys.exit(main())
