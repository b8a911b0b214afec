#!/usr/bin/env python3
"""Traces for timing:  traces.py DIR [SEED]  writes NAME.trace (and NAME.prep, how many leading body lines only prepare).

In RocksDB a lone transaction is served by a buffer. The traces named `tree` begin with an ask of a second transaction, which
ends that buffer for the rest of the trace; ours have `buffer 0` there.
"""
import os
import random
import sys


def head(limit=65536, buffer=0, trees=1):
    return ["rangelock 1", f"trees {trees}", f"limit {limit}", f"buffer {buffer}"]


def point(txn, key, tree=0):
    return f'{txn} try {tree} "{key:07d}" "{key:07d}"'


SPOIL = [point(901, 9_000_000), point(902, 9_000_001), "902 end"]


def one_txn(order, n, rng, buffered):
    keys = [2 * i for i in range(n)]
    if order == "random":
        rng.shuffle(keys)
    if buffered:
        return head(buffer=65536) + [point(1, k) for k in keys] + ["1 end"], 0
    return head() + SPOIL + [point(1, k) for k in keys] + ["1 end", "901 end"], 3


def in_turn(rng):
    keys = [2 * i for i in range(60_000)]
    rng.shuffle(keys)
    return head() + [point(1 + i % 2, k) for i, k in enumerate(keys)] + ["1 end", "2 end"], 0


def sixty(rng, trees):
    """60 transactions of 1,000 points each, for threads: no key in common; with more trees, each in its own."""
    keys = [2 * i for i in range(60_000)]
    rng.shuffle(keys)
    body = []
    for t in range(60):
        body += [point(t + 1, k, t % trees) for k in keys[1000 * t:1000 * (t + 1)]] + [f"{t + 1} end"]
    return head(trees=trees) + body, 0


def escalate(rng):
    keys = [4 * i for i in range(60_000)]
    rng.shuffle(keys)
    body = [f'{1 + i % 100} try 0 "{k:07d}" "{k + 2:07d}"' for i, k in enumerate(keys)]
    return head() + SPOIL + body + ["1 escalate 0"] * 20, 60_003


def traces(seed):
    rng = random.Random(seed)
    out = {}
    for n in (1000, 10_000, 60_000):
        out[f"tree_ascending_{n}"] = one_txn("ascending", n, rng, False)
        out[f"tree_random_{n}"] = one_txn("random", n, rng, False)
        out[f"buffer_ascending_{n}"] = one_txn("ascending", n, rng, True)
    out["buffer_random_60000"] = one_txn("random", 60_000, rng, True)
    out["tree_two_in_turn_60000"] = in_turn(rng)
    out["threads_one_tree_60000"] = sixty(rng, 1)
    out["threads_four_trees_60000"] = sixty(rng, 4)
    out["escalate_60000"] = escalate(rng)
    return out


def write(folder, seed):
    os.makedirs(folder, exist_ok=True)
    for name, (lines, prep) in traces(seed).items():
        with open(os.path.join(folder, name + ".trace"), "w") as f:
            f.write("\n".join(lines) + "\n")
        with open(os.path.join(folder, name + ".prep"), "w") as f:
            f.write(f"{prep}\n")


if __name__ == "__main__":
    if not 2 <= len(sys.argv) <= 3:
        sys.exit(__doc__)
    write(sys.argv[1], int(sys.argv[2]) if len(sys.argv) == 3 else 20261201)
