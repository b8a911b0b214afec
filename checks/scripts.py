#!/usr/bin/env python3
"""Plays random scripts by `rangelock store` and by the map here, and compares the bytes. Then it plays the transactions that
have committed once more, one after another in the order of their commits, on an empty dict without any lock, and compares
their answers and the map.

usage: scripts.py PATH_OF_RANGELOCK [HOW_MANY [FIRST_SEED]]
"""

import random
import subprocess
import sys

from table import Range, Tree, key_order

HEADER = "rangestore 1"


def quoted(rng):
    return '"%s"' % "".join(rng.choice("abc") for _ in range(rng.randint(1, 2)))


def random_script(seed):
    rng = random.Random(seed)
    lines, ended = [HEADER, "limit %d" % rng.choice([1, 2, 3, 4, 6, 64, 64])], set()
    txns = rng.randint(1, 6)
    for _ in range(rng.randint(0, 50)):
        left = [n for n in range(1, txns + 1) if n not in ended]
        if not left:
            break
        txn, roll = rng.choice(left), rng.random()
        if roll < 0.3:
            lines.append("%d get %s" % (txn, quoted(rng)))
        elif roll < 0.65:
            lines.append("%d put %s %d" % (txn, quoted(rng), rng.randint(0, 99)))
        elif roll < 0.8:
            keys = sorted([quoted(rng), rng.choice([quoted(rng), "+", "-"])], key=lambda k: key_order(k.encode()))
            lines.append("%d scan %s %s" % (txn, *keys))
        else:
            lines.append("%d %s" % (txn, rng.choice(["commit", "commit", "abort"])))
            ended.add(txn)
    return "".join(line + "\n" for line in lines).encode()


def row(key, value):
    return b" %s %d" % (key, value)


class Map:
    """The map with its locks: one tree of ranges, each granted range recorded until its transaction ends."""

    def __init__(self, limit):
        self.tree, self.limit, self.rows = Tree(), limit, {}
        self.granted, self.undo, self.done, self.gone, self.commits = {}, {}, {}, set(), []

    def inside(self, asked):
        found = [key for key in self.rows if asked.overlaps(Range(key, key))]
        return sorted(found, key=key_order)

    def release(self, txn):
        for at, held in enumerate(self.granted.pop(txn, [])):
            self.tree.free(txn, held, at == 0)

    def give_up(self, txn):
        self.release(txn)
        for key, old in reversed(self.undo.pop(txn, [])):
            if old is None:
                del self.rows[key]
            else:
                self.rows[key] = old
        self.done.pop(txn, None)

    def perform(self, txn, word, args):
        if word == b"get":
            value = self.rows.get(args[0])
            return b" none" if value is None else b" %d" % value
        if word == b"put":
            self.undo.setdefault(txn, []).append((args[0], self.rows.get(args[0])))
            self.rows[args[0]] = int(args[1])
            return b" ok"
        return b"".join(row(key, self.rows[key]) for key in self.inside(Range(*args))) or b" none"

    def step(self, txn, word, args):
        """The answer's line behind the transaction."""
        if txn in self.gone:
            return b"gone"
        if word == b"commit":
            self.commits.append(self.done.pop(txn, []))
            self.undo.pop(txn, None)
            self.release(txn)
            return b"commit"
        if word == b"abort":
            self.give_up(txn)
            return b"abort"
        asked = Range(args[0], args[1] if word == b"scan" else args[0])
        if self.tree.rows() >= self.limit:
            self.tree.join()
            if self.tree.rows() >= self.limit:
                self.give_up(txn)
                self.gone.add(txn)
                return b"outoflocks"
        _, owners = self.tree.ask(txn, asked, 0)
        if owners:
            return b"held by " + b" ".join(b"%d" % o for o in owners)
        self.granted.setdefault(txn, []).append(asked)
        answer = self.perform(txn, word, args)
        self.done.setdefault(txn, []).append((word, args, answer))
        said = args[:1] if word == b"put" else args
        return b" ".join([word, *said]) + answer


def replay(commits):
    """The map of the committed transactions, one after another, or None where an answer differs."""
    plain = Map(65536)
    for at, done in enumerate(commits):
        for word, args, answer in done:
            if plain.perform(at, word, args) != answer:
                return None
    return plain.rows


def main():
    path, how_many, first = sys.argv[1], *(int(a) for a in (sys.argv[2:] + ["1000", "0"][len(sys.argv) - 2 :]))
    for seed in range(first, first + how_many):
        script = random_script(seed)
        ran = subprocess.run([path, "store"], input=script, capture_output=True, check=False)
        head, limit, *body = script.splitlines()
        store, lines = Map(int(limit.split()[1])), []
        for line in body:
            txn, word, *args = line.split()
            lines.append(b"%s %s" % (txn, store.step(int(txn), word, args)))
        for txn in sorted(set(store.granted) | set(store.done)):
            store.give_up(txn)
        lines += [b"map" + row(key, store.rows[key]) for key in sorted(store.rows, key=key_order)]
        lines.append(b"end %d" % len(store.commits))
        wanted = b"".join(line + b"\n" for line in lines)
        if ran.returncode != 0 or ran.stdout != wanted or replay(store.commits) != store.rows:
            sys.stdout.buffer.write(script + b"-- the program wrote\n" + ran.stdout + b"-- wanted\n" + wanted)
            print("they differ at seed", seed)
            return 1
    print(how_many, "scripts, the same bytes, and the same map in the order of the commits")
    return 0


if __name__ == "__main__":
    sys.exit(main())
