"""Random traces with all forms of line, few keys, buffers and small limits, and crowded ones."""

import random


def text_of(rng, version):
    roll = rng.random()
    if roll < 0.02:
        return "-"
    if roll < 0.04:
        return "+"
    name = "".join(rng.choice("abc") for _ in range(rng.randint(1, 2)))
    return '"%s"' % name + ("*" if version == 2 and rng.random() < 0.15 else "")


def random_trace(seed):
    from table import key_order

    rng = random.Random(seed)
    version = rng.choice([1, 2])
    trees = rng.choice([1, 1, 2, 3])
    limit = rng.choice([1, 2, 3, 5, 8, 64])
    buffer = rng.choice([0, 0, 1, 2, 3, 8])
    txns = rng.randint(1, 6)
    lines = ["rangelock %d" % version, "trees %d" % trees, "limit %d" % limit, "buffer %d" % buffer]
    ended = set()
    for _ in range(rng.randint(0, 40)):
        left = [n for n in range(1, txns + 1) if n not in ended]
        if not left:
            break
        txn, roll = rng.choice(left), rng.random()
        if roll < 0.75:
            keys = sorted((text_of(rng, version) for _ in range(2)), key=lambda k: key_order(k.encode()))
            word = rng.choice(["try", "lock", "lock"])
            lines.append("%d %s %d %s %s" % (txn, word, rng.randrange(trees), *keys))
        elif roll < 0.82:
            lines.append("%d escalate %d" % (txn, rng.randrange(trees)))
        elif roll < 0.86 and version == 2:
            lines.append("%d big" % txn)
        else:
            lines.append("%d %s" % (txn, rng.choice(["end", "end", "abort"])))
            ended.add(txn)
    return "".join(line + "\n" for line in lines).encode()


def crowded_trace(seed):
    """Forty transactions on one small tree, that wait for each other, join, and begin buffers."""
    rng = random.Random(seed)
    lines = ["rangelock 2", "trees 1", "limit 24", "buffer 3"]
    left = list(range(1, 41))
    for _ in range(400):
        txn, roll = rng.choice(left), rng.random()
        if roll < 0.8:
            first = rng.randrange(16)
            keys = first, min(first + rng.choice([0, 0, 0, 1, 4]), 15)
            lines.append('%d %s 0 "%x" "%x"' % (txn, rng.choice(["try", "lock", "lock"]), *keys))
        elif roll < 0.88:
            lines.append("%d escalate 0" % txn)
        elif roll < 0.9:
            lines.append("%d big" % txn)
        elif len(left) > 1:
            lines.append("%d %s" % (txn, rng.choice(["end", "abort"])))
            left.remove(txn)
    return "".join(line + "\n" for line in lines).encode()
