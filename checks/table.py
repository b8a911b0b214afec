"""The sequential range table and the plain scheduler, written a second time from docs/TABLE.md and docs/FORMATS.md.

Nothing here is proved. It shares no code with the program, and is there to be compared with it.
"""

import re

MOST_SCORE = 100
TEXT = re.compile(rb'[-+]|"(?:[^"\\]|\\x[0-9a-f][0-9a-f])*"\*?')


def key_order(text):
    """A key's place in the order of all keys, by its text: a tuple that compares as the keys do."""
    if text == b"-":
        return (-1,)
    if text == b"+":
        return (1,)
    prefix = text.endswith(b"*")
    inner = text[1 : -2 if prefix else -1]
    out, i = [], 0
    while i < len(inner):
        if inner[i : i + 2] == b"\\x":
            out.append(int(inner[i + 2 : i + 4], 16))
            i += 4
        else:
            out.append(inner[i])
            i += 1
    # behind every string that begins with these bytes: 256 at the place of the next byte
    return (0, *out, 256) if prefix else (0, *out)


class Range:
    """A range of keys, both ends included, with the texts of its ends."""

    def __init__(self, left, right):
        self.left, self.right = left, right
        self.low, self.high = key_order(left), key_order(right)

    def overlaps(self, other):
        return self.low <= other.high and other.low <= self.high

    def hull(self, other):
        left = self.left if self.low <= other.low else other.left
        right = self.right if self.high >= other.high else other.right
        return Range(left, right)

    def is_whole(self):
        return self.left == b"-" and self.right == b"+"

    def text(self):
        return self.left + b" " + self.right


WHOLE = Range(b"-", b"+")


class Tree:
    """One tree: its pairs by left end, and its mode: the owner and rows of a buffer, or a score."""

    def __init__(self):
        self.pairs, self.owner, self.count, self.score = [], None, 0, MOST_SCORE

    def rows(self):
        return len(self.pairs) if self.owner is None else self.count

    def end_buffer(self):
        if self.owner is not None:
            self.owner, self.count, self.score = None, 0, 0

    def others(self, txn, asked):
        return sorted({o for o, r in self.pairs if o != txn and r.overlaps(asked)})

    def grant(self, txn, asked):
        span, kept = asked, []
        for owner, held in self.pairs:
            if owner == txn and held.overlaps(asked):
                span = span.hull(held)
            else:
                kept.append((owner, held))
        kept.append((txn, span))
        self.pairs = sorted(kept, key=lambda p: p[1].low)

    def ask(self, txn, asked, buffer):
        """The words of the reply."""
        own = self.owner == txn and self.count < buffer
        begins = self.owner is None and self.score == MOST_SCORE and not self.pairs and buffer > 0
        if own or begins:
            self.grant(txn, asked)
            self.owner, self.count = txn, self.count + 1 if own else 1
            return b"buffered", []
        self.end_buffer()
        owners = self.others(txn, asked)
        if owners:
            return b"held by " + b" ".join(b"%d" % o for o in owners), owners
        self.grant(txn, asked)
        return b"granted", []

    def free(self, txn, asked, first):
        if self.owner == txn and asked.is_whole():
            count = len(self.pairs)
            self.__init__()
            return count
        self.end_buffer()
        kept = [(o, r) for o, r in self.pairs if not (o == txn and r.overlaps(asked))]
        count = len(self.pairs) - len(kept)
        self.pairs = kept
        if first and self.score < MOST_SCORE:
            self.score += 1
        return count

    def who(self, named, asked):
        if self.owner is not None and self.owner != named:
            self.end_buffer()
        return self.others(named, asked)

    def join(self, marks=()):
        self.end_buffer()
        before, joined = len(self.pairs), []
        for owner, held in self.pairs:
            if joined and joined[-1][0] == owner and not any(joined[-1][1].high < mark <= held.low for mark in marks):
                joined[-1] = (owner, joined[-1][1].hull(held))
            else:
                joined.append((owner, held))
        self.pairs = joined
        return before, len(joined)


class Trace:
    """A trace in the grammar: its sizes, and its lines as tuples of a transaction, a word and arguments."""

    def __init__(self, data):
        lines = data.split(b"\n")[:-1]
        self.trees, self.limit, self.buffer = (int(line.split()[1]) for line in lines[1:4])
        self.lines = [self.line(line) for line in lines[4:]]
        self.txns = sorted({line[0] for line in self.lines})

    @staticmethod
    def line(text):
        txn, word, *rest = text.split(b" ", 2)
        if word in (b"try", b"lock"):
            tree, keys = rest[0].split(b" ", 1)
            left, right = TEXT.findall(keys)
            return int(txn), word, int(tree), Range(left, right)
        if word == b"escalate":
            return int(txn), word, int(rest[0])
        return int(txn), word


class Table:
    """All trees, and the events with their lines. Joins stop at the marks, each a key's place in the order."""

    def __init__(self, trace, marks=()):
        self.marks = marks
        self.trees = [Tree() for _ in range(trace.trees)]
        self.limit, self.buffer, self.lines = trace.limit, trace.buffer, []

    def used(self):
        return sum(tree.rows() for tree in self.trees)

    def tell(self, txn, text):
        self.lines.append(b"%d %d %s" % (len(self.lines), txn, text))

    def ask(self, txn, tree, asked):
        reply, owners = self.trees[tree].ask(txn, asked, self.buffer)
        self.tell(txn, b"ask %d %s %s" % (tree, asked.text(), reply))
        return reply, owners

    def free(self, txn, tree, asked, first):
        count = self.trees[tree].free(txn, asked, first)
        self.tell(txn, b"free %d %s %d" % (tree, asked.text(), count))

    def who(self, txn, tree, asked, named):
        owners = self.trees[tree].who(named, asked)
        told = b" ".join(b"%d" % o for o in owners) or b"none"
        self.tell(txn, b"who %d %s %d held by %s" % (tree, asked.text(), named, told))
        return owners

    def join(self, txn, tree):
        before, after = self.trees[tree].join(self.marks)
        self.tell(txn, b"join %d %d %d" % (tree, before, after))
