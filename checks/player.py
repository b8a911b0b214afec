"""The plain scheduler over the sequential table, from docs/FORMATS.md."""

from collections import deque

from table import WHOLE, Table


class Txn:
    """A transaction as it is played."""

    def __init__(self, number):
        self.number, self.lines, self.waits, self.big, self.outcome = number, deque(), False, False, None
        self.recorded = {}  # by tree: the ranges in the order of their asks, and whether the last grant was buffered


class Player:
    def __init__(self, trace):
        self.trace, self.table = trace, Table(trace)
        self.txns = {n: Txn(n) for n in trace.txns}
        self.released = False

    def bar(self, txn):
        return self.trace.limit - self.trace.limit // 2 if txn.big else self.trace.limit

    def release(self, txn, outcome):
        txn.outcome, txn.waits, self.released = outcome, False, True
        txn.lines.clear()
        for tree in sorted(txn.recorded):
            ranges, buffered = txn.recorded[tree]
            for at, held in enumerate([WHOLE] if buffered else ranges):
                self.table.free(txn.number, tree, held, at == 0)

    def attempt(self, txn, locks, tree, asked):
        """One attempt at the line. Whether the transaction is past it."""
        if self.table.used() >= self.bar(txn):
            for each in range(self.trace.trees):
                self.table.join(txn.number, each)
            if self.table.used() >= self.bar(txn):
                place, used = len(self.table.lines), self.table.used()
                self.release(txn, b"outoflocks %d %d" % (place, used))
                return True
        reply, owners = self.table.ask(txn.number, tree, asked)
        if not owners:
            ranges, _ = txn.recorded.get(tree, ([], False))
            txn.recorded[tree] = (ranges + [asked], reply == b"buffered")
            txn.waits = False
            return True
        if not locks:
            return True
        return self.wait(txn, owners)

    def wait(self, txn, owners):
        """Searches for a deadlock behind a held ask. Whether the transaction is past its line."""
        txn.waits = True
        waiting = {n for n, t in self.txns.items() if t.waits}
        edges = {txn.number: [o for o in owners if o in waiting and o != txn.number]}
        queue, at = list(edges[txn.number]), 0
        while at < len(queue):
            number = queue[at]
            at += 1
            _, _, tree, asked = self.txns[number].lines[0]
            named = [o for o in self.table.who(txn.number, tree, asked, number) if o in waiting]
            edges[number] = named
            queue += [o for o in named if o != txn.number and o not in queue]
        walk = self.walk(txn.number, edges)
        if walk is None:
            return False
        self.release(txn, b"deadlock " + b" ".join(b"%d" % n for n in walk))
        return True

    @staticmethod
    def walk(start, edges):
        """The closed walk with the fewest edges, and of those the least."""
        rows, seen = [[start]], {start}
        while rows:
            for path in rows:
                if start in edges.get(path[-1], []):
                    return path + [start]
            longer, fresh = [], set()
            for path in rows:
                for number in sorted(edges.get(path[-1], [])):
                    if number not in seen and number not in fresh:
                        fresh.add(number)
                        longer.append(path + [number])
            seen |= fresh
            rows = longer
        return None

    def play_line(self, txn):
        word, *rest = txn.lines[0][1:]
        if word in (b"try", b"lock"):
            if self.attempt(txn, word == b"lock", *rest) and txn.outcome is None:
                txn.lines.popleft()
            return
        if word in (b"end", b"abort"):
            self.release(txn, b"done" if word == b"end" else b"aborted")
            return
        if word == b"big":
            txn.big = True
        else:
            self.table.join(txn.number, *rest)
        txn.lines.popleft()

    def play_on(self, txn):
        while txn.outcome is None and not txn.waits and txn.lines:
            self.play_line(txn)

    def sweep(self):
        self.released = False
        for number in self.trace.txns:
            txn = self.txns[number]
            if txn.waits:
                self.play_line(txn)
                self.play_on(txn)

    def settle(self):
        while self.released:
            self.sweep()

    def take(self, line):
        txn = self.txns[line[0]]
        if txn.outcome is None:
            txn.lines.append(line)
            self.play_on(txn)
        self.settle()

    def play(self):
        """The transcript."""
        for line in self.trace.lines:
            self.take(line)
        while any(txn.outcome is None for txn in self.txns.values()):
            ready = [n for n in self.trace.txns if self.txns[n].outcome is None and not self.txns[n].waits]
            if ready:
                self.take((ready[0], b"end"))
            else:
                self.sweep()
                self.settle()
        ends = [b"txn %d %s" % (n, self.txns[n].outcome) for n in self.trace.txns]
        last = b"end %d %d" % (len(self.table.lines), self.table.used())
        return b"".join(line + b"\n" for line in self.table.lines + ends + [last])
