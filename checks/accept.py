#!/usr/bin/env python3
"""Says whether a transcript is one legal history in which each transaction plays its lines in their order. With a key's text, joins
stop at that mark.

usage: accept.py TRACE TRANSCRIPT [KEY]
"""

import sys

from table import WHOLE, Table, Trace, key_order


class Wrong(Exception):
    """What the transcript has that no run has."""


class Script:
    """What a transaction has still to do, by its lines and its own events so far."""

    def __init__(self, number, trace):
        self.number, self.trace, self.at = number, trace, 0
        self.lines = [line[1:] for line in trace.lines if line[0] == number] + [(b"end",)]
        self.recorded, self.due, self.held = {}, None, False

    def skip(self):
        while self.due is None and self.lines[self.at][0] == b"big":
            self.at += 1

    def end(self):
        """The frees of its release, in their order."""
        self.due = []
        for tree in sorted(self.recorded):
            ranges, buffered = self.recorded[tree]
            self.due += [(tree, held.text()) for held in ([WHOLE] if buffered else ranges)]

    def takes(self, deed, tree, text, reply):
        """One event of the transaction: may it come here?"""
        self.skip()
        line = self.lines[self.at] if self.due is None else (b"",)
        if deed == b"join":
            if line[0] == b"escalate" and line[1] == tree:
                self.at += 1
            elif line[0] not in (b"try", b"lock"):
                raise Wrong("a join that no line makes")
        elif deed == b"ask":
            self.asks(line, tree, text, reply)
        elif deed == b"who":
            if not (line[0] == b"lock" and self.held):
                raise Wrong("a question without a search")
        else:
            self.frees(tree, text)

    def asks(self, line, tree, text, reply):
        if line[0] not in (b"try", b"lock") or line[1] != tree or line[2].text() != text:
            raise Wrong("an ask that is not the next line's")
        held = reply.startswith(b"held")
        if not held:
            ranges, _ = self.recorded.get(tree, ([], False))
            self.recorded[tree] = (ranges + [line[2]], reply == b"buffered")
        if not (held and line[0] == b"lock"):
            self.at += 1
        self.held = held

    def frees(self, tree, text):
        if self.due is None:
            self.end()
        if not self.due or self.due.pop(0) != (tree, text):
            raise Wrong("a free that its release has not next")

    def over(self, outcome):
        self.skip()
        if self.due is None:
            self.end()
        if self.due:
            raise Wrong("it ends without its release")
        word = self.lines[self.at][0]
        right = {b"done": b"end", b"aborted": b"abort"}.get(outcome.split(b" ")[0])
        if right is not None and right != word:
            raise Wrong("another outcome than its last line")


def replay(table, deed, txn, words):
    """The event's line as the table tells it."""
    from table import TEXT, Range

    tree = int(words[0])
    if deed == b"join":
        table.join(txn, tree)
        return tree, b"", b""
    rest = b" ".join(words[1:])
    keys = TEXT.findall(rest)[:2]
    asked = Range(*keys)
    tail = rest[len(keys[0]) + len(keys[1]) + 2 :]
    if deed == b"ask":
        return tree, asked.text(), table.ask(txn, tree, asked)[0]
    if deed == b"who":
        table.who(txn, tree, asked, int(tail.split(b" ")[0]))
    return tree, asked.text(), tail


def accept(trace, transcript, marks=()):
    lines = transcript.split(b"\n")[:-1]
    table, scripts = Table(trace, [key_order(mark) for mark in marks]), {n: Script(n, trace) for n in trace.txns}
    freed = set()
    ends = []
    for line in lines:
        words = line.split(b" ")
        if words[0] in (b"txn", b"end"):
            ends.append(line)
            continue
        txn, deed = int(words[1]), words[2]
        tree, text, reply = replay(table, deed, txn, words[3:]) if deed != b"free" else (None, None, None)
        if deed == b"free":
            from table import TEXT, Range

            tree = int(words[3])
            keys = TEXT.findall(b" ".join(words[4:]))[:2]
            asked = Range(*keys)
            table.free(txn, tree, asked, (txn, tree) not in freed)
            freed.add((txn, tree))
            text = asked.text()
        if table.lines[-1] != line:
            raise Wrong("the table tells %r, and the transcript %r" % (table.lines[-1], line))
        scripts[txn].takes(deed, tree, text, reply)
    wanted = [b"txn %d" % n for n in trace.txns] + [b"end %d %d" % (len(table.lines), table.used())]
    if len(ends) != len(wanted) or any(not e.startswith(w) for e, w in zip(ends, wanted)):
        raise Wrong("the outcomes or the last line")
    for number, line in zip(trace.txns, ends):
        scripts[number].over(line.split(b" ", 2)[2])


def main():
    with open(sys.argv[1], "rb") as trace, open(sys.argv[2], "rb") as transcript:
        try:
            accept(Trace(trace.read()), transcript.read(), [key.encode() for key in sys.argv[3:]])
        except Wrong as wrong:
            print("refused:", wrong)
            return 1
    print("accepted")
    return 0


if __name__ == "__main__":
    sys.exit(main())
