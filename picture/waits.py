"""Tells waits from retries, by the trace that a transcript is a run of: each event is laid at the line that made it."""

from dataclasses import dataclass, field

from ranges import Range, Trace
from replay import same
from transcript import Ask, Free, Join, Unreadable

HEADER_LINES = 4


@dataclass
class Wait:
    """A `lock` line that was refused: the places of its asks, and the place that ended it, by a grant or without one."""

    txn: int
    tree: int
    asked: Range
    asks: list[int]
    end: int | None = None
    granted: bool = False


@dataclass
class Reading:
    """What a trace tells of its run: the waits, the word and the line of each ask and join, and the big transactions."""

    waits: list[Wait] = field(default_factory=list)
    words: dict[int, str] = field(default_factory=dict)  # by place; a join that a full table made is `limit`
    lines: dict[int, int] = field(default_factory=dict)  # by place, counted from 1
    retries: set[int] = field(default_factory=set)  # the places of the asks with which a wait asked again
    big: dict[int, int] = field(default_factory=dict)  # by transaction: the line that said so


def read_trace(data):
    """The trace in these bytes."""
    try:
        trace = Trace(data)
    except (ValueError, IndexError) as error:
        raise Unreadable("the trace is no trace") from error
    if not data.startswith(b"rangelock ") or not data.endswith(b"\n"):
        raise Unreadable("the trace is no trace, or it is cut")
    return trace


class Script:
    """The lines of one transaction, in their order, and how far its events have come."""

    def __init__(self, txn):
        self.txn, self.lines, self.at, self.wait = txn, [], 0, None

    def next(self):
        """The next line that makes an event, as its number, its word and what it names; or nothing."""
        while self.at < len(self.lines) and self.lines[self.at][1] == b"big":
            self.at += 1
        return self.lines[self.at] if self.at < len(self.lines) else (0, b"")

    def join(self, join, reading):
        number, word, *names = self.next()
        if word == b"escalate" and names[0] == join.tree:
            self.at += 1
            self.tell(join, "escalate", number, reading)
        else:
            self.tell(join, "limit", number, reading)

    def ask(self, ask, reading):
        number, word, *names = self.next()
        if word not in (b"try", b"lock") or names[0] != ask.tree or not same(names[1], ask.asked):
            raise Unreadable(f"the transcript is no run of the trace: place {ask.place} asks for what is not the next line: {ask.line[:80]}")
        self.tell(ask, word.decode(), number, reading)
        if word == b"lock":
            self.lock(ask, reading)
        if word == b"try" or not ask.owners:
            self.at += 1

    def lock(self, ask, reading):
        if ask.owners and self.wait is None:
            self.wait = Wait(self.txn, ask.tree, ask.asked, [])
            reading.waits.append(self.wait)
        if self.wait is not None:
            if self.wait.asks:
                reading.retries.add(ask.place)
            self.wait.asks.append(ask.place)
        if not ask.owners:
            self.end_wait(ask.place, True)

    def end_wait(self, place, granted):
        if self.wait is not None:
            self.wait.end, self.wait.granted, self.wait = place, granted, None

    @staticmethod
    def tell(event, word, number, reading):
        reading.words[event.place] = word
        if number:
            reading.lines[event.place] = number


def scripts_of(trace, reading):
    """The lines of each transaction; the big ones are told to the reading."""
    scripts = {}
    for number, (txn, *line) in enumerate(trace.lines, HEADER_LINES + 1):
        scripts.setdefault(txn, Script(txn)).lines.append((number, *line))
        if line[0] == b"big":
            reading.big.setdefault(txn, number)
    return scripts


def read_waits(transcript, trace):
    """What the trace tells of the run in the transcript."""
    reading = Reading()
    scripts = scripts_of(trace, reading)
    if set(scripts) != {outcome.txn for outcome in transcript.outcomes}:
        raise Unreadable("the transcript is no run of the trace: it has other transactions")
    for event in transcript.events:
        script = scripts[event.txn]
        if isinstance(event, Ask):
            script.ask(event, reading)
        elif isinstance(event, Join):
            script.join(event, reading)
        elif isinstance(event, Free):
            script.end_wait(event.place, False)
    for outcome in transcript.outcomes:
        if outcome.word == "outoflocks":
            scripts[outcome.txn].end_wait(outcome.place, False)
    return reading
