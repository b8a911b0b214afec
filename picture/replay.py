"""Plays a transcript again: which ranges are held from which place to which, and what each event did to them.

The rules are those of docs/TABLE.md, without scores and limits: the replies are the transcript's. A transcript whose
replies are not those of the ranges held before them is not drawn.
"""

from bisect import bisect_left
from dataclasses import dataclass, field

from ranges import Range
from transcript import Ask, Event, Free, Join, Unreadable, Who


@dataclass(eq=False)
class Bar:
    """A pair of the table: a range that a transaction holds, from the place that began it to the one that ended it."""

    txn: int
    tree: int
    held: Range
    start: int
    buffered: bool = False
    solid: int | None = None  # the place that ended the buffer in which it stood
    end: int | None = None


@dataclass(frozen=True)
class Effect:
    """What an event did: the bars that it began, those that it ended, those that it found, and whose buffer it ended."""

    event: Event
    begun: tuple[Bar, ...] = ()
    ended: tuple[Bar, ...] = ()
    found: tuple[Bar, ...] = ()
    buffer_ended: int | None = None


@dataclass
class Tree:
    """The pairs that a tree holds now, by their left ends, and whether they stand in a buffer."""

    bars: list[Bar] = field(default_factory=list)
    is_buffer: bool = False

    def overlapping(self, asked):
        at, out = bisect_left(self.bars, asked.low, key=lambda bar: bar.held.high), []
        while at < len(self.bars) and self.bars[at].held.low <= asked.high:
            out.append(self.bars[at])
            at += 1
        return out

    def put(self, bar):
        self.bars.insert(bisect_left(self.bars, bar.held.low, key=lambda each: each.held.low), bar)

    def take(self, gone, place):
        for bar in gone:
            bar.end = place
            del self.bars[bisect_left(self.bars, bar.held.low, key=lambda each: each.held.low)]

    def end_buffer(self, place):
        """Whose buffer ended, if there was one."""
        if not self.is_buffer:
            return None
        self.is_buffer = False
        for bar in self.bars:
            bar.solid = place
        return self.bars[0].txn


def wrong(event, what):
    return Unreadable(f"the transcript tells no run: place {event.place}, {what}: {event.line[:80]}")


def spans(bars, asked=None):
    """The least range that covers these bars, and the asked range."""
    span = asked if asked is not None else bars[0].held
    for bar in bars:
        span = span.hull(bar.held)
    return span


def same(one, other):
    return (one.low, one.high) == (other.low, other.high)


def others_of(tree, event, but):
    """The bars of others in the way, which are those of the owners that the event names."""
    others = [bar for bar in tree.overlapping(event.asked) if bar.txn != but]
    if sorted({bar.txn for bar in others}) != list(event.owners):
        raise wrong(event, "these are not the owners of what overlaps")
    return tuple(others)


def play_ask(tree, ask):
    ended = None if ask.buffered else tree.end_buffer(ask.place)
    others = others_of(tree, ask, ask.txn)
    if others:
        return Effect(ask, found=others, buffer_ended=ended)
    own = tree.overlapping(ask.asked)
    span = spans(own, ask.asked)
    if len(own) == 1 and same(own[0].held, span):
        return Effect(ask, found=tuple(own), buffer_ended=ended)
    bar = Bar(ask.txn, ask.tree, span, ask.place, ask.buffered)
    tree.take(own, ask.place)
    tree.put(bar)
    tree.is_buffer = ask.buffered
    return Effect(ask, begun=(bar,), ended=tuple(own), buffer_ended=ended)


def play_free(tree, free):
    whole = free.asked.is_whole() and tree.is_buffer and tree.bars[0].txn == free.txn
    ended = None if whole else tree.end_buffer(free.place)
    gone = [bar for bar in tree.overlapping(free.asked) if bar.txn == free.txn]
    if len(gone) != free.count:
        raise wrong(free, f"{len(gone)} of its ranges overlap")
    tree.take(gone, free.place)
    if whole:
        tree.is_buffer = False
    return Effect(free, ended=tuple(gone), buffer_ended=ended)


def play_who(tree, who):
    ended = None
    if tree.is_buffer and tree.bars[0].txn != who.named:
        ended = tree.end_buffer(who.place)
    return Effect(who, found=others_of(tree, who, who.named), buffer_ended=ended)


def runs_of(bars):
    """The longest runs of neighbours of one owner."""
    runs = []
    for bar in bars:
        if runs and runs[-1][0].txn == bar.txn:
            runs[-1].append(bar)
        else:
            runs.append([bar])
    return runs


def play_join(tree, join):
    ended = tree.end_buffer(join.place)
    runs = runs_of(tree.bars)
    if (len(tree.bars), len(runs)) != (join.before, join.after):
        raise wrong(join, f"it joins {len(tree.bars)} ranges to {len(runs)}")
    begun, gone = [], []
    for run in (run for run in runs if len(run) > 1):
        begun.append(Bar(run[0].txn, join.tree, spans(run), join.place))
        gone += run
    tree.take(gone, join.place)
    for bar in begun:
        tree.put(bar)
    return Effect(join, begun=tuple(begun), ended=tuple(gone), buffer_ended=ended)


PLAYS = {Ask: play_ask, Free: play_free, Who: play_who, Join: play_join}


def replay(transcript):
    """What each event did, by place."""
    trees, effects = {}, []
    for event in transcript.events:
        tree = trees.setdefault(event.tree, Tree())
        effects.append(PLAYS[type(event)](tree, event))
    return effects
