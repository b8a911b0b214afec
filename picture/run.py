"""A run as it is drawn: what the transcript tells, played again, and what the trace adds where it is given."""

from dataclasses import dataclass

from ranges import Trace
from replay import Effect, replay
from transcript import Ask, Outcome, Transcript, Unreadable, Who
from waits import Reading, read_waits


@dataclass(frozen=True)
class Life:
    """A transaction's first and last place, if it has an event, how it ended, and where its deadlock was found."""

    outcome: Outcome
    first: int | None
    last: int | None
    found: int | None

    def end(self):
        """The place behind which it has ended: that of its last event, or of the look that found no room."""
        if self.outcome.word == "outoflocks":
            return max(self.outcome.place - 1, self.last or 0)
        return self.last


@dataclass(frozen=True)
class Window:
    """The places that are drawn, the first and the last one included."""

    first: int
    last: int

    def count(self):
        return self.last - self.first + 1

    def has(self, place):
        return place is not None and self.first <= place <= self.last

    def meets(self, start, end):
        """Whether something from a place to another, or without an end, is seen here."""
        return start <= self.last and (end is None or end >= self.first)


@dataclass(frozen=True)
class Run:
    transcript: Transcript
    effects: list[Effect]
    trace: Trace | None  # these two only where the trace is given
    reading: Reading | None
    lives: dict[int, Life]
    has_trees: bool  # whether there are several

    def effects_in(self, window):
        return self.effects[window.first : window.last + 1]


def lives_of(transcript):
    """Each transaction's life, by its number."""
    first, last, searched = {}, {}, {}
    for event in transcript.events:
        first.setdefault(event.txn, event.place)
        last[event.txn] = event.place
        if isinstance(event, (Ask, Who)):
            searched[event.txn] = event.place
    lives = {}
    for outcome in transcript.outcomes:
        txn = outcome.txn
        found = searched.get(txn) if outcome.word == "deadlock" else None
        lives[txn] = Life(outcome, first.get(txn), last.get(txn), found)
    return lives


def read_run(transcript, trace=None):
    """The run that a transcript tells."""
    reading = None if trace is None else read_waits(transcript, trace)
    trees = {event.tree for event in transcript.events}
    has_trees = len(trees) > 1 or (trace is not None and trace.trees > 1)
    return Run(transcript, replay(transcript), trace, reading, lives_of(transcript), has_trees)


def window_of(run, first, last):
    """The window from one place to another; where they are not given, from the first place to the last."""
    count = len(run.transcript.events)
    if first is None and last is None:
        return Window(0, count - 1)
    first, last = first or 0, count - 1 if last is None else last
    if first >= count:
        raise Unreadable(f"there is no place {first}: the run has {count} events")
    if first > last:
        raise Unreadable(f"the window is empty: it goes from {first} to {last}")
    return Window(first, min(last, count - 1))
