"""Reads a transcript: its events, and how its transactions ended. docs/FORMATS.md has the forms of its lines."""

import re
from dataclasses import dataclass

from ranges import KEY, Range, range_of

NUMBER = r"(0|[1-9][0-9]*)"
LIST = r"((?:0|[1-9][0-9]*)(?: (?:0|[1-9][0-9]*))*)"
ASK = re.compile(rf"{NUMBER} {NUMBER} ask {NUMBER} {KEY} {KEY} (granted|buffered|held by {LIST})")
FREE = re.compile(rf"{NUMBER} {NUMBER} free {NUMBER} {KEY} {KEY} {NUMBER}")
WHO = re.compile(rf"{NUMBER} {NUMBER} who {NUMBER} {KEY} {KEY} {NUMBER} held by (?:none|{LIST})")
JOIN = re.compile(rf"{NUMBER} {NUMBER} join {NUMBER} {NUMBER} {NUMBER}")
OUTCOME = re.compile(rf"txn {NUMBER} (?:(done|aborted)|deadlock {LIST}|outoflocks {NUMBER} {NUMBER})")
END = re.compile(rf"end {NUMBER} {NUMBER}")


class Unreadable(Exception):
    """Why an input is not drawn, in one line."""


@dataclass(frozen=True)
class Event:
    """What all events have: a place, a transaction, a tree, and the line that tells them."""

    place: int
    txn: int
    tree: int
    line: str


@dataclass(frozen=True)
class Ask(Event):
    """An ask for a range. It has owners where it was refused."""

    asked: Range
    buffered: bool
    owners: tuple[int, ...]


@dataclass(frozen=True)
class Free(Event):
    """A free of a range, and how many pairs went."""

    asked: Range
    count: int


@dataclass(frozen=True)
class Who(Event):
    """A question who holds a range, in the name of a transaction."""

    asked: Range
    named: int
    owners: tuple[int, ...]


@dataclass(frozen=True)
class Join(Event):
    """A join of a tree, with the pairs before and after it."""

    before: int
    after: int


@dataclass(frozen=True)
class Outcome:
    """How a transaction ended: `done`, `aborted`, `deadlock` with its walk, or `outoflocks` with its look."""

    txn: int
    line: str
    word: str
    walk: tuple[int, ...] = ()
    place: int = 0
    used: int = 0


@dataclass(frozen=True)
class Transcript:
    """A whole transcript: the events in their order, the outcomes ascending, and the used rows at the end."""

    events: tuple[Event, ...]
    outcomes: tuple[Outcome, ...]
    used: int


def numbers(text):
    return tuple(int(word) for word in text.split()) if text else ()


def read_event(line):
    """The event that a line tells, or nothing."""
    if m := ASK.fullmatch(line):
        return Ask(int(m[1]), int(m[2]), int(m[3]), line, range_of(m[4], m[5]), m[6] == "buffered", numbers(m[7]))
    if m := FREE.fullmatch(line):
        return Free(int(m[1]), int(m[2]), int(m[3]), line, range_of(m[4], m[5]), int(m[6]))
    if m := WHO.fullmatch(line):
        return Who(int(m[1]), int(m[2]), int(m[3]), line, range_of(m[4], m[5]), int(m[6]), numbers(m[7]))
    if m := JOIN.fullmatch(line):
        return Join(int(m[1]), int(m[2]), int(m[3]), line, int(m[4]), int(m[5]))
    return None


def read_outcome(line):
    """The outcome that a line tells, or nothing."""
    m = OUTCOME.fullmatch(line)
    if not m:
        return None
    txn = int(m[1])
    if m[2]:
        return Outcome(txn, line, m[2])
    if m[3]:
        return Outcome(txn, line, "deadlock", walk=numbers(m[3]))
    return Outcome(txn, line, "outoflocks", place=int(m[4]), used=int(m[5]))


def lines_of(data):
    """The lines of a transcript whose last line is there."""
    if not data:
        raise Unreadable("the input is empty: a transcript has a last line at least")
    try:
        lines = data.decode("ascii").split("\n")
    except UnicodeDecodeError as error:
        raise Unreadable(f"line {data[: error.start].count(10) + 1} is no line of a transcript") from error
    if lines.pop():
        raise Unreadable("the transcript is cut: its last line has no newline")
    if lines[0].startswith("refused "):
        raise Unreadable(f"the trace was refused, so there is no run to draw: {lines[0][:80]}")
    return lines


def check_order(number, line, event, events, outcomes):
    """An event stands behind the event before it, and before all outcomes."""
    if outcomes:
        raise Unreadable(f"line {number} tells an event behind an outcome: {line[:80]}")
    if event.place != len(events):
        raise Unreadable(f"line {number} tells place {event.place} where place {len(events)} is next")
    if not isinstance(event, Join) and event.asked.low > event.asked.high:
        raise Unreadable(f"line {number} tells a range that runs backwards: {line[:80]}")


def check_outcome(number, outcome, outcomes):
    """The outcomes are ascending, and a deadlock's walk is closed."""
    if outcomes and outcome.txn <= outcomes[-1].txn:
        raise Unreadable(f"line {number} tells an outcome out of order: {outcome.line[:80]}")
    walk = outcome.walk
    if walk and not (len(walk) > 2 and walk[0] == walk[-1] == outcome.txn):
        raise Unreadable(f"line {number} tells a walk that is not closed: {outcome.line[:80]}")


def check_whole(events, outcomes, told):
    """The last line tells how many events there are, and each transaction has an outcome."""
    if told != len(events):
        raise Unreadable(f"the transcript is cut: its last line tells {told} events, and it has {len(events)}")
    named = {event.txn for event in events} | {event.named for event in events if isinstance(event, Who)}
    named.update(*(outcome.walk for outcome in outcomes))
    missing = named - {outcome.txn for outcome in outcomes}
    if missing:
        raise Unreadable(f"the transcript is cut: transaction {min(missing)} has no outcome")


def read_transcript(data):
    """The transcript in these bytes."""
    events, outcomes = [], []
    lines = lines_of(data)
    for number, line in enumerate(lines, 1):
        if event := read_event(line):
            check_order(number, line, event, events, outcomes)
            events.append(event)
        elif outcome := read_outcome(line):
            check_outcome(number, outcome, outcomes)
            outcomes.append(outcome)
        elif (m := END.fullmatch(line)) and number == len(lines):
            check_whole(events, outcomes, int(m[1]))
            return Transcript(tuple(events), tuple(outcomes), int(m[2]))
        else:
            raise Unreadable(f"line {number} is no line of a transcript: {line[:80]}")
    raise Unreadable("the transcript is cut: its last line, which begins with `end`, is missing")
