"""What stands in each lane: the bars of what a transaction holds, its waits, and notes of what no bar shows."""

from layout import Item, Lane
from ranges import name_of
from replay import same
from svg import width_of
from transcript import Ask, Free, Join, Who

MOST_IN_A_BOX = 99  # the greatest count that a free's box has room for


def fitting(labels, room):
    """The first of the labels that has room in a bar, if one has."""
    return next((label for label in labels if width_of(label) + 12 <= room), None)


def seen_in(run, window):
    """The transactions that have an event in the window, or are named by one, or by a deadlock that is found in it."""
    effects = run.effects_in(window)
    if len(effects) == len(run.effects):
        return set(run.lives)
    seen = set()
    for effect in effects:
        seen |= {effect.event.txn, *(bar.txn for bar in (*effect.begun, *effect.found))}
        if isinstance(effect.event, Who):
            seen.add(effect.event.named)
        if effect.buffer_ended is not None:
            seen.add(effect.buffer_ended)
    for life in run.lives.values():
        if window.has(life.found):
            seen.update(life.outcome.walk)
    return seen


class LaneMaker:
    """Makes the lanes of a window of a run."""

    def __init__(self, run, window, columns):
        self.run, self.window, self.columns = run, window, columns
        self.lanes = {}

    def name(self, held, tree):
        return name_of(held, tree if self.run.has_trees else None)

    def make(self):
        """The lanes of all transactions that are seen in the window, ascending."""
        for txn in seen_in(self.run, self.window):
            self.lanes[txn] = Lane(txn)
        self.add_bars()
        if self.run.reading:
            self.add_waits()
        for effect in self.run.effects_in(self.window):
            self.add_notes(effect)
            self.follow(effect)
        return [self.lanes[txn] for txn in sorted(self.lanes)]

    def touched(self):
        """The bars that some event in the window began, ended or found."""
        return {bar for effect in self.run.effects_in(self.window) for bar in (*effect.begun, *effect.ended, *effect.found)}

    def add_bars(self):
        touched, others = self.touched(), {}
        for effect in self.run.effects[: self.window.last + 1]:
            for bar in effect.begun:
                if bar.txn not in self.lanes or not self.window.meets(bar.start, bar.end):
                    continue
                if bar in touched:
                    self.add_bar(bar)
                else:
                    others[bar.txn] = others.get(bar.txn, 0) + 1
        for txn, count in others.items():
            self.add_others(txn, count, bool(self.lanes[txn].items))

    def add_bar(self, bar):
        start, end = self.columns.start(bar.start), self.columns.end(bar.end)
        told = "the end of the run" if bar.end is None else bar.end
        hint = f"txn {bar.txn} holds {bar.held.text().decode()} in tree {bar.tree} from {bar.start} to {told}"
        item = Item("bar", start, end, self.name(bar.held, bar.tree), hint)
        item.is_open_left, item.is_open_right = not self.window.has(bar.start), not self.window.has(bar.end)
        if bar.buffered:
            item.solid = end if bar.solid is None else self.solid(bar.solid)
        lane = self.lanes[bar.txn]
        lane.items.append(item)
        lane.of_bar[bar] = item

    def solid(self, place):
        return self.columns.left if place < self.window.first else self.columns.end(place)

    def add_others(self, txn, count, has_more):
        """One bar for all ranges that a transaction holds all the while, and that no event here is about."""
        more = "more " if has_more else ""
        label = f"holds {count} {more}range{'' if count == 1 else 's'} all the while"
        item = Item("bar", self.columns.left, self.columns.right, label, f"txn {txn} {label}", True, True)
        self.lanes[txn].items.append(item)

    def add_waits(self):
        for wait in self.run.reading.waits:
            if wait.txn in self.lanes and self.window.meets(wait.asks[0], wait.end):
                self.add_wait(wait)

    def add_wait(self, wait):
        start, end = self.columns.start(wait.asks[0]), self.columns.end(wait.end)
        name = self.name(wait.asked, wait.tree)
        label = fitting((f"waits for {name}", "waits" if wait.granted else name, name), end - start)
        if label is None:
            label = "" if wait.granted else name
        hint = f"txn {wait.txn} waits for {wait.asked.text().decode()} in tree {wait.tree} from {wait.asks[0]} to {wait.end}"
        item = Item("wait", start, end, label, hint)
        item.is_open_left, item.is_open_right = not self.window.has(wait.asks[0]), not self.window.has(wait.end)
        lane = self.lanes[wait.txn]
        lane.items.append(item)
        lane.of_wait.update({place: item for place in wait.asks})

    def follow(self, effect):
        """A range that is granted behind a wait goes on in its row, and one that took the place of others in that of one of them."""
        for bar in effect.begun:
            lane = self.lanes[bar.txn]
            before = [lane.of_bar[each] for each in effect.ended if each.txn == bar.txn and each.held.overlaps(bar.held)]
            if isinstance(effect.event, Ask) and effect.event.place in lane.of_wait:
                before.insert(0, lane.of_wait[effect.event.place])
            if before:
                lane.of_bar[bar].follows = before[0]

    def add_notes(self, effect):
        event = effect.event
        note = self.note(effect)
        if note is not None:
            item = Item("note", self.columns.centres[event.place] - 9, self.columns.centres[event.place], note, event.line)
            self.lanes[event.txn].items.append(item)
            self.lanes[event.txn].of_note[event.place] = item
        if effect.buffer_ended is not None:
            x = self.columns.centres[event.place]
            self.lanes[effect.buffer_ended].items.append(Item("note", x - 9, x, "buffer ends", event.line))

    def note(self, effect):
        """What the bars do not show of an event, if there is something."""
        event = effect.event
        if isinstance(event, Ask):
            return self.note_of_ask(effect)
        if isinstance(event, Free):
            return self.note_of_free(effect)
        if isinstance(event, Join):
            limit = self.run.reading and self.run.reading.words[event.place] == "limit"
            return f"joins tree {event.tree}{' at the limit' if limit else ''}: {event.before} → {event.after}"
        return None

    def note_of_ask(self, effect):
        ask, word = effect.event, "asks"
        name = self.name(ask.asked, ask.tree)
        if self.run.reading:
            word = self.run.reading.words[ask.place]
        if not ask.owners:
            shown = len(effect.begun) == 1 and same(effect.begun[0].held, ask.asked)
            return None if shown else f"asks {name}"
        if word == "lock":
            return None
        return f"{word} {name}: held by {' '.join(str(owner) for owner in ask.owners)}"

    def note_of_free(self, effect):
        free = effect.event
        shown = len(effect.ended) == 1 and same(effect.ended[0].held, free.asked)
        if shown:
            return None
        count = f": {free.count} ranges" if free.count > MOST_IN_A_BOX else ""
        return f"frees {self.name(free.asked, free.tree)}{count}"
