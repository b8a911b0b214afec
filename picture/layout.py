"""Where things stand: a column for each place, a lane for each transaction, and in a lane rows of bars and notes."""

from dataclasses import dataclass, field

from run import Window
from svg import width_of

LEAST_STEP = 26
MOST_STEP = 90
LEAST_WIDTH = 960
HEAD = 76  # the title, and the places
STRIP = 26  # the part of a lane where its events stand
ROW = 22
BAR = 18
PAD = 6
RIGHT_MARGIN = 190  # room for the words behind the last place, where the columns can be wide
GAP = 12  # between a label and what stands behind it
NUMBER_PAD = 14  # around the number of a transaction in a deadlock's walk


@dataclass
class Columns:
    """The places of a window from left to right, with a wider column behind each place that found a deadlock."""

    window: Window
    left: float
    gaps: dict[int, float]  # the widths of the wider columns, by place
    step: float = field(init=False)  # from one place to the next
    centres: dict[int, float] = field(init=False, default_factory=dict)
    gap_at: dict[int, float] = field(init=False, default_factory=dict)
    right: float = field(init=False)

    def __post_init__(self):
        x = self.left + 4
        room = LEAST_WIDTH - RIGHT_MARGIN - self.left - sum(self.gaps.values())
        self.step = max(LEAST_STEP, min(MOST_STEP, room // max(self.window.count(), 1)))
        for place in range(self.window.first, self.window.last + 1):
            self.centres[place] = x + self.step / 2
            x += self.step
            if place in self.gaps:
                self.gap_at[place] = x
                x += self.gaps[place]
        self.right = x + 4

    def start(self, place):
        """Where a bar begins that began at a place."""
        return self.centres.get(place, self.left)

    def end(self, place):
        """Where a bar ends that ended at a place, or has not ended."""
        return self.centres.get(place, self.right)


@dataclass(eq=False)
class Item:
    """A bar, a wait or a note in a row of a lane, with its label inside it or behind it."""

    kind: str
    start: float
    end: float
    label: str
    hint: str
    is_open_left: bool = False
    is_open_right: bool = False
    solid: float | None = None  # from where on a bar is no longer in a buffer; None for one that never was
    follows: "Item | None" = None  # the item in whose row it goes on, where it can
    row: int = 0

    def is_dashed(self):
        """Whether it begins in a buffer."""
        return self.solid is not None and self.solid > self.start

    def is_label_inside(self):
        return self.kind != "note" and width_of(self.label) + 12 <= self.end - self.start

    def reach(self):
        """How far to the right it goes, with its label."""
        if self.kind == "note":
            return self.start + width_of(self.label) + GAP
        if not self.label or self.is_label_inside():
            return self.end
        return self.end + 5 + width_of(self.label) + GAP


@dataclass
class Lane:
    """A transaction's lane: its items, and which of them a bar of the table, a wait or the note of a place is."""

    txn: int
    items: list[Item] = field(default_factory=list)
    of_bar: dict[object, Item] = field(default_factory=dict)
    of_wait: dict[int, Item] = field(default_factory=dict)  # by the place of an ask
    of_note: dict[int, Item] = field(default_factory=dict)  # by place
    top: float = 0
    rows: int = 0

    def height(self):
        return PAD + STRIP + max(self.rows, 1) * ROW + PAD

    def strip(self):
        """The height of the middle of its events."""
        return self.top + PAD + STRIP / 2 - 3

    def bar_top(self, row):
        return self.top + PAD + STRIP + row * ROW

    def middle(self, item):
        return self.bar_top(item.row) + BAR / 2

    def edge(self, item, from_y):
        """The edge of a bar that is nearer to a height from which a line comes."""
        top = self.bar_top(item.row)
        return top - 1.5 if from_y < top else top + BAR + 1.5

    def pack(self):
        """Gives each item a row in which it has room: that of the item which it follows, or the first one."""
        reaches = []
        for item in sorted(self.items, key=lambda item: item.start):
            free = [row for row, reach in enumerate(reaches) if reach <= item.start]
            if item.follows is not None and item.follows.row in free:
                item.row = item.follows.row
            else:
                item.row = free[0] if free else len(reaches)
            if item.row == len(reaches):
                reaches.append(0)
            reaches[item.row] = item.reach()
        self.rows = len(reaches)


def stack(lanes):
    """Sets the lanes one below another, and tells where the last one ends."""
    top = HEAD
    for lane in lanes:
        lane.pack()
        lane.top = top
        top += lane.height()
    return top


def gap_width(walk):
    """How wide the column of a deadlock is: room for the numbers of its walk, one behind another."""
    return max(80, len(walk) * walk_step(walk) + 10)


def walk_step(walk):
    """From one number of a walk to the next."""
    return max(width_of(str(txn), 11) for txn in walk) + NUMBER_PAD
