"""What a picture is drawn from: the run and its window, where things stand, and the sheet that takes the drawing."""

from dataclasses import dataclass, field

from lanes import LaneMaker
from layout import Columns, Lane
from run import Run, Window
from svg import Sheet


@dataclass
class Scene:
    """The lanes are by transaction, ascending."""

    run: Run
    window: Window
    columns: Columns
    lanes: dict[int, Lane]
    sheet: Sheet = field(default_factory=Sheet)

    def x(self, place):
        """The middle of a place's column."""
        return self.columns.centres[place]

    def item_of(self, bar):
        """The lane and the item of a bar that an event in the window is about."""
        lane = self.lanes[bar.txn]
        return lane, lane.of_bar[bar]

    def is_retry(self, event):
        return self.run.reading is not None and event.place in self.run.reading.retries

    def end_of(self, lane):
        """Where the transaction has ended, if it has in the window: at the left where it never began."""
        end = self.run.lives[lane.txn].end()
        if end is None:
            return self.columns.left
        return self.x(end) + self.columns.step / 2 if self.window.has(end) else None


def scene_of(run, window, columns):
    """The scene with the lanes of the window, each with its items."""
    lanes = LaneMaker(run, window, columns).make()
    return Scene(run, window, columns, {lane.txn: lane for lane in lanes})
