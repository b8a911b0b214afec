"""Puts a picture together: the title, the places, the lanes with their links, and the legend."""

from lanes import seen_in
from layout import HEAD, LEAST_WIDTH, Columns, gap_width, stack
from legend import draw_legend, entries_of
from links import draw_cycle, draw_links
from marks import draw_box, draw_end, draw_header, draw_items, draw_stem, header_lines, reach
from scene import scene_of
from svg import line, width_of, words

EVERY = (1, 2, 5, 10, 20, 50)


def counted(count, what):
    return f"{count:,} {what}{'' if count == 1 else 's'}"


def header_width(run, window):
    """The room that the names of the lanes need."""
    told = ["txn 1"]
    for txn in seen_in(run, window):
        told += [f"txn {txn}", *header_lines(run, window, txn)]
    return 24 + max(width_of(each) for each in told)


class Picture:
    """A picture of the places of a window of a run."""

    def __init__(self, run, window, title):
        self.run, self.window, self.title = run, window, title
        self.found = [life for life in run.lives.values() if window.has(life.found)]
        gaps = {life.found: gap_width(life.outcome.walk) for life in self.found}
        self.scene = scene_of(run, window, Columns(window, header_width(run, window), gaps))
        self.lanes, self.sheet, self.columns = list(self.scene.lanes.values()), self.scene.sheet, self.scene.columns
        self.bottom = stack(self.lanes)
        self.width = 10 + max([LEAST_WIDTH, self.columns.right, *(reach(self.scene, lane) for lane in self.lanes)])

    def draw(self):
        """The text of the picture."""
        self.draw_title()
        self.draw_places()
        for lane in self.lanes:
            draw_header(self.scene, lane, self.width)
            draw_items(self.scene, lane)
            draw_end(self.scene, lane)
        for effect in self.run.effects_in(self.window):
            lane = self.scene.lanes[effect.event.txn]
            draw_stem(self.scene, lane, effect)
            draw_links(self.scene, effect)
            draw_box(self.scene, lane, effect.event)
        for life in self.found:
            draw_cycle(self.scene, life, self.bottom)
        self.sheet.put("ground", line(0, self.bottom, self.width, self.bottom, "rule"))
        height = self.draw_foot()
        return self.sheet.render(self.width, height, self.title)

    def subtitle(self):
        """The sizes of the run, those of its table where the trace is given, and the window."""
        count = len(self.run.transcript.events)
        told = f"{counted(count, 'event')}, {counted(len(self.run.lives), 'transaction')}"
        if self.run.trace is not None:
            told += f"; {counted(self.run.trace.trees, 'tree')}, limit {self.run.trace.limit}, buffer {self.run.trace.buffer}"
        if self.window.count() < count:
            told += f"; here the places {self.window.first} to {self.window.last}"
        if self.run.transcript.used:
            told += f"; {counted(self.run.transcript.used, 'row')} used at the end"
        return told

    def draw_title(self):
        self.sheet.put("head", words(10, 22, self.title, "title"), words(10, 42, self.subtitle(), "small"))

    def draw_places(self):
        """The numbers of the places, above and below, as many as have room, and a line down from each."""
        if not self.columns.centres:
            return
        room = width_of(str(self.window.last), 11) + 6
        every = next((each for each in EVERY if each * self.columns.step >= room), EVERY[-1])
        self.sheet.put("head", words(10, HEAD - 6, "place", "small"))
        for place, x in self.columns.centres.items():
            self.sheet.put("ground", line(x, HEAD, x, self.bottom, "grid"))
            if place % every == 0:
                self.sheet.put("head", words(x, HEAD - 6, str(place), "small", "middle"))
                self.sheet.put("head", words(x, self.bottom + 14, str(place), "small", "middle"))

    def draw_foot(self):
        """The transactions that are left out, and the legend; tells the height of the picture."""
        top = self.bottom + 34
        for told in self.left_out():
            self.sheet.put("head", words(10, top, told, "small"))
            top += 16
        return draw_legend(self.sheet, entries_of(self.scene), top + 6, self.width) + 16

    def left_out(self):
        """Lines that name the transactions of which nothing is seen in the window."""
        left_out = sorted(set(self.run.lives) - set(self.scene.lanes))
        if not left_out:
            return []
        lines, told = [], f"No event here is of or about the transaction{'' if len(left_out) == 1 else 's'}"
        for txn in left_out:
            if width_of(f"{told} {txn}", 11) > self.width - 30:
                lines.append(told)
                told = "   "
            told += f" {txn}"
        return [*lines, told]
