"""The legend: what the marks of a picture mean. Marks that it does not have are left out."""

from collections.abc import Callable
from dataclasses import dataclass

from layout import BAR, Item, Lane
from marks import box, box_of, draw_bar, draw_wait
from svg import Sheet, circle, element, line, rect, width_of, words
from transcript import Ask, Who

SAMPLE = 56
LINE = 24
BETWEEN = 28


@dataclass(frozen=True)
class Entry:
    """A mark as it is drawn in the legend, and what it means."""

    draw: Callable[[float, float], str]
    meaning: str

    def width(self):
        return SAMPLE + width_of(self.meaning, 11) + BETWEEN


def of_box(look, told):
    return lambda x, y: box(x + SAMPLE / 2 - 6, y, look, told)


def of_item(kind, **more):
    """A bar's sample, drawn as in a lane."""

    def draw(x, y):
        sheet, lane = Sheet(), Lane(0)
        item = Item(kind, x, x + SAMPLE - 14, "", "", **more)
        if "solid" in more:
            item.solid = x + more["solid"]
        lane.top = y - BAR / 2 - lane.bar_top(0)
        (draw_bar if kind == "bar" else draw_wait)(sheet, lane, item)
        return "".join(sheet.layers["bars"])

    return draw


def of_open():
    return of_item("bar", is_open_left=True, is_open_right=True)


def of_link(look, dot):
    return lambda x, y: line(x, y, x + SAMPLE - 18, y, look) + circle(x + SAMPLE - 18, y, 4, dot)


def of_circle(x, y):
    return line(x, y + 3, x + SAMPLE - 14, y + 3, "held-edge") + circle(x + SAMPLE / 2 - 6, y + 3, 4, "granted")


def of_merge(x, y):
    middle = x + SAMPLE / 2 - 6
    return rect(x, y - 8, middle - x, 6, "held") + rect(x, y + 2, middle - x, 6, "held") + line(middle, y - 10, middle, y + 10, "join-line")


def of_named(x, y):
    return line(x, y, x + 26, y, "named-line") + rect(x + 26, y - 6, 16, 12, "who", rx=6)


def of_cycle(x, y):
    head = f"M{x + 30},{y - 4.5} l8,4.5 l-8,4.5 Z"
    return line(x, y, x + 32, y, "cycle-line") + element("path", d=head, look="cycle-head")


def of_end(x, y):
    return rect(x + 16, y - 9, 26, 18, "over") + line(x + 16, y - 9, x + 16, y + 9, "end")


def box_entries(scene, events):
    """The boxes of the events that there are."""
    meanings = {
        "granted": "ask that was granted",
        "buffered": "ask that went into the buffer",
        "refused": "ask that was refused: others hold what it overlaps",
        "again": "retry of a wait, refused again",
        "free": "free, and how many ranges went",
        "who": "question of a search: who is in the way of another",
        "join": "join of a tree: its ranges before → after",
    }
    told = {"free": "−1"}
    boxes = dict(box_of(event, scene.is_retry(event)) for event in events)
    return [Entry(of_box(look, told.get(look, boxes[look])), meanings[look]) for look in meanings if look in boxes]


def bar_entries(items):
    """The bars that there are."""
    bars = [item for item in items if item.kind == "bar"]
    kinds = [
        (bool(bars), of_item("bar"), "range held, from its grant to its release"),
        (any(item.is_dashed() for item in bars), of_item("bar", solid=24), "in a buffer, until the edge turns solid"),
        (any(item.kind == "wait" for item in items), of_item("wait"), "a lock line waits for a range"),
        (any(item.is_open_left or item.is_open_right for item in items), of_open(), "goes on outside the window"),
    ]
    return [Entry(draw, meaning) for is_there, draw, meaning in kinds if is_there]


def link_entries(scene, effects):
    """The lines that there are, and the circles of grants that begin no bar."""
    asks = [effect for effect in effects if isinstance(effect.event, Ask)]
    questions = [effect for effect in effects if isinstance(effect.event, Who)]
    kinds = [
        (any(ask.event.owners for ask in asks), of_link("refused-line", "refused-dot"), "from a refused ask to a range in its way"),
        (bool(questions), of_named, "in whose name it is asked (0: nobody is in its way)"),
        (any(question.found for question in questions), of_link("who-line", "who-dot"), "the range that the question found"),
        (any(ask.found and not ask.event.owners for ask in asks), of_circle, "the asker holds this range already"),
        (any(effect.begun and effect.ended for effect in effects), of_merge, "ranges of one owner become one"),
    ]
    return [Entry(draw, meaning) for is_there, draw, meaning in kinds if is_there]


def entries_of(scene):
    """The legend of a scene: the marks that it has."""
    effects, lanes = scene.run.effects_in(scene.window), scene.lanes.values()
    out = box_entries(scene, [effect.event for effect in effects])
    out += bar_entries([item for lane in lanes for item in lane.items])
    out += link_entries(scene, effects)
    if any(scene.window.has(life.found) for life in scene.run.lives.values()):
        out.append(Entry(of_cycle, "deadlock: from each one to the one it waits for"))
    if any(scene.end_of(lane) is not None for lane in lanes):
        out.append(Entry(of_end, "the transaction has ended, and how"))
    return out


def draw_legend(sheet, entries, top, width):
    """Lays the legend out in columns, and tells where it ends."""
    if not entries:
        return top
    column = max(entry.width() for entry in entries)
    columns = max(1, int((width - 20) // column))
    rows = -(-len(entries) // columns)
    for at, entry in enumerate(entries):
        x, y = 10 + at // rows * column, top + 12 + at % rows * LINE
        sheet.put("head", entry.draw(x, y), words(x + SAMPLE, y + 4, entry.meaning, "small"))
    return top + rows * LINE
