"""Draws a lane: its name, its bars, waits and notes, a box for each of its events, and its end."""

from lanes import MOST_IN_A_BOX
from layout import BAR
from svg import circle, hinted, line, rect, width_of, words
from transcript import Ask, Free, Who

BOX = 20
LEAST_OVER = 12  # a grey lane that is narrower is left out


def outcome_words(outcome):
    """How a transaction ended, in words."""
    if outcome.word == "deadlock":
        return "deadlock " + " → ".join(str(txn) for txn in outcome.walk)
    if outcome.word == "outoflocks":
        return f"out of locks: {outcome.used} row{'' if outcome.used == 1 else 's'} used at place {outcome.place}"
    return outcome.word


def outcome_look(outcome):
    return {"deadlock": "cycle-words", "outoflocks": "refused-words bold"}.get(outcome.word, "bold")


def header_lines(run, window, txn):
    """The lines below a lane's name: what the lane itself does not show."""
    life, out = run.lives[txn], []
    if run.reading and txn in run.reading.big:
        out.append("big transaction")
    end = life.end()
    if end is not None and not window.has(end):
        word = "out of locks" if life.outcome.word == "outoflocks" else life.outcome.word
        out.append(f"{word} at {end}")
    return out


def draw_header(scene, lane, right):
    """The rule above a lane, and its name."""
    scene.sheet.put("ground", line(0, lane.top, right, lane.top, "rule"))
    scene.sheet.put("head", words(10, lane.strip() + 5, f"txn {lane.txn}", "bold"))
    for index, told in enumerate(header_lines(scene.run, scene.window, lane.txn)):
        scene.sheet.put("head", words(10, lane.strip() + 20 + 14 * index, told, "small"))


def draw_bar(sheet, lane, item):
    """A range that is held: its edge is dashed while it stands in a buffer."""
    top = lane.bar_top(item.row)
    dashed = item.start if item.solid is None else min(item.solid, item.end)
    parts = [rect(item.start, top, item.end - item.start, BAR, "held")]
    for y in (top, top + BAR):
        if dashed > item.start:
            parts.append(line(item.start, y, dashed, y, "buffered-edge"))
        if dashed < item.end:
            parts.append(line(dashed, y, item.end, y, "held-edge"))
    sheet.put("bars", hinted(item.hint, *parts, *caps(item, top)))


def caps(item, top):
    """The ends of a bar: an end outside the window has none."""
    open_ends = ((item.start, item.is_open_left), (item.end, item.is_open_right))
    return [line(x, top - 1, x, top + BAR + 1, "held-cap") for x, is_open in open_ends if not is_open]


def draw_wait(sheet, lane, item):
    top = lane.bar_top(item.row)
    parts = [rect(item.start, top, item.end - item.start, BAR, "wait")]
    parts += [line(item.start, y, item.end, y, "wait-edge") for y in (top, top + BAR)]
    sheet.put("bars", hinted(item.hint, *parts))


def draw_label(sheet, lane, item):
    """An item's label, in its bar or behind it, with a ground of its own where lines or hatching may cross."""
    if not item.label:
        return
    base = lane.bar_top(item.row) + BAR - 5
    if item.is_label_inside():
        x = item.start + 6
    else:
        x = item.start if item.kind == "note" else item.end + 5
    if item.kind == "wait" or not item.is_label_inside():
        sheet.put("words", rect(x - 2, base - 11, width_of(item.label) + 4, 15, "back"))
    look = "refused-words" if ": held by " in item.label else None
    sheet.put("words", words(x, base, item.label, look))


def draw_items(scene, lane):
    for item in lane.items:
        if item.kind == "bar":
            draw_bar(scene.sheet, lane, item)
        elif item.kind == "wait":
            draw_wait(scene.sheet, lane, item)
        draw_label(scene.sheet, lane, item)


def box_of(event, is_retry):
    """The look of an event's box, and what stands in it."""
    if isinstance(event, Ask):
        if event.owners:
            return "again" if is_retry else "refused", "×"
        return ("buffered", "B") if event.buffered else ("granted", "+")
    if isinstance(event, Free):
        return "free", f"−{event.count}" if event.count <= MOST_IN_A_BOX else "−"
    return ("who", "?") if isinstance(event, Who) else ("join", "J")


def box(x, y, look, told):
    width = max(BOX, width_of(told) + 4)
    text_look = {"refused": "refused-text", "again": "refused-words bold"}.get(look, "bold")
    return rect(x - width / 2, y - 9, width, 18, look, rx=4) + words(x, y + 4.5, told, text_look, "middle")


def draw_box(scene, lane, event):
    """An event's box in the strip of its lane. The hint is its line, and the trace's line that made it."""
    look, told = box_of(event, scene.is_retry(event))
    hint = event.line
    if scene.run.reading and event.place in scene.run.reading.lines:
        hint += f"\nby line {scene.run.reading.lines[event.place]} of the trace"
    scene.sheet.put("marks", hinted(hint, box(scene.x(event.place), lane.strip(), look, told), look="event"))


def draw_stem(scene, lane, effect):
    """From an event's box down to what it began, ended, found to be held already or asked for, in its own lane."""
    place, x = effect.event.place, scene.x(effect.event.place)
    found = [bar for bar in effect.found if bar.txn == lane.txn and isinstance(effect.event, Ask)]
    items = [lane.of_bar[bar] for bar in (*effect.begun, *effect.ended, *found) if bar in lane.of_bar]
    items += [of[place] for of in (lane.of_wait, lane.of_note) if place in of]
    if items:
        lowest = max(item.row for item in items)
        scene.sheet.put("lines", line(x, lane.strip(), x, lane.bar_top(lowest) + 2, "stem"))
    for bar in found:
        scene.sheet.put("marks", circle(x, lane.bar_top(lane.of_bar[bar].row) - 1.5, 3.5, "granted"))


def draw_end(scene, lane):
    """Where the transaction has ended: a thick line, how it ended, and from there on a grey lane."""
    x, outcome = scene.end_of(lane), scene.run.lives[lane.txn].outcome
    if x is None:
        return
    told, y = outcome_words(outcome), lane.strip()
    if x + LEAST_OVER < scene.columns.right:
        scene.sheet.put("ground", rect(x, lane.top, scene.columns.right - x, lane.height(), "over"))
    parts = [line(x, y - 11, x, y + 11, "end"), rect(x + 4, y - 9, width_of(told) + 6, 18, "back")]
    parts.append(words(x + 7, y + 4.5, told, outcome_look(outcome)))
    scene.sheet.put("ends", hinted(outcome.line, *parts, look="outcome"))


def reach(scene, lane):
    """How far to the right a lane goes, with the words behind its bars and its end."""
    x = scene.end_of(lane)
    end = 0 if x is None else x + 10 + width_of(outcome_words(scene.run.lives[lane.txn].outcome))
    return max([end, *(item.reach() for item in lane.items)])
