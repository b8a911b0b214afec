"""Draws what goes from lane to lane: refusals to the holders, questions, joins, and the walks of deadlocks."""

from layout import BAR, HEAD, gap_width, walk_step
from svg import circle, element, hinted, line, number, rect, width_of, words
from transcript import Ask, Join, Who

ASIDE = 5  # how far a question's two lines stand from the middle of its column


def holder(event, bar, dot):
    """The dot at a range that is in the way of an event."""
    return hinted(f"{event.line}\ntxn {bar.txn}", dot, look="holder")


def draw_refusal(scene, effect):
    """From a refused ask to each range in its way."""
    ask = effect.event
    x, here = scene.x(ask.place), scene.lanes[ask.txn].strip()
    for bar in effect.found:
        lane, item = scene.item_of(bar)
        y = lane.edge(item, here)
        scene.sheet.put("lines", line(x, here, x, y, "refused-line"))
        scene.sheet.put("marks", holder(ask, bar, circle(x, y, 4, "refused-dot")))


def draw_question(scene, effect):
    """From a question to the lane in whose name it is asked, and from there to each range that it found."""
    who = effect.event
    x, here, named = scene.x(who.place), scene.lanes[who.txn].strip(), scene.lanes[who.named].strip()
    if who.named != who.txn:
        scene.sheet.put("lines", line(x - ASIDE, here, x - ASIDE, named, "named-line"))
        scene.sheet.put("marks", named_mark(x, named, who))
    for bar in effect.found:
        lane, item = scene.item_of(bar)
        y = lane.edge(item, named)
        scene.sheet.put("lines", line(x + ASIDE, named, x + ASIDE, y, "who-line"))
        scene.sheet.put("marks", holder(who, bar, circle(x + ASIDE, y, 3, "who-dot")))


def named_mark(x, y, who):
    """The mark in the lane in whose name a question is asked: a ring, or `0` in it where nobody is in its way."""
    told = "" if who.owners else words(x, y + 4, "0", "small", "middle")
    return hinted(who.line, rect(x - 8, y - 6, 16, 12, "who", rx=6), told)


def draw_merges(scene, effect):
    """Where a range takes the place of others: a thick line over each bar that became one, and a thin one behind the bars between."""
    x = scene.x(effect.event.place)
    for bar in effect.begun:
        lane, item = scene.item_of(bar)
        parts = [lane.of_bar[each] for each in effect.ended if each.txn == bar.txn and each.held.overlaps(bar.held)]
        if parts:
            tops = sorted({lane.bar_top(each.row) for each in (item, *parts)})
            scene.sheet.put("lines", line(x, tops[0], x, tops[-1] + BAR, "join-stem"))
            scene.sheet.put("bars", *(line(x, top - 1, x, top + BAR + 1, "join-line") for top in tops))


def draw_join(scene, effect):
    """From a join's box to the lanes of others whose ranges it joined."""
    join = effect.event
    x, here = scene.x(join.place), scene.lanes[join.txn].strip()
    for bar in effect.begun:
        if bar.txn != join.txn:
            lane, item = scene.item_of(bar)
            scene.sheet.put("lines", line(x, here, x, lane.edge(item, here), "join-thread"))


def draw_links(scene, effect):
    """All that an event has to do with other lanes, and with bars that become one."""
    event = effect.event
    draw_merges(scene, effect)
    if isinstance(event, Ask) and event.owners:
        draw_refusal(scene, effect)
    elif isinstance(event, Who):
        draw_question(scene, effect)
    elif isinstance(event, Join):
        draw_join(scene, effect)


def head_of(x, from_y, to_y):
    """An arrow's head that ends at a height."""
    tail = to_y - 7 if from_y < to_y else to_y + 7
    path = f"M{number(x - 4.5)},{number(tail)} L{number(x + 4.5)},{number(tail)} L{number(x)},{number(to_y)} Z"
    return element("path", d=path, look="cycle-head")


def arrow(x, y, next_x, next_y):
    """From one number of a walk to the next: to the right, and then up or down."""
    end = next_y - 9 if y < next_y else next_y + 9
    path = f"M{number(x)},{number(y)} H{number(next_x)} V{number(end)}"
    return element("path", d=path, look="cycle-line") + head_of(next_x, y, end)


def stop(x, y, txn):
    """A number of a walk."""
    size = width_of(str(txn)) + 7
    return rect(x - size / 2, y - 9, size, 18, "cycle-box", rx=4) + words(x, y + 4.5, str(txn), "cycle-words", "middle")


def draw_cycle(scene, life, bottom):
    """A deadlock's walk, in the column behind the event that found it: from each transaction to the one it waits for."""
    walk, left, width = life.outcome.walk, scene.columns.gap_at[life.found], gap_width(life.outcome.walk)
    step = walk_step(walk)
    first = left + (width - step * (len(walk) - 1)) / 2
    at = [(first + step * index, scene.lanes[txn].strip()) for index, txn in enumerate(walk)]
    parts = [arrow(*here, *there) for here, there in zip(at, at[1:])]
    parts += [stop(*here, txn) for here, txn in zip(at, walk)]
    scene.sheet.put("ground", rect(left, HEAD, width, bottom - HEAD, "cycle-column"))
    scene.sheet.put("cycles", hinted(life.outcome.line, *parts, look="walk"))
    scene.sheet.put("head", words(left + width / 2, HEAD - 6, "deadlock", "cycle-words", "middle"))
