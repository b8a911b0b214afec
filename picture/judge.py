"""Says whether a picture shows each event of its transcript by a box of its own, each holder that an event names, each outcome and
each walk of a deadlock, and which labels overlap.

The widths of labels are those that `svg.py` takes for them.
"""

from dataclasses import dataclass
from xml.etree import ElementTree

from svg import width_of

SVG = "{http://www.w3.org/2000/svg}"
SIZES = {"title": 15, "small": 11}
ANCHORS = {"start": 0, "middle": 0.5}
HEIGHT = 10  # of a line of text, from its base up
SHARED = 1  # an overlap of so many pixels is not seen


@dataclass(frozen=True)
class Label:
    """A text, and where it stands."""

    text: str
    left: float
    right: float
    base: float

    def overlaps(self, other):
        is_beside = min(self.right, other.right) - max(self.left, other.left) <= SHARED
        return not is_beside and abs(self.base - other.base) < HEIGHT


def labels_of(picture):
    """All labels of a picture, the upper ones first."""
    out = []
    for text in picture.iter(f"{SVG}text"):
        width = width_of(text.text or "", SIZES.get(text.get("class", ""), 12))
        left = float(text.get("x")) - width * ANCHORS[text.get("text-anchor", "start")]
        out.append(Label(text.text or "", left, left + width, float(text.get("y"))))
    return sorted(out, key=lambda label: label.base)


def overlaps_in(picture):
    """The pairs of labels that overlap, in words."""
    labels, out = labels_of(picture), []
    for at, label in enumerate(labels):
        for other in labels[at + 1 :]:
            if other.base - label.base >= HEIGHT:
                break
            if label.overlaps(other):
                out.append(f"the labels {label.text!r} and {other.text!r} overlap")
    return out


def hints_in(picture, look):
    """What the marks of this look tell, line by line, in the order of drawing."""
    groups = (group for group in picture.iter(f"{SVG}g") if group.get("class") == look)
    return [group.find(f"{SVG}title").text.split("\n") for group in groups]


def told_in(picture, look):
    """The transcript's lines that the marks of this look tell."""
    return [hint[0] for hint in hints_in(picture, look)]


def has_holders(picture, events):
    """Whether each event that names holders has a mark at a range of each of them, and no event at a range of another."""
    marks = {}
    for line, txn in hints_in(picture, "holder"):
        marks.setdefault(line, set()).add(txn)
    named = {}
    for line in events:
        _, held, owners = line.rpartition(" held by ")
        if held and owners != "none":
            named[line] = {f"txn {owner}" for owner in owners.split(" ")}
    return marks == named


def faults_of(lines, text, window):
    """What is wrong with the picture of a transcript's lines, in words. With a window, the events are those in it, and outcomes
    are not counted."""
    picture = ElementTree.fromstring(text)
    outcomes = [line for line in lines if line.startswith("txn ")]
    events = [line for line in lines if not line.startswith(("txn ", "end "))]
    faults = overlaps_in(picture)
    if window is not None:
        events = events[window[0] : window[1] + 1]
    elif told_in(picture, "outcome") != outcomes:
        faults.append("the outcomes are not the transcript's")
    elif sorted(told_in(picture, "walk")) != sorted(line for line in outcomes if " deadlock " in line):
        faults.append("the walks are not the transcript's")
    if told_in(picture, "event") != events:
        faults.append("the events are not the transcript's")
    if not has_holders(picture, events):
        faults.append("the holders are not the transcript's")
    return faults
