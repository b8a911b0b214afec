"""Ranges of keys and traces, as checks/table.py reads them, and how a range is called in a picture."""

import sys
from pathlib import Path

sys.path.append(str(Path(__file__).resolve().parent.parent / "checks"))

from table import TEXT, Range, Trace  # noqa: E402  (the path has to be known first)

__all__ = ["KEY", "Range", "Trace", "name_of", "range_of"]

KEY = "(%s)" % TEXT.pattern.decode()
LONGEST_KEY = 18


def range_of(left, right):
    """The range between two texts of keys."""
    return Range(left.encode(), right.encode())


def short(key):
    """A key's text, cut where it is long."""
    text = key.decode()
    if len(text) <= LONGEST_KEY:
        return text
    tail = '"*' if text.endswith("*") else '"'
    return text[: LONGEST_KEY - len(tail) - 1] + "…" + tail


def name_of(held, tree=None):
    """What a picture calls a range: its key, or both ends; in front of it the tree, where one is given."""
    ends = short(held.left) if held.left == held.right else f"{short(held.left)} .. {short(held.right)}"
    return ends if tree is None else f"{tree}: {ends}"
