#!/usr/bin/env python3
"""Simulates the rotations that a search makes on its way down, for points that are put in one after another.

usage: rotations.py [HOW_MANY_POINTS]

Told for each order: the rows that an ask passes, on average, and the rows on the longest path at the end.
"""

import random
import sys


class Tree:
    """Rows by number from 1: a key, two links and two estimates of depth, the left one first. Link 0 is none."""

    def __init__(self):
        self.keys, self.links, self.estimates = [None], [[0, 0]], [[0, 0]]
        self.top = 0
        self.steps = 0

    def depth(self, row):
        return max(self.estimates[row]) + 1

    def turned(self, row):
        """The row that stands in the row's place, where it is deeper on one side by two or more."""
        left, right = self.estimates[row]
        if abs(left - right) < 2:
            return row
        side = 0 if left > right else 1
        child = self.links[row][side]
        if child == 0:
            return row
        far = 1 - side
        self.links[row][side], self.links[child][far] = self.links[child][far], row
        self.estimates[row][side] = self.estimates[child][far]
        self.estimates[child][far] = self.depth(row)
        return child

    def hang(self, above, side, row):
        if above == 0:
            self.top = row
        else:
            self.links[above][side] = row

    def put_in(self, key):
        above, side, row = 0, 0, self.top
        while row != 0:
            self.steps += 1
            if above != 0:
                self.estimates[above][side] = self.depth(row)
            row = self.turned(row)
            self.hang(above, side, row)
            above, side = row, 1 if self.keys[row] < key else 0
            row = self.links[above][side]
        self.keys.append(key)
        self.links.append([0, 0])
        self.estimates.append([0, 0])
        self.hang(above, side, len(self.keys) - 1)

    def longest_path(self):
        level, path = [self.top] if self.top else [], 0
        while level:
            path += 1
            level = [below for row in level for below in self.links[row] if below != 0]
        return path


def orders(count):
    ascending = list(range(count))
    shuffled = ascending[:]
    random.Random(1).shuffle(shuffled)
    zigzag = [n // 2 if n % 2 == 0 else count - 1 - n // 2 for n in ascending]
    return {"ascending": ascending, "descending": ascending[::-1], "random": shuffled, "zigzag": zigzag}


def main():
    count = int(sys.argv[1]) if len(sys.argv) > 1 else 60_000
    for name, keys in orders(count).items():
        tree = Tree()
        for key in keys:
            tree.put_in(key)
        print("%-10s steps %.1f, longest path %d" % (name, tree.steps / count, tree.longest_path()))


if __name__ == "__main__":
    main()
