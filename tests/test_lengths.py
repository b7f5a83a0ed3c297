"""The searches for a lash's length that the bench times find the paper's length, with as many squares as the pages say."""

import random
import subprocess
import tempfile
import unittest
from math import isqrt
from pathlib import Path

from tests.support import ROOT

SOURCE = ROOT / "bench" / "lengths.c"
LEAST, MOST = (0, 500, 500), (5_000, 10_000, 20_000)

# By name, the most lengths that a search squares.
SQUARES = {"two steps, one trial": 1, "two steps, a loop": 2, "halving": 13, "halving without branches": 13}


def drawn(count):
    """Sides at the ends of their ranges, sums that are a square, one more and one less, and some at random."""
    chance = random.Random(1)
    ends = [(x, y, z) for x in (0, 1, 4_999, 5_000) for y in (500, 501, 9_999, 10_000) for z in (500, 501, 19_999, 20_000)]
    squares = [(0, 1_950, 2_600), (1, 1_950, 2_600), (1_068, 2_000, 2_500)]
    return ends + squares + [tuple(map(chance.randint, LEAST, MOST)) for _ in range(count)]


def length(sides):
    """The least whole number whose square is not below the sum of the sides' squares."""
    return isqrt(sum(side * side for side in sides) - 1) + 1


class Searches(unittest.TestCase):
    def found(self, source, sides):
        """Of each search its lengths of these sides, and how many were squared for each."""
        with tempfile.TemporaryDirectory() as folder:
            program = Path(folder, "lengths")
            words = ["cc", "-O2", "-I", SOURCE.parent, "-x", "c", "-", "-o", program]
            subprocess.run(words, input=source, text=True, check=True)
            given = "".join(f"{x} {y} {z}\n" for x, y, z in sides)
            done = subprocess.run([program, "--check"], input=given, capture_output=True, text=True, check=True)
        lists = {}
        for line in done.stdout.splitlines():
            name, numbers = line.split(": ")
            lists.setdefault(name, []).append(tuple(map(int, numbers.split())))
        return lists

    def wrong(self, source):
        """Names of searches that do not find the lengths with the most squares that are said."""
        sides = drawn(5_000)
        due, lists = list(map(length, sides)), self.found(source, sides)
        self.assertEqual(set(lists), set(SQUARES))
        return [
            name for name, pairs in lists.items()
            if [found for found, _ in pairs] != due or max(squared for _, squared in pairs) != SQUARES[name]
        ]

    def test_each_finds_the_length(self):
        self.assertEqual(self.wrong(SOURCE.read_text()), [])

    def test_a_wrong_start_shows(self):
        source = SOURCE.read_text()
        once = source.replace("return step(g.sum, step(g.sum, ", "return step(g.sum, (")
        self.assertNotEqual(once, source)
        self.assertEqual(self.wrong(once), ["two steps, one trial", "two steps, a loop"])


if __name__ == "__main__":
    unittest.main()
