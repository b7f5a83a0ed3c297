"""The check where the caller has set another rounding of doubles: what is found in them is tested in whole numbers, so that every force
keeps its distance."""

import ctypes
import random
import unittest
from contextlib import contextmanager

from lashlib.calls import loaded
from reference.judge import expected, judge
from reference.samples import extreme, realistic
from sheets.sheet import pack

NEAREST, DOWNWARD, UPWARD, TOWARDS_ZERO = 0x000, 0x400, 0x800, 0xC00  # of fenv.h, on x86-64
SHEETS = 60  # of each kind


@contextmanager
def rounding(way):
    c = ctypes.CDLL(None)
    if c.fesetround(way) != 0:
        raise ValueError(f"no rounding {way:#x}")
    try:
        yield
    finally:
        c.fesetround(NEAREST)


class Roundings(unittest.TestCase):
    def test_rounding_is_set(self):
        """1/3 to the nearest double and above it differ, so that the tests below are not of the nearest alone."""
        three = 3.0
        with rounding(UPWARD):
            above = 1.0 / three
        self.assertGreater(above, 1.0 / three)

    def test_forces_keep_their_distance(self):
        library, draw = loaded(), random.Random(26)
        sheets = [pack(make(draw)) for make in (realistic, extreme) for _ in range(SHEETS)]
        for way in (DOWNWARD, UPWARD, TOWARDS_ZERO):
            for data in sheets:
                with rounding(way):
                    output = library.check(data).output
                self.assertEqual(judge(expected(data), output).faults, [])


if __name__ == "__main__":
    unittest.main()
