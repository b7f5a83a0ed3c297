"""Where feet lie, and the warning of those that lie where a ship has no lashing point."""

import unittest
from dataclasses import replace

from lashtool.geometry import POST_SPACING, far_feet, foot_height, foot_out, lash_length
from reference import stack as second_program
from reference.cases import BOX_B, HEAD, ROD_S
from sheets.sheet import Sheet

STACK = Sheet(HEAD, (BOX_B,) * 3, (), ())
SIDE = replace(ROD_S, kind=1)


class Geometry(unittest.TestCase):
    def test_feet(self):
        self.assertEqual(foot_height(STACK, replace(ROD_S, tier=2, lz=2_600)), 2 * 2591 - 2_600)
        self.assertEqual(foot_height(STACK, replace(ROD_S, tier=3, hook=1, lz=6_000)), 2 * 2591 - 6_000)
        self.assertEqual(foot_out(replace(ROD_S, ly=2_200)), -59)
        self.assertEqual(foot_out(replace(SIDE, ly=2_200)), 2_200)
        self.assertEqual(POST_SPACING, second_program.POST_SPACING)

    def test_lengths_are_those_of_the_second_program(self):
        for sides in ((0, 1950, 2600), (1, 1950, 2600), (0, 500, 500), (5_000, 10_000, 20_000), (3, 4000, 12_000)):
            lash = replace(ROD_S, lx=sides[0], ly=sides[1], lz=sides[2])
            self.assertEqual(lash_length(lash), second_program.lash_length(lash))

    def test_far_feet(self):
        for lash, words in (
            (replace(ROD_S, lz=2_591 + 2_000), []),
            (replace(ROD_S, lz=2_591 + 2_001), ["its foot lies 2,001 mm below the deck (LZ 4,592 mm)"]),
            (replace(ROD_S, ly=2_259 + 2_600), []),
            (replace(ROD_S, ly=2_259 + 2_601), ["its foot lies 2,601 mm to windward of the stack (LY 4,860 mm)"]),
            (replace(SIDE, ly=2_600), []),
            (replace(SIDE, ly=2_601), ["its foot lies 2,601 mm to windward of the stack (LY 2,601 mm)"]),
            (replace(SIDE, ly=10_000, lz=20_000), ["its foot lies 17,409 mm below", "its foot lies 10,000 mm to"]),
        ):
            found = list(far_feet(STACK, lash))
            self.assertEqual(len(found), len(words), found)
            for text, due in zip(found, words):
                self.assertTrue(text.startswith(due), text)


if __name__ == "__main__":
    unittest.main()
