"""The meaning of each refusal, naming the place and the field."""

import unittest
from dataclasses import replace
from random import Random

from lashtool.refusals import explain
from reference.cases import BOX_B, HEAD, ROD_S
from sheets.sheet import Refused, Sheet, pack, parse


def stack(tiers=(BOX_B, BOX_B), door=(), closed=(), **head):
    return pack(Sheet(replace(HEAD, **head), tuple(tiers), tuple(door), tuple(closed)))


def tiers(**changes):
    return (BOX_B, replace(BOX_B, **changes))


def rods(**changes):
    return (ROD_S, replace(ROD_S, tier=2, **changes))


# (bytes, the two numbers, what they mean)
MEANINGS = (
    (b"", (1, 0), "the sheet has 0 bytes, too few for the head (bytes 0 to 7)"),
    (stack()[:8], (1, 8), "the sheet has 8 bytes, too few for the tier count (byte 8)"),
    (stack()[:30], (1, 30), "the sheet has 30 bytes, too few for tier 2 (bytes 21 to 32)"),
    (stack()[:34], (1, 34), "the sheet has 34 bytes, too few for the closed end's lash count (byte 34)"),
    (stack(door=rods())[:60], (1, 60),
     "the sheet has 60 bytes, too few for door end, lash 2 (bytes 54 to 73)"),
    (stack() + b"abc", (2, 35), "bytes follow the last entry: 3 from byte 35 on"),
    (stack(rule=0), (3, 0), "the head: rule 0 is not known; it has to be 1 or 2"),
    (stack(rule=3), (3, 0), "the head: rule 3 is not known; it has to be 1 or 2"),
    (stack(rule=255, zero=9), (3, 0), "the head: rule 255 is not known; it has to be 1 or 2"),
    (stack(rule=2, zero=9), (3, 0), "the head: byte 3 is 9; it has to be 0"),
    (stack(zero=9), (3, 0), "the head: byte 3 is 9; it has to be 0"),
    (stack(route=13), (4, 1), "the head: route 13 is outside 0 to 12"),
    (stack(lock_material=3), (5, 2), "the head: lock material has code 3; codes are 0 to 2"),
    (stack(lock_breaking=0), (5, 2), "the head: lock breaking_load 0 is outside 1 to 2,000,000 N"),
    (stack(()), (6, 8), "the tier count (byte 8) is 0; a stack has 1 to 10 tiers"),
    (stack(tiers(mass=40_000)), (7, 21),
     "tier 2 (bytes 21 to 32): mass 40,000 is outside 1 to 30,480 kg"),
    (stack(tiers(wind=4, a_t=2_000)), (7, 21),
     "tier 2 (bytes 21 to 32): wind has code 4; codes are 0 to 3, "
     "A_T 2,000 is outside 0 to 1,500 thousandths of g"),
    (stack(tiers(size=30)), (7, 21), "tier 2 (bytes 21 to 32): size 30 is not 20 or 40 feet"),
    (stack(tiers(height=2438)), (7, 21),
     "tier 2 (bytes 21 to 32): height 2,438 is not 2,591 or 2,896 mm, the heights at 40 feet"),
    (stack(tiers(a_vmax=700)), (7, 21), "tier 2 (bytes 21 to 32): A_Vmin 800 is above A_Vmax 700"),
    (stack(tiers(a_vmin=1_001)), (7, 21),
     "tier 2 (bytes 21 to 32): A_Vmin 1,001 is outside 0 to 1,000 thousandths of g"),
    (stack(tiers(size=20)), (8, 21),
     "tier 2 (bytes 21 to 32): size 20 feet differs from tier 1, which has 40"),
    (stack()[:-1] + b"\x09", (9, 34), "the closed end's lash count (byte 34) is 9; at most 8 are allowed"),
    (stack(closed=rods(ly=499, kind=2)), (10, 55),
     "closed end, lash 2 (bytes 55 to 74): kind has code 2; codes are 0 to 1, "
     "LY 499 is outside 500 to 10,000 mm"),
    (stack(door=[replace(ROD_S, tier=3)]), (11, 34),
     "door end, lash 1 (bytes 34 to 53): tier 3 is not in this stack of 2 tiers"),
    (stack(door=[replace(ROD_S, hook=1)]), (11, 34),
     "door end, lash 1 (bytes 34 to 53): "
     "it is hooked to the bottom corner of tier 1, which stands on the deck"),
    (stack(door=[ROD_S, ROD_S]), (12, 54),
     "door end, lash 2 (bytes 54 to 73): tier 1 top cross is given twice, here and right before"),
    (stack(door=[replace(ROD_S, tier=2), ROD_S]), (12, 54),
     "door end, lash 2 (bytes 54 to 73): tier 1 top cross comes after tier 2 top cross; "
     "lashes go by tier, then hook (top first), then kind (cross first)"),
)


class Meanings(unittest.TestCase):
    def test_each(self):
        for data, numbers, meaning in MEANINGS:
            with self.subTest(meaning):
                self.assertEqual(explain(data, *numbers), meaning)
        self.assertEqual({numbers[0] for _, numbers, _ in MEANINGS}, set(range(1, 13)))

    def test_numbers_that_do_not_belong_to_the_bytes(self):
        unknown = "what this means for these bytes is not known here"
        for data, numbers in ((b"", (7, 21)), (stack(), (3, 0)), (stack(), (13, 834)), (stack(), (99, 1))):
            self.assertEqual(explain(data, *numbers), unknown)

    def test_every_refusal_of_damaged_sheets_has_a_meaning(self):
        random = Random(2)
        whole = stack(door=rods(), closed=rods(kind=1))
        for _ in range(2000):
            data = bytearray(whole)
            for _ in range(random.randint(1, 3)):
                data[random.randrange(len(data))] = random.randrange(256)
            data = bytes(data[: random.choice((len(data), random.randrange(len(data))))])
            try:
                parse(data)
            except Refused as refused:
                self.assertNotIn("not known here", explain(data, refused.number, refused.second))


if __name__ == "__main__":
    unittest.main()
