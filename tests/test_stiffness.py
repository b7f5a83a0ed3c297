"""The cases on stiffness reach the divisions: of each of their lashes the quotient of doubles fails the test in whole numbers."""

import random
import struct
import unittest
from dataclasses import replace
from math import isqrt

from reference.cases import ROD_S, STIFFNESSES
from reference.judge import MARGIN, figures
from reference.stack import exact
from sheets.sheet import CLOSED, DOOR, LASH_LIMITS, parse
from tests.support import ROOT

SOURCE = ROOT / "crates" / "lash_stiffness" / "src" / "lib.rt"

# The steps that `candidate` below follows, as the crate has them.
STEPS = (
    "let force = float_of(load) * float_of(side * 4194304);",
    "below(force / float_of(cube)) % 1099511627776",
)


def below(number):
    """The whole number nearest to half less than a double from 1 to 2^52, a tie to the even one: the last 52 bits of 2^52 - 0.5 more."""
    return int.from_bytes(struct.pack("<d", number + (2.0**52 - 0.5)), "little") % 2**52


def parts(lash):
    """Modulus × area, LY² and the length."""
    total = lash.lx**2 + lash.ly**2 + lash.lz**2
    return lash.modulus * lash.area, lash.ly**2, isqrt(total - 1) + 1


def candidate(load, side, long):
    force = float(load) * float(side * 2**22)
    return below(force / float(long**3)) % 2**40


def quotient(load, side, long):
    return divmod(load * side * 2**22, long**3)


def passes(load, side, long, q):
    """The test in whole numbers, each of which fits 64 bits."""
    force, p = load * side, q * long
    left = force - p // 2**22 * long**2
    if not 0 <= left < 2**40:
        return False
    over, more = left * 2**22, p % 2**22 * long**2
    if max(force, p, over, more) >= 2**64:
        raise OverflowError(f"{load}, {side}, {long}")
    return 0 <= over - more < long**3


def too_great(lash):
    """By how much the quotient of doubles is too great; 0 exactly if it passes."""
    load, side, long = parts(lash)
    found, (due, _) = candidate(load, side, long), quotient(load, side, long)
    if passes(load, side, long, found) != (found == due):
        raise ValueError(f"the test is wrong about {found}, which should be {due}")
    return found - due


def lashes(case):
    sheet = parse(case.data, case.room)
    return [lash for end in (DOOR, CLOSED) for lash in sheet.lashes(end)]


def moved(sheet, other):
    """The most that a force of one sheet differs from that of another."""
    forces = [[force for end in exact(one) for _, _, force in figures(end)] for one in (sheet, other)]
    return max(abs(one - another) for one, another in zip(*forces, strict=True))


def drawn(count):
    """Lashes at random, some of their sizes at a limit."""
    chance = random.Random(1)
    names = ("lx", "ly", "lz", "area", "modulus")
    for _ in range(count):
        yield replace(ROD_S, **{name: chance.choice((*LASH_LIMITS[name], *(chance.randint(*LASH_LIMITS[name]),) * 4)) for name in names})


class Stiffnesses(unittest.TestCase):
    def test_the_steps_are_those_of_the_crate(self):
        source = SOURCE.read_text()
        for step in STEPS:
            self.assertEqual(source.count(step), 1, step)

    def test_each_lash_of_the_cases_fails(self):
        found = {case.name: [too_great(lash) for lash in lashes(case)] for case in STIFFNESSES}
        self.assertEqual(found, {"stiffness-whole": [-1, -1, -1, -1], "stiffness-near-whole": [-1, -1, 1]})

    def test_why_they_fail(self):
        whole, near_whole = STIFFNESSES
        for lash in lashes(whole):
            due, left = quotient(*parts(lash))
            self.assertEqual((due % 2, left), (1, 0))
        fractions = [quotient(*parts(lash))[1] / parts(lash)[2] ** 3 for lash in lashes(near_whole)]
        self.assertTrue(all(0 < fraction < 0.000_003 for fraction in fractions[:2]), fractions)
        self.assertTrue(0.999_999_8 < fractions[2] < 1, fractions)

    def test_either_way_of_dividing_is_reached(self):
        """A length from 16,384 mm on takes a division more."""
        long = [parts(lash)[2] >= 16_384 for case in STIFFNESSES for lash in lashes(case)]
        self.assertEqual((long.count(True), long.count(False)), (1, 6))

    def test_a_wrong_stiffness_shows(self):
        """Half the stiffness of any one of the lashes moves a force by more than the margin."""
        for case in STIFFNESSES:
            sheet = parse(case.data, case.room)
            for end, name in ((DOOR, "door"), (CLOSED, "closed")):
                for index, lash in enumerate(sheet.lashes(end)):
                    halved = (*sheet.lashes(end)[:index], replace(lash, area=lash.area // 2), *sheet.lashes(end)[index + 1 :])
                    with self.subTest(case.name, end=name, lash=index):
                        self.assertGreater(moved(sheet, replace(sheet, **{name: halved})), MARGIN)

    def test_other_lashes_pass(self):
        self.assertEqual(too_great(ROD_S), 0)
        reached = [lash for lash in drawn(50_000) if too_great(lash) != 0]
        self.assertLess(len(reached), 10, reached)


if __name__ == "__main__":
    unittest.main()
