"""Accelerations from roll: the second program's figures, and that its comparison catches each slip."""

import unittest
from dataclasses import astuple, replace
from fractions import Fraction
from math import ceil, floor
from unittest import mock

from reference import roll
from reference.roll import Accelerations, Condition, Refused, accelerations, exact, factor, faults, packed
from reference.roll_asked import FIGURES, UPRIGHT, USUAL, conditions, unit
from tests.support import fails_by


class Figures(unittest.TestCase):
    """Worked out apart from this program, in fractions from the printed page."""

    def test_exact(self):
        # sin + 0.0701 x 25 / 400 x 15 + 0.2012 sin, cos +- 0.0701 x 25 / 400 x 20 + 0.2012 cos
        self.assertEqual([1000 * g for g in exact(USUAL)], [Fraction("573.34587"), Fraction("1176.27256"), Fraction("1001.02256")])

    def test_given(self):
        for given, due in (
            (USUAL, (574, 1177, 1000)),
            (replace(USUAL, x=60_000), (574, 1177, 1000)),
            (replace(USUAL, x=210_000), (574, 1177, 1000)),
            (replace(USUAL, x=0), (616, 1268, 909)),
            (replace(USUAL, x=300_000, y=-20_000, z=-30_000), (765, 1304, 873)),
            (UPRIGHT, (0, 1000, 1000)),
            (replace(UPRIGHT, heave=10_000, x=200_000), (0, 2700, 1000)),
            (replace(UPRIGHT, angle=1, period=10_000, y=1), (0, 1001, 999)),
            (Condition(10_000, 0, 5000, 9000, 10_000, 500_000, 0, 250_000, 0, 0), (1500, 0, 0)),
        ):
            with self.subTest(given):
                self.assertEqual(accelerations(given), Accelerations(*due))

    def test_refused(self):
        for given, due in (
            (Condition(10_000, 0, 5001, 9000, 10_000, 500_000, 0, 250_000, 0, 0), (19, 1)),
            (Condition(5000, 8660, 0, 3000, 1000, 200_000, 0, 100_000, 500_000, 0), (19, 2)),
            (Condition(10_000, 0, 0, 9000, 2000, 200_000, 0, 100_000, 1, 0), (19, 3)),
            (replace(USUAL, length=0), (18, 0)),
            (replace(USUAL, period=0), (18, 0)),
            (replace(USUAL, x=-1), (18, 0)),
            (replace(USUAL, sine=0), (18, 0)),
        ):
            with self.subTest(given):
                self.assertEqual(accelerations(given), Refused(*due))

    def test_each_fault_alone(self):
        alone = {tuple(said for said, found in faults(given) if found) for given in FIGURES}
        missed = [name for name, _ in faults(USUAL) if (name,) not in alone]
        self.assertEqual(missed, ["a ship's length of zero"])  # x is off such a ship too

    def test_factor(self):
        for x, due in ((0, "0.5"), (30, "0.25"), (60, "0"), (150, "0"), (210, "0"), (255, "0.35"), (300, "0.7")):
            self.assertEqual(factor(Fraction(300), Fraction(x)), Fraction(due))

    def test_packed(self):
        self.assertEqual(packed(Refused(19, 3)), 0x313)
        self.assertEqual(packed(Accelerations(0x1234, 0xABCD, 0x0F0F)), 0x000F0FABCD123400)

    def test_rounded_sine_and_cosine_are_taken(self):
        for angle in range(9001):
            sine, cosine = unit(angle)
            self.assertLessEqual(abs(sine**2 + cosine**2 - 100_000_000), 13_599)


def rounded(given, transverse=ceil, most=ceil, least=floor, cut=lambda number: min(number, 1000), values=exact):
    """What comes of other roundings, another cut or other formulas."""
    if any(found for _, found in faults(given)):
        return Refused(18)
    numbers = [1_000 * number for number in values(given)]
    found = Accelerations(transverse(numbers[0]), most(numbers[1]), cut(least(numbers[2])))
    for which, (number, limit) in enumerate(zip(astuple(found), (1_500, 3_000, 1_000)), 1):
        if not 0 <= number <= limit:
            return Refused(19, which)
    return found


def parts(given, sign=1, k3=None, k_c=Fraction("0.0701"), across=None):
    """The formulas with a part changed."""
    sine, cosine, heave = (Fraction(number, 10_000) for number in (given.sine, given.cosine, given.heave))
    length, centre, x, y, z = (Fraction(mm, 1_000) for mm in (given.length, given.centre, given.x, given.y, given.z))
    factors = (k3 or (lambda length, x: (factor(length, x),) * 2))(length, x)
    turn = k_c * Fraction(given.angle, 100) / Fraction(given.period, 100) ** 2
    distance = abs(y) if across == "y" else abs(z) if across == "z" else abs(z - centre)
    return (
        sine + turn * distance + (1 + factors[0]) * heave * sine,
        cosine + turn * abs(y) + (1 + factors[0]) * heave * cosine,
        cosine - turn * abs(y) + sign * (1 - factors[1]) * heave * cosine,
    )


def changed(**how):
    return lambda given: rounded(given, values=lambda each: parts(each, **how))


def last_fault(given):
    due = accelerations(given)
    if due.__class__ is Refused and due.number == 19:
        numbers = [1_000 * number for number in exact(given)]
        found = [ceil(numbers[0]), ceil(numbers[1]), min(floor(numbers[2]), 1000)]
        return Refused(19, max(i for i, (number, limit) in enumerate(zip(found, (1_500, 3_000, 1_000)), 1) if not 0 <= number <= limit))
    return due


def outside_first(given):
    """19 before 18, where both can be told."""
    if not given.length or not given.period:
        return accelerations(given)
    with mock.patch.object(roll, "faults", lambda given: iter(())):
        due = accelerations(given)
    return due if isinstance(due, Refused) else accelerations(given)


def cut_before(given):
    """A_Vmin cut at 1.0 g before the roll is taken off."""
    def values(each):
        transverse, most, least = exact(each)
        taken = (most - least - 2 * factor(Fraction(each.length), Fraction(each.x)) * Fraction(each.heave * each.cosine, 10**8)) / 2
        return transverse, most, min(least + taken, Fraction(1)) - taken

    return rounded(given, values=values)


def taken(**limits):
    """A limit of 18 that is another."""
    def slip(given):
        with mock.patch.multiple(roll, **limits):
            return accelerations(given)

    return slip


def rolls(given):
    """Whether the roll is no whole number of thousandths."""
    return given.period and any(part * 701 * given.angle % (100 * given.period**2) for part in (given.y, given.z - given.centre))


def one_more(given):
    return (lambda number: floor(number) + 1) if rolls(given) else ceil


def one_less(given):
    return (lambda number: ceil(number) - 1) if rolls(given) else floor


SLIPS = {
    "A_Vmin rounded up": lambda given: rounded(given, least=ceil),
    "A_T rounded down": lambda given: rounded(given, transverse=floor),
    "A_Vmax rounded down": lambda given: rounded(given, most=floor),
    "rounded to nearest": lambda given: rounded(given, round, round, round),
    "A_Vmin rounded towards zero": lambda given: rounded(given, least=int),
    "A_Vmin not cut": lambda given: rounded(given, cut=lambda number: number),
    "A_Vmin cut before the roll is taken off": cut_before,
    "A_Vmax cut too": lambda given: rounded(given, most=lambda number: min(ceil(number), 1000)),
    "y in place of z - R": changed(across="y"),
    "z in place of z - R": changed(across="z"),
    "A_Vmin's heave taken off": changed(sign=-1),
    "k_C 0.0700": changed(k_c=Fraction("0.0700")),
    "k_3 from forward": changed(k3=lambda length, x: (factor(length, length - x),) * 2),
    "k_3 left out": changed(k3=lambda length, x: (0, 0)),
    "1 + k_3 in A_Vmin": changed(k3=lambda length, x: (factor(length, x), -factor(length, x))),
    "k_3 aft as forward": changed(k3=lambda length, x: (factor(length, x) * (Fraction("1.4") if x < length / 2 else 1),) * 2),
    "A_T one more where it is whole with a roll": lambda given: rounded(given, transverse=one_more(given)),
    "A_Vmax one more where it is whole with a roll": lambda given: rounded(given, most=one_more(given)),
    "A_Vmin one less where it is whole with a roll": lambda given: rounded(given, least=one_less(given)),
    "19's number of the last fault": last_fault,
    "19 before 18": outside_first,
    "a period of 100 s refused": taken(MOST_PERIOD=9_999),
    "a period over 100 s taken": taken(MOST_PERIOD=10_001),
    "an angle over 90 degrees taken": taken(MOST_ANGLE=9_001),
    "90 degrees refused": taken(MOST_ANGLE=8_999),
    "a0 over 1 taken": taken(MOST_HEAVE=10_001),
    "a0 of 1 refused": taken(MOST_HEAVE=9_999),
    "500,001 mm taken": taken(FARTHEST=500_001),
    "500,000 mm refused": taken(FARTHEST=499_999),
    "squares 15,006 off taken": taken(FURTHEST=15_006),
    "squares 15,000 off refused": taken(FURTHEST=14_999),
    "x at the ship's length refused": lambda given: Refused(18) if given.x == given.length else accelerations(given),
    "x of 0 refused": lambda given: Refused(18) if given.x == 0 else accelerations(given),
    "numbers cut to 16 bits": lambda given: accelerations(replace(given, sine=given.sine % 2**16, cosine=given.cosine % 2**16)),
    "y to port taken as 0": lambda given: accelerations(replace(given, y=max(given.y, 0))),
}


class Comparison(unittest.TestCase):
    @classmethod
    def setUpClass(cls):
        cls.asked = [given for _, given in conditions(count=1_000)]
        cls.due = [packed(accelerations(given)) for given in cls.asked]

    def test_each_slip_is_caught(self):
        for name, slip in SLIPS.items():
            with self.subTest(name):
                self.assertTrue(any(packed(slip(given)) != due for given, due in zip(self.asked, self.due)))

    def test_the_formulas_that_slips_change_are_the_printed_ones(self):
        for given in self.asked[:500]:
            if given.length and given.period:
                self.assertEqual(parts(given), exact(given))
            self.assertEqual(rounded(given), accelerations(given))

    def test_the_script_fails_on_another_library(self):
        """One that says the same of all, which is due for a single condition."""
        fails_by(self, "compare_roll", "FAULT: figure", b"", roll=packed(accelerations(USUAL)))


if __name__ == "__main__":
    unittest.main()
