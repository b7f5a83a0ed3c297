"""A heavier box in the same stack: the second program's figures by hand, its pairs, and that the comparison catches each slip."""

import unittest
from dataclasses import replace
from fractions import Fraction
from math import ceil
from types import SimpleNamespace
from unittest import mock

from reference import stack
from reference.cases import OVER_HEAVY, OVER_LIGHT
from reference.forecast import factor
from reference.heavier import LEGAL, RAISES, Pair, drawn, exact_faults, falls, faults, heavier, reported_faults
from reference.judge import MARGIN
from reference.stack import exact
from sheets.answer import LashForces
from sheets.sheet import parse
from tests.support import B_ANSWER, fails_by

PAIRS = [drawn(seed) for seed in range(1, 121)]


def sheets(pair):
    return parse(pair.first), parse(pair.second)


class NotIncluded(unittest.TestCase):
    """B over 2,000 and over 10,000 kg, S at level 2 of the closed end."""

    def test_racking_of_tier_2_at_the_closed_end(self):
        # F is 0.25 × 9.81 × mass; Q of tier 2 is 0.45 × 49,050, of tier 1 0.45 F + 49,050. S takes 7,200 N/mm, so that
        # D of level 2 = (Q1 + Q2) / (15,690 + 2 × 7,200) and R of tier 2 = Q2 - 7,200 D.
        for data, mass in ((OVER_LIGHT, 2_000), (OVER_HEAVY, 10_000)):
            q2, q1 = Fraction(45 * 49_050, 100), Fraction(45, 100) * mass * Fraction(981, 400) + 49_050
            due = q2 - 7_200 * (q1 + q2) / 30_090
            self.assertEqual(exact(parse(data))[1].racking[1], due)
        self.assertEqual([exact(parse(data))[1].racking[1] for data in (OVER_LIGHT, OVER_HEAVY)],
                         [Fraction(9_079_155, 2_006), Fraction(4_841_235, 2_006)])

    def test_corner_tension_at_the_deck_of_the_door_end(self):
        # M of two boxes about the deck: F1 at 0.45 × 2,591 and 49,050 at 1.45 × 2,591; V/2 = 0.2 × 9.81 × both masses.
        for data, mass in ((OVER_LIGHT, 2_000), (OVER_HEAVY, 10_000)):
            m = (Fraction(45, 100) * mass * Fraction(981, 400) + Fraction(145, 100) * 49_050) * 2_591
            self.assertEqual(exact(parse(data))[0].tension[0], m / 2_259 - Fraction(981, 500) * (mass + 20_000))
        self.assertEqual([exact(parse(data))[0].tension[0] for data in (OVER_LIGHT, OVER_HEAVY)],
                         [Fraction(41_106_625, 1_004), Fraction(35_514_925, 1_004)])

    def test_no_lash_force_is_lower(self):
        pair = Pair(0, "", "", OVER_LIGHT, OVER_HEAVY)
        self.assertTrue(heavier(*sheets(pair)))
        self.assertEqual(list(faults(pair, answer, None)), [])


class Pairs(unittest.TestCase):
    def test_only_bytes_of_masses_differ(self):
        """The fifth and sixth of a tier's twelve."""
        for pair in PAIRS:
            places = {9 + 12 * tier + byte for tier in range(pair.first[8]) for byte in (4, 5)}
            self.assertEqual(len(pair.first), len(pair.second))
            self.assertLessEqual({i for i, (a, b) in enumerate(zip(pair.first, pair.second)) if a != b}, places)

    def test_each_is_heavier(self):
        for pair in PAIRS:
            self.assertTrue(heavier(*sheets(pair)))

    def test_every_kind_meets_every_raise(self):
        self.assertEqual({(pair.kind, pair.raised) for pair in PAIRS}, {(kind, raised) for kind in LEGAL for raised in RAISES})
        self.assertTrue({pair.raised for pair in PAIRS if pair.forecast} == set(RAISES))

    def test_heaviest_and_one_kilogram(self):
        self.assertTrue(any(tier.mass == 30_480 for pair in PAIRS for tier in parse(pair.second).tiers))
        grown = [[b.mass - a.mass for a, b in zip(*(sheet.tiers for sheet in sheets(pair)))] for pair in PAIRS]
        self.assertTrue(any(sum(each) == 1 for each in grown))


# Sheets that differ in something else, or the wrong way: `heavier` turns each away, and some lash force or shift is lower


def other_tier(index, **changed):
    """The second sheet with one tier other than in the first."""

    def slip(first, second):
        tiers = list(second.tiers)
        tiers[index] = replace(tiers[index], **{name: change(first.tiers[index]) for name, change in changed.items()})
        return first, replace(second, tiers=tuple(tiers))

    return slip


def less_area(first, second):
    lashes = tuple(replace(lash, area=50) for lash in second.closed)
    return first, replace(second, closed=lashes)


def head(**changed):
    return lambda first, second: (replace(first, head=replace(first.head, **changed)), second)


OTHER_SHEETS = {
    "masses compared the wrong way": lambda first, second: (second, first),
    "the top tier's mass left out": other_tier(-1, mass=lambda tier: 1),
    "the lowest tier's mass left out": other_tier(0, mass=lambda tier: 1),
    "A_T lower": other_tier(-1, a_t=lambda tier: 0),
    "out of the wind": other_tier(-1, wind=lambda tier: tier.wind & 2),
    "a thinner lash": less_area,
    "another route": head(route=0),
    "another rule": head(rule=2),
}


class OtherSheets(unittest.TestCase):
    def test_each_is_turned_away_and_shown_by_a_force(self):
        for name, slip in OTHER_SHEETS.items():
            with self.subTest(name):
                changed = [slip(*sheets(pair)) for pair in PAIRS]
                lower = [each for each in changed if next(exact_faults(*each), None)]
                self.assertTrue(lower)
                self.assertFalse(any(heavier(*each) for each in lower))

    def test_other_tier_counts(self):
        first = parse(OVER_LIGHT)
        self.assertFalse(heavier(first, replace(first, tiers=first.tiers[:1])))


# A stand-in: the exact lash forces rounded up, and something else in place of a part of it


def answer(data, thousandths=None, pad=lambda sheet: 0, read=lambda tier: tier):
    sheet = parse(data)
    held = replace(sheet, tiers=tuple(map(read, sheet.tiers)))
    ends = [
        SimpleNamespace(lashes=[LashForces(*(ceil(x) + pad(sheet) for x in (l.tension, l.athwart, l.vertical))) for l in end.lashes])
        for end in exact(held, thousandths)
    ]
    return SimpleNamespace(ends=ends)


def of_mass(mass):
    """Another mass taken for a tier's."""
    return {"read": lambda tier: replace(tier, mass=mass(tier.mass))}


PROGRAMS = {
    "masses by their low byte": of_mass(lambda mass: mass % 256),
    "a mass above 25,000 kg not counted": of_mass(lambda mass: mass if mass <= 25_000 else 0),
    "masses above 20,000 kg halved": of_mass(lambda mass: mass if mass <= 20_000 else mass // 2),
    "the lighter the box, the more is added": {"pad": lambda sheet: (30_480 - min(tier.mass for tier in sheet.tiers)) // 1_000},
    "odd masses reported 9 N higher": {"pad": lambda sheet: 9 * (sheet.tiers[0].mass % 2)},
}


def patched(name, value):
    return mock.patch.object(stack, name, value)


FRACTIONS = {
    "a share above one to the box's own top": ("SHARE_TO_TOP", {1: 145, 2: 150}),
    "a share below zero": ("SHARE_TO_TOP", {1: -45, 2: -50}),
    "stiffer springs under heavier boxes": ("spring", lambda tier, end: tier.mass),
    "F taken off": ("transverse", lambda tier, factor: -tier.mass * tier.a_t * stack.UNIT),
    "F falls with the square": ("transverse", lambda tier, factor: (30_480 - tier.mass) * tier.mass * stack.UNIT // 10_000),
}


class Comparison(unittest.TestCase):
    def found(self, **changed):
        """The pairs that show a stand-in with something changed."""
        check = lambda data: answer(data, **changed)
        forecast = lambda data, wave_height, breadth, hours: answer(data, factor(wave_height, breadth), **changed)
        return (pair for pair in PAIRS if next(faults(pair, check, forecast), None))

    def test_a_right_one_passes(self):
        self.assertEqual(list(self.found()), [])

    def test_each_slip_of_a_program_is_caught(self):
        for name, changed in PROGRAMS.items():
            with self.subTest(name):
                self.assertIsNotNone(next(self.found(**changed), None))

    def test_each_slip_of_the_fractions_is_caught(self):
        """They are held to the request by themselves too."""
        for name, (part, value) in FRACTIONS.items():
            with self.subTest(name), patched(part, value):
                self.assertTrue(any(next(exact_faults(*sheets(pair)), None) for pair in PAIRS))

    def test_a_forecast_is_asked(self):
        """A program that errs by a forecast alone."""
        slip = lambda data, *asked: answer(data, **PROGRAMS["masses by their low byte"])
        self.assertTrue(any(next(faults(pair, answer, slip), None) for pair in PAIRS))

    def test_the_margin(self):
        """A fall of 8 N passes and one of 9 N does not; by 02's margin one of 99 passes and one of 100 does not."""

        def ends(force):
            lashed = SimpleNamespace(lashes=[LashForces(1_000, force, 1_000)])
            return SimpleNamespace(ends=(lashed, SimpleNamespace(lashes=[])))

        for fall, words in ((-5, None), (8, None), (9, "falls by 9 N, 9 or more"), (100, "falls by 100 N, 100 or more")):
            found = list(reported_faults(ends(1_000), ends(1_000 - fall)))
            self.assertEqual(len(found), 0 if words is None else 1)
            self.assertIn(words or "", "".join(found))
            self.assertIn((0, 0, "athwart", fall), list(falls(ends(1_000), ends(1_000 - fall))))
        self.assertEqual(list(reported_faults(ends(1_000), ends(901), MARGIN)), [])
        self.assertEqual(len(list(reported_faults(ends(1_000), ends(900), MARGIN))), 1)

    def test_the_script_fails_on_another_library(self):
        """One that gives the answer of box B for every sheet."""
        fails_by(self, "compare_heavier", "FAULT: seed ", B_ANSWER, count=20)


if __name__ == "__main__":
    unittest.main()
