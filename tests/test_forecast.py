"""Short voyages by forecast: the second program's factor and refusals by hand, the tool's factor beside it, and that the comparison
catches each slip."""

import random
import unittest
from dataclasses import replace
from math import ceil, isqrt
from unittest import mock

from lashlib.calls import Reply
from lashtool.forecast import Forecast
from reference import forecast_held as held
from reference import stack
from reference.forecast import expected, factor, taken
from reference.forecast_asked import FACTORS, FAULTY, GREATEST, ROUTED, SHOWING, drawn, edges, steps
from reference.judge import judge
from reference.stack import exact, wind
from sheets.limits import findings
from sheets.answer import End, LashForces
from sheets.sheet import Refused, parse
from tests.support import B_ANSWER, answer_bytes, fails_by


class Factors(unittest.TestCase):
    def test_by_hand(self):
        # root of 2,500 is 50: t = 400 + H; root of 1: 400 + 50 H; root of 3,220 is 56.745: 50 × 300 / 56.745 = 264.34
        for wave_height, breadth, due in (
            (300, 2_500, 700), (200, 2_500, 600), (201, 2_500, 601), (600, 2_500, 1_000), (601, 2_500, 1_000),
            (300, 3_220, 665), (0, 1, 600), (4, 1, 600), (5, 1, 650), (12, 1, 1_000), (13, 1, 1_000), (3, 1, 600),
            (GREATEST, 1, 1_000), (0, GREATEST, 600), (GREATEST, GREATEST, 1_000), (1_024, GREATEST, 601), (3_071, GREATEST, 1_000),
        ):
            with self.subTest(wave_height=wave_height, breadth=breadth):
                self.assertEqual(factor(wave_height, breadth), due)

    def test_least_by_the_inequality(self):
        """By squares: the factor is enough unless it is 1,000, and the one before is not unless it is 600."""
        chance = random.Random(1)
        for asked in steps(chance):
            found, waves = factor(asked.wave_height, asked.breadth), 2_500 * asked.wave_height**2
            self.assertTrue(found == 1_000 or (found - 400) ** 2 * asked.breadth >= waves)
            self.assertTrue(found == 600 or (found - 401) ** 2 * asked.breadth < waves)

    def test_the_tools_factor(self):
        for asked in [*steps(random.Random(2)), *(each for each in edges() if each.breadth)]:
            self.assertEqual(Forecast(asked.wave_height, asked.breadth, 0).thousandths, factor(asked.wave_height, asked.breadth))

    def test_steps_reach_every_factor(self):
        asked = list(steps(random.Random(1)))
        equal = {factor(a.wave_height, a.breadth) for a in asked if exactly(a.wave_height, a.breadth)}
        self.assertEqual(equal, set(FACTORS))

    def test_a_thousandth_shows(self):
        for data in SHOWING:
            sheet = parse(data)
            first, next_ = (exact(sheet, thousandths)[0].racking[0] for thousandths in (700, 701))
            self.assertGreater(next_ - first, 100)


def exactly(wave_height, breadth):
    return (factor(wave_height, breadth) - 400) ** 2 * breadth == 2_500 * wave_height**2


class Refusals(unittest.TestCase):
    def test_order(self):
        for data, breadth, hours, room, due in (
            (FAULTY, 0, 72, 833, (3, 0)), (ROUTED, 0, 72, 833, (20, 0)), (ROUTED, 2_500, 0, 834, (20, 0)),
            (SHOWING[0], 0, 0, 833, (21, 0)), (SHOWING[0], 1, 72, 833, (21, 0)), (SHOWING[0], 1, 2**32 - 1, 834, (21, 0)),
            (SHOWING[0], 1, 71, 833, (13, 834)), (SHOWING[0], 1, 71, 834, None), (SHOWING[1], 1, 0, 834, None),
        ):
            with self.subTest(breadth=breadth, hours=hours, room=room):
                self.assertEqual(expected(data, 300, breadth, hours, room).refusal, due)


# A stand-in: the exact forces rounded up in size, and a function for each thing that a slip changes


def up(force):
    return ceil(force) if force >= 0 else -ceil(-force)


def rounded(end):
    lashes = tuple(LashForces(*map(up, (lash.tension, lash.athwart, lash.vertical))) for lash in end.lashes)
    return End(*(tuple(map(up, forces)) for forces in (end.racking, end.compression, end.tension)), lashes)


def cells(end):
    return end.racking, end.compression, end.tension, [(lash.tension, lash.athwart, lash.vertical) for lash in end.lashes]


def output(asked, thousandths=factor, takes=taken, forces=exact):
    """What comes out of a call, with these in place of the right ones."""
    try:
        sheet = takes(asked.data, asked.breadth, asked.hours, asked.room)
    except Refused as refused:
        return b"%d %d\n" % (refused.number, refused.second)
    ends = [rounded(end) for end in forces(sheet, thousandths(asked.wave_height, asked.breadth or 1))]
    return answer_bytes(*map(cells, ends), findings(sheet, ends))


def bounded(thousandths, least=600, most=1_000):
    return min(max(thousandths, least), most)


def above(wave_height, breadth):
    """t without bounds."""
    square = ceil(stack.Fraction(2_500 * wave_height**2, breadth))
    return 400 + (isqrt(square - 1) + 1 if square else 0)


def on_vertical(sheet, thousandths):
    """The factor on A_Vmax too."""
    scaled = [replace(tier, a_vmax=tier.a_vmax * thousandths // 1_000) for tier in sheet.tiers]
    return exact(replace(sheet, tiers=tuple(scaled)), thousandths)


def on_wind(sheet, thousandths):
    with mock.patch.object(stack, "wind", lambda tier: wind(tier) * thousandths // 1_000):
        return exact(sheet, thousandths)


def by_class_share(sheet, thousandths):
    return exact(replace(sheet, head=replace(sheet.head, rule=1)), thousandths)


def in_order(*numbers):
    """The tests of the call in another order, or with others in their place: (number, test of sheet, breadth, hours, room)."""

    def takes(data, breadth, hours, room):
        sheet = parse(data)
        for number, second, fails in numbers:
            if fails(sheet, breadth, hours, room):
                raise Refused(number, second)
        return sheet

    return takes


ROUTE = (20, 0, lambda sheet, breadth, hours, room: sheet.head.route != 0)
VOYAGE = (21, 0, lambda sheet, breadth, hours, room: hours >= 72 or breadth == 0)
ROOM = (13, 834, lambda sheet, breadth, hours, room: room < 834)


def voyage(fails):
    """Another test for 21."""
    return in_order(ROUTE, (21, 0, lambda sheet, breadth, hours, room: fails(breadth, hours)), ROOM)


def route_first(data, breadth, hours, room):
    """20 before the sheet's own tests."""
    if data[1:2] not in (b"", b"\0"):
        raise Refused(20, 0)
    return taken(data, breadth, hours, room)


SLIPS = {
    "t rounded down": {"thousandths": lambda h, b: bounded(400 + isqrt(2_500 * h * h // b))},
    "t rounded to the nearest": {"thousandths": lambda h, b: bounded(400 + (isqrt(10_000 * h * h // b) + 1) // 2)},
    "above where it should be at least": {"thousandths": lambda h, b: bounded(above(h, b) + exactly(h, b))},
    "no lower bound": {"thousandths": lambda h, b: bounded(above(h, b), least=400)},
    "no upper bound": {"thousandths": lambda h, b: bounded(above(h, b), most=3_000)},
    "650 the least": {"thousandths": lambda h, b: bounded(above(h, b), least=650)},
    "hundredths": {"thousandths": lambda h, b: bounded(above(h, b)) // 10 * 10},
    "H and B swapped": {"thousandths": lambda h, b: factor(b, h or 1)},
    "metres for centimetres": {"thousandths": lambda h, b: bounded(above(10 * h, b))},
    "no root": {"thousandths": lambda h, b: bounded(400 + -(-50 * h // b))},
    "the route factor kept": {"forces": lambda sheet, thousandths: exact(sheet)},
    "the factor on A_Vmax": {"forces": on_vertical},
    "the factor on the wind": {"forces": on_wind},
    "the class rule's share for the fleet standard": {"forces": by_class_share},
    "21 before 20": {"takes": in_order(VOYAGE, ROUTE, ROOM)},
    "13 before 20": {"takes": in_order(ROOM, ROUTE, VOYAGE)},
    "13 before 21": {"takes": in_order(ROUTE, ROOM, VOYAGE)},
    "no 20": {"takes": in_order(VOYAGE, ROOM)},
    "the route told with 20": {"takes": in_order((20, 1, ROUTE[2]), VOYAGE, ROOM)},
    "20 before the sheet's own tests": {"takes": route_first},
    "72 hours taken": {"takes": voyage(lambda breadth, hours: hours > 72 or breadth == 0)},
    "71 hours refused": {"takes": voyage(lambda breadth, hours: hours >= 71 or breadth == 0)},
    "hours cut to 16 bits": {"takes": voyage(lambda breadth, hours: hours % 2**16 >= 72 or breadth == 0)},
    "B zero taken": {"takes": voyage(lambda breadth, hours: hours >= 72)},
    "B 1 refused": {"takes": voyage(lambda breadth, hours: hours >= 72 or breadth <= 1)},
    "833 bytes taken": {"takes": in_order(ROUTE, VOYAGE, (13, 834, lambda sheet, breadth, hours, room: room < 833))},
}


class Comparison(unittest.TestCase):
    @classmethod
    def setUpClass(cls):
        cls.asked = [*edges(), *steps(random.Random(1)), *map(drawn, range(240))]
        cls.due = [expected(asked.data, *asked.forecast, asked.room) for asked in cls.asked]

    def faults(self, **changed):
        """The calls that show a stand-in with something changed."""
        return (asked for asked, due in zip(self.asked, self.due) if judge(due, output(asked, **changed)).faults)

    def test_a_right_one_passes(self):
        self.assertEqual(list(self.faults()), [])

    def test_each_slip_is_caught(self):
        for name, changed in SLIPS.items():
            with self.subTest(name):
                self.assertIsNotNone(next(self.faults(**changed), None))

    def test_bytes_written_beside_the_answer_are_seen(self):
        """One byte behind an answer, one on a refusal."""
        self.assertEqual(held.output(Reply(2 << 8, b"ab\0\0")), b"ab")
        self.assertEqual(held.output(Reply(13 | 834 << 8, bytes(4))), b"13 834\n")
        for reply in (Reply(2 << 8, b"ab\0\1"), Reply(13 | 834 << 8, b"\1\0\0\0")):
            self.assertTrue(held.output(reply).endswith(b"changed"))

    def test_another_answer_than_the_checks_at_1000_is_seen(self):
        """On route 0, in what is returned or in a byte; of another route nothing is asked."""
        for reply, faults in ((Reply(2 << 8, b"ab"), 0), (Reply(1 << 8, b"ab"), 1), (Reply(2 << 8, b"ac"), 1)):
            library = mock.Mock(forecast=lambda *given: reply, check=lambda *given: Reply(2 << 8, b"ab"))
            self.assertEqual(len(list(held.at_full_factor(library, next(a for a in self.asked if a.data == SHOWING[0])))), faults)
            self.assertEqual(list(held.at_full_factor(library, next(a for a in self.asked if a.data == ROUTED))), [])

    def test_the_script_fails_on_another_library(self):
        """One that gives the answer of box B for every sheet."""
        fails_by(self, "compare_forecast", "FAULT: step: H ", B_ANSWER)


if __name__ == "__main__":
    unittest.main()
