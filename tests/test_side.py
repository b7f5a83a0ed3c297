"""Side walls under pitching: the second program's figures by hand, and that its comparison catches each slip."""

import unittest
from fractions import Fraction
from itertools import accumulate
from math import ceil, floor

from reference.cases import BOX_B, box, stack
from reference.side import Due, expected, forces, rackings, read_pitch, reported, shifts
from reference.side_asked import AT_LIMIT, FAULTY, FIGURES, HEAVY, WHOLE, pairs
from reference.stack import SHARE_TO_TOP
from sheets.sheet import Refused, parse
from sheets.side import SIDE_LIMIT, SIDE_ROOM, SideAnswer, pack_pitch, pack_side, read_side
from tests.support import B_ANSWER, fails_by


def of(tiers, longitudinal, rule=1, route=0):
    return reported(parse(stack(tiers, rule=rule, route=route)), longitudinal)


class Figures(unittest.TestCase):
    def test_exact(self):
        # F_L of 20,000 kg at 0.5, 0.6 and 0.7 g: 49,050, 58,860 and 68,670 N
        sheet = parse(stack([BOX_B] * 3))
        self.assertEqual(forces(sheet, (500, 600, 700)), [49_050, 58_860, 68_670])
        exact = rackings(sheet, (500, 600, 700))
        self.assertEqual(exact, [Fraction("149602.5"), Fraction("95157"), Fraction("30901.5")])
        self.assertEqual([5_790 * shift for shift in shifts(exact)], [Fraction("149602.5"), Fraction("244759.5"), 275_661])

    def test_reported(self):
        for answer, verdict, racking, shift in (
            (of([BOX_B], [500]), 0, (22_073,), (3_813,)),  # 22,072.5 N, 3.81218 mm
            (of([BOX_B], [500], rule=2), 0, (24_525,), (4_236,)),  # 24,525 N, 4.23575 mm
            (of([BOX_B] * 3, [500, 600, 700]), 1, (149_603, 95_157, 30_902), (25_839, 42_273, 47_610)),
            (of([WHOLE] * 2, [200, 200]), 0, (28_449, 8_829), (4_914, 6_439)),  # whole newtons
            (of([WHOLE], [0]), 0, (0,), (0,)),
            (of([box(mass=1)], [1]), 0, (1,), (1,)),  # 0.0022 N, 0.00038 thousandths of a mm
        ):
            self.assertEqual(answer, SideAnswer(verdict, racking, shift))

    def test_route_does_not_enter(self):
        self.assertEqual(of([BOX_B] * 2, [500, 500], route=7), of([BOX_B] * 2, [500, 500]))

    def test_greatest(self):
        for rule, racking, shift in ((1, 2_119_225, 1_917_220), (2, 2_130_438, 1_936_586)):
            answer = of([HEAVY] * 10, [1_500] * 10, rule)
            self.assertEqual((max(answer.racking), max(answer.shift)), (racking, shift))

    def test_at_the_limit(self):
        for rule, (mass, a_l) in AT_LIMIT.items():
            sheets = [parse(stack([box(mass=mass + more), BOX_B], rule=rule)) for more in (0, 1)]
            exact = [rackings(sheet, (a_l, 500))[0] for sheet in sheets]
            self.assertTrue(SIDE_LIMIT - 1 < exact[0] < SIDE_LIMIT < exact[1])
            self.assertEqual([reported(sheet, (a_l, 500)).verdict for sheet in sheets], [0, 1])
            self.assertEqual(reported(sheets[0], (a_l, 500)).racking[0], SIDE_LIMIT)

    def test_order_of_refusals(self):
        two = stack([BOX_B] * 2)
        for sheet, pitch, room, due in (
            (FAULTY, b"", 0, (3, 0)), (b"", b"", 0, (1, 0)),
            (two, b"", 0, (14, 0)), (two, pack_pitch([1_501]), 81, (14, 0)), (two, b"\2" + bytes(5), 82, (14, 0)),
            (two, b"\1" + pack_pitch([1_501, 0])[1:], 82, (14, 0)),
            (two, pack_pitch([1_500, 1_501]), 81, (15, 2)), (two, pack_pitch([1_501, 1_501]), 82, (15, 1)),
            (two, pack_pitch([1_500, 1_500]), 81, (13, 82)), (two, pack_pitch([0, 0]), 0, (13, 82)),
            (two, pack_pitch([1_500, 1_500]), 82, (0, 18)),
        ):
            with self.subTest(pitch=pitch, room=room):
                found = expected(sheet, pitch, room)
                self.assertEqual((found.number, found.second), due)


class Bytes(unittest.TestCase):
    def test_layout(self):
        answer = SideAnswer(1, (0x01020304, 5), (6, 0x0708090A))
        data = bytes.fromhex("01 02 04030201 06000000 05000000 0a090807")
        self.assertEqual(pack_side(answer), data)
        self.assertEqual(read_side(data), answer)
        self.assertEqual(pack_pitch((1, 0x0203)), bytes.fromhex("02 0100 0302"))

    def test_other_bytes(self):
        for data in (b"", b"\0", b"\0\1" + bytes(7), b"\0\1" + bytes(9)):
            with self.assertRaises(ValueError):
                read_side(data)


# Slips: the second program with one thing changed


def answer_of(sheet, longitudinal, share=None, own=1, below=False, kept=ceil, from_rounded=False, stiffness=5_790, over=None):
    """A side answer by another share, rounding, stiffness or verdict."""
    f = forces(sheet, longitudinal)
    part = own * Fraction(SHARE_TO_TOP[sheet.head.rule], 100) if share is None else Fraction(share, 100)
    others = (lambda index: f[:index]) if below else (lambda index: f[index + 1 :])
    exact = [part * each + sum(others(index)) for index, each in enumerate(f)]
    racking = tuple(map(kept, exact))
    shift = tuple(kept(1_000 * each) for each in accumulate(Fraction(each) / stiffness for each in (racking if from_rounded else exact)))
    over = over or (lambda each: each > SIDE_LIMIT)
    return SideAnswer(1 if any(map(over, racking)) else 0, racking, shift)


def changed(**how):
    """The call with a side answer made otherwise."""
    def slip(sheet, pitch, room):
        due = expected(sheet, pitch, room)
        if due.number:
            return due
        read = parse(sheet)
        data = pack_side(answer_of(read, read_pitch(pitch, len(read.tiers)), **how))
        return Due(0, len(data), data)

    return slip


def refusing(tests):
    """The call with its tests in another order, or others."""
    def slip(sheet, pitch, room):
        try:
            for test in tests:
                test(sheet, pitch, room)
        except Refused as refused:
            return Due(refused.number, refused.second)
        return expected(sheet, pitch, SIDE_ROOM)

    return slip


def by_sheet(sheet, pitch, room):
    parse(sheet)


def by_length(sheet, pitch, room):
    if len(pitch) != 1 + 2 * sheet[8] or pitch[0] != sheet[8]:
        raise Refused(14, 0)


def by_pitch(most=1_500, first=1):
    def test(sheet, pitch, room):
        for tier in range(sheet[8]):
            if int.from_bytes(pitch[1 + 2 * tier : 3 + 2 * tier], "little") > most:
                raise Refused(15, tier + first)

    return test


def by_room(needed):
    def test(sheet, pitch, room):
        if room < needed:
            raise Refused(13, needed)

    return test


def longer_taken(sheet, pitch, room):
    if len(pitch) < 1 + 2 * sheet[8] or pitch[0] != sheet[8]:
        raise Refused(14, 0)


def count_not_tested(sheet, pitch, room):
    if len(pitch) != 1 + 2 * sheet[8]:
        raise Refused(14, 0)


def last_too_great(sheet, pitch, room):
    due = expected(sheet, pitch, room)
    if due.number != 15:
        return due
    great = [tier for tier in range(1, sheet[8] + 1) if int.from_bytes(pitch[2 * tier - 1 : 2 * tier + 1], "little") > 1_500]
    return Due(15, great[-1])


def in_other_order(sheet, pitch, room):
    """Shift before racking."""
    due = expected(sheet, pitch, room)
    if due.number:
        return due
    answer = read_side(due.data)
    return Due(0, due.second, pack_side(SideAnswer(answer.verdict, answer.shift, answer.racking)))


USUAL = (by_sheet, by_length, by_pitch(), by_room(82))
SLIPS = {
    "55% on the own tier": changed(share=55),
    "a tier's own F_L in full": changed(share=100),
    "0.45 by rule 2 too": changed(share=45),
    "half by rule 1 too": changed(share=50),
    "the tiers below in place of those above": changed(below=True),
    "shift from rounded rackings": changed(from_rounded=True),
    "rounded to nearest": changed(kept=round),
    "rounded down": changed(kept=floor),
    "one more where it is whole": changed(kept=lambda number: floor(number) + 1),
    "stiffness of a closed end": changed(stiffness=15_690),
    "limit reached counted as exceeded": changed(over=lambda each: each >= SIDE_LIMIT),
    "the check's racking limit": changed(over=lambda each: each > 150_000),
    "15 before 14": refusing((by_sheet, by_pitch(), by_length, by_room(82))),
    "14 before the sheet's own": lambda sheet, pitch, room: Due(14, 0) if len(pitch) % 2 == 0 else expected(sheet, pitch, room),
    "13 before 14": refusing((by_sheet, by_room(82), by_length, by_pitch())),
    "13 before 15": refusing((by_sheet, by_length, by_room(82), by_pitch())),
    "13 before the sheet's own": refusing((by_room(82), *USUAL)),
    "13 with 834": refusing((*USUAL[:3], by_room(834))),
    "13 by the answer's own length": lambda sheet, pitch, room: expected(
        sheet, pitch, SIDE_ROOM if len(pitch) and room >= 2 + 8 * pitch[0] else room
    ),
    "15 with tiers from 0": refusing((by_sheet, by_length, by_pitch(first=0), by_room(82))),
    "15 from 1,500 on": refusing((by_sheet, by_length, by_pitch(most=1_499), by_room(82))),
    "15 with the last tier": last_too_great,
    "shift before racking": in_other_order,
}
# A refusal less: what such a call would go on to answer is not looked at.
LESS = {
    "a longer short sheet taken": longer_taken,
    "the count not tested": count_not_tested,
    "1,501 taken": by_pitch(most=1_501),
}


class Comparison(unittest.TestCase):
    @classmethod
    def setUpClass(cls):
        cls.asked = [(asked.sheet, asked.pitch, asked.room) for asked in pairs(count=600)]
        cls.due = [expected(*asked) for asked in cls.asked]

    def test_each_slip_is_caught(self):
        for name, slip in SLIPS.items():
            with self.subTest(name):
                self.assertTrue(any(slip(*asked) != due for asked, due in zip(self.asked, self.due)))

    def test_each_refusal_is_asked_for_alone(self):
        for name, test in LESS.items():
            with self.subTest(name):
                refused = [asked for asked, due in zip(self.asked, self.due) if due.number in (14, 15)]
                self.assertTrue(any(not fails(test, asked) for asked in refused))

    def test_what_slips_change_is_the_second_program(self):
        for asked, due in zip(self.asked[:400], self.due):
            self.assertEqual(changed()(*asked), due)
            self.assertEqual(refusing(USUAL)(*asked), due)

    def test_the_script_fails_on_another_library(self):
        """One that gives the same side answer for all, which is due for the first figure."""
        due = expected(FIGURES[0].sheet, FIGURES[0].pitch)
        fails_by(self, "compare_side", "FAULT: figure: ", B_ANSWER, side=due.data)


def fails(test, asked):
    try:
        test(*asked)
    except Refused:
        return True
    return False


if __name__ == "__main__":
    unittest.main()
