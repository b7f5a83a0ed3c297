"""The fractions held to document 01's figures and to 02's requests, and the refusals to 01's table."""

import unittest
from dataclasses import replace
from fractions import Fraction
from random import Random
from struct import pack as packed

from reference.cases import BOX_B as B
from reference.cases import HEAD, HOOKED
from reference.cases import ROD_S as S
from reference.samples import extreme, realistic
from reference.stack import (
    UNIT, equations, exact, in_tension, lash_forces, lash_length, loads, racking_load as load_by_share, route_factor, shifts, transverse,
    vertical, wind,
)
from sheets.answer import BadAnswer, End, LashForces, read_answer
from sheets.limits import checks, findings, safe_working_load
from sheets.sheet import BOTTOM, CLOSED, CROSS, DOOR, MOST_TIERS, SIDE, TOP, Refused, Sheet, pack, parse


def stack(*tiers, door=(), closed=(), head=HEAD):
    return Sheet(head, tiers, tuple(door), tuple(closed))


def newtons(load):
    return Fraction(load, UNIT)


def racking_load(sheet, number):
    return newtons(loads(sheet).racking[number - 1])


class Figures(unittest.TestCase):
    """(a) to (j) of document 01."""

    def test_a_load_of_one_box(self):
        self.assertEqual(racking_load(stack(B), 1), Fraction("22072.5"))

    def test_b_load_of_two_boxes(self):
        self.assertEqual(racking_load(stack(B, B), 1), Fraction("71122.5"))

    def test_c_moment_at_the_deck(self):
        self.assertEqual(newtons(loads(stack(B)).moment[0]), Fraction("57189847.5"))
        self.assertEqual(exact(stack(B))[0].tension, (0,))

    def test_d_shift_with_a_rod(self):
        sheet = stack(B, door=[S])
        self.assertEqual(lash_forces(S, 1).athwart, 7200)
        self.assertEqual(shifts(sheet, DOOR, loads(sheet).racking)[1], Fraction("22072.5") / 10930)

    def test_e_pulled_back(self):
        sheet = stack(B, replace(B, mass=2000), door=[replace(S, tier=2)])
        self.assertEqual(shifts(sheet, DOOR, loads(sheet).racking)[2], Fraction("29184.75") / 18130)
        self.assertAlmostEqual(float(exact(sheet)[0].racking[1]), -9382.94, 2)

    def test_f_g_safe_working_loads(self):
        self.assertEqual(safe_working_load(490_000, 1), 293_000)
        self.assertEqual(safe_working_load(500_000, 1), 299_000)
        self.assertEqual([safe_working_load(500_001, code) for code in (0, 2, 3)], [250_000] * 3)

    def test_safe_working_loads_as_certificates_print_them(self):
        # CR Table 3-4: breaking load and safe working load in kN.
        for breaking, safe, material in ((490, 293, 1), (500, 299, 1), (460, 275, 1), (400, 200, 0)):
            self.assertEqual(safe_working_load(1_000 * breaking, material), 1_000 * safe)

    def test_whole_kilonewtons_begin_with_1_67_or_2_of_them(self):
        for material, hundredths in ((0, 200), (1, 167), (2, 200), (3, 200)):
            for kilonewtons in (1, 2, 293, 1_000):
                least = 10 * hundredths * kilonewtons
                self.assertEqual(safe_working_load(least, material), 1_000 * kilonewtons)
                self.assertEqual(safe_working_load(least - 1, material), 1_000 * (kilonewtons - 1))

    def test_h_length_of_a_lash(self):
        self.assertEqual(lash_length(S), 3250)
        self.assertEqual(lash_length(replace(S, lx=1)), 3251)

    def test_lengths_at_the_ends_of_the_ranges(self):
        # 708² = 501,264 and 707² = 499,849 about 500,000; 22,913² = 525,005,569 and 22,912² = 524,959,744 about 525,000,000.
        self.assertEqual(lash_length(replace(S, lx=0, ly=500, lz=500)), 708)
        self.assertEqual(lash_length(replace(S, lx=5_000, ly=10_000, lz=20_000)), 22_913)

    def test_i_wind(self):
        self.assertEqual(newtons(wind(replace(B, wind=1, height=2896))), Fraction("19066.33728"))
        self.assertEqual(newtons(wind(replace(B, wind=1, size=20))), Fraction("8475.99012"))
        self.assertEqual(wind(B), 0)

    def test_j_route_seven(self):
        self.assertEqual(newtons(transverse(B, route_factor(7))), Fraction("35806.5"))


class Turned(unittest.TestCase):
    """Document 02, P1; K is 15,690 at the door end of a turned box, S 7,200 N/mm, Q 22,072.5 N, or 26,977.5 and 2,207.25."""

    def shifts(self, sheet, end=DOOR):
        return shifts(sheet, end, loads(sheet).racking)[1:]

    def test_a_turned_box_with_a_rod(self):
        sheet = stack(replace(B, wind=2), door=[S], closed=[S])
        self.assertEqual(self.shifts(sheet), [Fraction("22072.5") / 22_890])
        self.assertEqual(self.shifts(sheet, CLOSED), [Fraction("22072.5") / 10_930])

    def test_a_mixture(self):
        """K1 D1 + S D2 = Q1 and K2 (D2 - D1) + S D2 = Q2, by Cramer's rule."""
        rods, light = [replace(S, tier=2)], replace(B, mass=2_000)
        below = stack(replace(B, wind=2), light, door=rods, closed=rods)
        above = stack(B, replace(light, wind=2), door=rods, closed=rods)
        q1, q2, s = Fraction("26977.5"), Fraction("2207.25"), 7_200
        for k1, k2, cases in ((15_690, 3_730, ((below, DOOR), (above, CLOSED))), (3_730, 15_690, ((below, CLOSED), (above, DOOR)))):
            bottom = k1 * (k2 + s) + s * k2
            due = [(q1 * (k2 + s) - s * q2) / bottom, (k1 * q2 + k2 * q1) / bottom]
            for sheet, end in cases:
                self.assertEqual(self.shifts(sheet, end), due)
        self.assertEqual(self.shifts(below), [Fraction(3_719_625, 2_644_636), Fraction(18_034_377, 26_446_360)])

    def test_nothing_else_changes(self):
        plain = stack(B, replace(B, wind=1), replace(B, mass=9_000), door=[S], closed=[S])
        turned = replace(plain, tiers=tuple(replace(tier, wind=tier.wind + 2) for tier in plain.tiers))
        self.assertEqual(loads(turned), loads(plain))
        self.assertEqual([wind(tier) for tier in turned.tiers], [wind(tier) for tier in plain.tiers])
        self.assertEqual(exact(turned), exact(plain)[::-1])


class BottomHooks(unittest.TestCase):
    """Document 02, P4; K is 3,730 at the door end, S 7,200 N/mm and a tenth of it with area 50; LZ / LY of S is 4/3."""

    PAIR = Fraction("57189847.5") / 2259  # M / 2259 of one B, (c)
    WEAK = replace(S, area=50)

    def test_a_side_lash_relieves_the_windward_post(self):
        """The second B has A_Vmin 0: at level 1 V = 0, and the lash takes 720 × Q1 / (3,730 + 720)."""
        held = Fraction(4, 3) * 720 * Fraction("71122.5") / 4_450
        self.assertEqual(round(held), 15_343)
        for hook, tier, due in ((TOP, 1, self.PAIR), (BOTTOM, 2, self.PAIR - held)):
            sheet = stack(B, replace(B, a_vmin=0), door=[replace(self.WEAK, tier=tier, hook=hook, kind=SIDE)])
            self.assertEqual(exact(sheet)[DOOR].tension[1], due)
            self.assertEqual(exact(sheet)[CLOSED].tension[1], self.PAIR)

    def test_a_cross_lash_relieves_the_lee_post(self):
        """A side lash at level 2 pulls the light box back, as in (e), so that the lee post at level 1 is the one that lifts:

        4,450 D1 + 7,200 D2 = 26,977.5 and 10,930 D2 - 3,730 D1 = 2,207.25, by Cramer's rule; M = 2,591 × R2.
        """
        bottom = 4_450 * 10_930 + 7_200 * 3_730
        d1 = (10_930 * Fraction("26977.5") - 7_200 * Fraction("2207.25")) / bottom
        d2 = (4_450 * Fraction("2207.25") + 3_730 * Fraction("26977.5")) / bottom
        lift, held = -Fraction(2_591, 2_259) * 3_730 * (d2 - d1), Fraction(4, 3) * 720 * d1
        self.assertEqual((round(lift), round(held)), (9_550, 3_547))
        light, back = replace(B, mass=2_000, a_vmin=0), replace(S, tier=2, kind=SIDE)
        for lashes, due in (((self.WEAK, back), lift), ((back, replace(self.WEAK, tier=2, hook=BOTTOM)), lift - held)):
            self.assertEqual(exact(stack(B, light, door=lashes))[DOOR].tension[1], due)

    def test_six_boxes_in_the_wind(self):
        """The named cases. Level 1 bears 30 t of A_Vmin 0.95, and F = 0.125 × W and P of five boxes of 2,591 mm; below, 28 t.

        No lash is hooked above it, so M is that of the loads; the lash takes Q1 × k / (K + k), k by L = 2,916.
        """
        named = {case.name: parse(case.data) for case in HOOKED}
        f, p = [Fraction("1.22625") * mass for mass in (9_000, 8_000, 6_000, 4_000, 3_000)], Fraction("0.00054") * 12_192 * 2_591
        m = 2_591 * (sum(each * (i + Fraction("0.45")) for i, each in enumerate(f)) + Fraction("12.5") * p)
        lift = m / 2_259 - 30_000 * Fraction("9.81") * Fraction("0.95") / 4
        q = Fraction("0.45") * Fraction("1.22625") * 28_000 + sum(f) + 5 * p
        k = Fraction(97_000 * 707 * 1_500**2, 2_916**3)
        for end, spring, due in ((DOOR, 3_730, (255_542, 255_542, 112_226)), (CLOSED, 15_690, (255_542, 255_542, 190_447))):
            held = q * k / (spring + k) * 2_500 / 1_500
            found = [exact(named[f"hooked-{where}"])[end].tension[1] for where in ("nowhere", "top", "bottom")]
            self.assertEqual(found, [lift, lift, lift - held])
            self.assertEqual(tuple(map(round, found)), due)

    def test_a_heavy_box_on_two_light_ones(self):
        """M = 2,896 × (0.45 × 9,810 + 1.45 × 137,340), V = 14,715, Q1 = 1.45 × 9,810 + 137,340; the lash has k = 288,000 / 13."""
        named = {case.name: parse(case.data) for case in HOOKED}
        lift = Fraction(589_502_520, 2_259) - Fraction(14_715, 2)
        self.assertEqual(lift + Fraction(14_715, 2), 2_896 * (Fraction("4414.5") + 145 * Fraction("1373.4")) / 2_259)
        k, q = Fraction(288_000, 13), Fraction("151564.5")
        for end, spring, held in ((DOOR, 3_730, Fraction(5_820_076_800, 33_649)), (CLOSED, 15_690, Fraction(1_940_025_600, 16_399))):
            self.assertEqual(Fraction(4, 3) * q * k / (spring + k), held)
            self.assertEqual(exact(named["hooked-heavy-top"])[end].tension[1], lift)
            self.assertEqual(exact(named["hooked-heavy-bottom"])[end].tension[1], lift - held)

    def test_a_lash_does_not_relieve_the_other_post(self):
        sheet = stack(B, replace(B, a_vmin=0), door=[replace(self.WEAK, tier=2, hook=BOTTOM)])
        self.assertEqual(exact(sheet)[DOOR].tension[1], self.PAIR)

    def test_only_the_tension_at_its_level_changes(self):
        boxes = [B, B, replace(B, a_vmin=0), replace(B, a_vmin=0)]
        for kind in (CROSS, SIDE):
            above = replace(self.WEAK, tier=4, kind=kind)
            top, low = (stack(*boxes, door=[replace(S, tier=t, hook=h, kind=kind), above]) for t, h in ((2, TOP), (3, BOTTOM)))
            top, low = exact(top)[DOOR], exact(low)[DOOR]
            self.assertEqual(replace(low, tension=top.tension), top)
            self.assertEqual([level for level in range(4) if low.tension[level] != top.tension[level]], [2] if kind == SIDE else [])

    def test_a_lash_counts_below_its_tier(self):
        """A top hook at a level belongs to the tier under it, a bottom hook to the tier over it."""
        for tier in range(1, MOST_TIERS + 1):
            for hook in (TOP, BOTTOM):
                found = [level for level in range(MOST_TIERS) if in_tension(replace(S, tier=tier, hook=hook), level)]
                self.assertEqual(found, list(range(tier)))


class FleetStandard(unittest.TestCase):
    """Document 02, P10: by rule 2 half of F on a box's own top, and F at half its height. B has F = 49,050 N and is 2,591 mm high."""

    def by(self, rule, *tiers, **ends):
        return stack(*tiers, **ends, head=replace(HEAD, rule=rule))

    def moment(self, sheet, level):
        return newtons(loads(sheet).moment[level])

    def test_a_by_rule_2(self):
        self.assertEqual(racking_load(self.by(2, B), 1), 24_525)
        self.assertEqual(racking_load(self.by(1, B), 1), Fraction("22072.5"))

    def test_b_by_rule_2(self):
        self.assertEqual(racking_load(self.by(2, B, B), 1), 24_525 + 49_050)

    def test_c_by_rule_2(self):
        """49,050 N at 1,295.5 mm; of two boxes at 1,295.5 and 3,886.5 mm."""
        box = self.by(2, B)
        self.assertEqual(self.moment(box, 0), 63_544_275)
        pair = Fraction(63_544_275, 2259)
        self.assertEqual(exact(box)[0].compression, (73_575 + pair, 0))
        self.assertEqual(exact(box)[0].tension, (0,))
        self.assertEqual(exact(self.by(2, replace(B, a_vmin=0)))[1].tension, (pair,))
        self.assertEqual([self.moment(self.by(2, B, B), level) for level in (0, 1, 2)], [254_177_100, 63_544_275, 0])
        self.assertEqual(self.moment(self.by(1, B), 0), Fraction("57189847.5"))

    def test_d_and_e_by_rule_2(self):
        """S is 7,200 N/mm; in (e) Q is 29,430 and 2,452.5 N."""
        sheet = self.by(2, B, door=[S])
        self.assertEqual(shifts(sheet, DOOR, loads(sheet).racking)[1], Fraction(24_525, 10_930))
        sheet = self.by(2, B, replace(B, mass=2_000), door=[replace(S, tier=2)])
        top = Fraction("31882.5") / 18_130
        self.assertEqual(shifts(sheet, DOOR, loads(sheet).racking)[2], top)
        self.assertEqual(exact(sheet)[0].racking[1], Fraction("2452.5") - 7_200 * top)

    def test_nothing_else_changes(self):
        """The wind stays half and half, and so do F_V, lengths, springs and limits."""
        tiers = (replace(B, wind=1), replace(B, wind=3, mass=9_000))
        by_one, by_two = (loads(self.by(rule, *tiers)) for rule in (1, 2))
        f = [Fraction("49050"), Fraction("22072.5")]
        racking = [newtons(b - a) for a, b in zip(by_one.racking, by_two.racking)]
        self.assertEqual(racking, [Fraction("0.05") * each for each in f])
        moment = [newtons(b - a) for a, b in zip(by_one.moment, by_two.moment)]
        self.assertEqual(moment, [Fraction("0.05") * 2591 * (f[0] + f[1]), Fraction("0.05") * 2591 * f[1], 0])
        self.assertEqual((by_one.greatest, by_one.least), (by_two.greatest, by_two.least))
        still = [replace(tier, a_t=0) for tier in tiers]
        self.assertEqual(*(exact(self.by(rule, *still, door=[S], closed=[S])) for rule in (1, 2)))

    def test_without_lashes_no_force_is_less_than_by_rule_1(self):
        random = Random(11)
        for build in (realistic, extreme) * 10:
            tiers = build(random).tiers
            by_one, by_two = ([check.size for check in checks(sheet, exact(sheet))] for sheet in (self.by(1, *tiers), self.by(2, *tiers)))
            self.assertTrue(all(a <= b for a, b in zip(by_one, by_two)))

    def test_with_lashes_a_force_may_be_less(self):
        """A heavy box on a light one: of its F half and not 0.55 acts on level 1, where a rod holds."""
        rods = [S, replace(S, tier=2)]
        by_one, by_two = (exact(self.by(rule, replace(B, mass=2_000), B, door=rods))[0].lashes for rule in (1, 2))
        self.assertLess(by_two[0].tension, by_one[0].tension)
        self.assertGreater(by_two[1].tension, by_one[1].tension)

    def test_any_share_from_0_to_1(self):
        """The equations have a solution, and no load and no shift is to windward."""
        random = Random(10)
        for build in (realistic, extreme) * 6:
            sheet = build(random)
            f, p = [transverse(tier, sheet.head.route) for tier in sheet.tiers], [wind(tier) for tier in sheet.tiers]
            for share in (0, 1, 45, 50, random.randint(2, 98), 99, 100):
                borne = [load_by_share(f, p, index, share) for index in range(len(f))]
                self.assertGreaterEqual(min(q - above for q, above in zip(borne, [*borne[1:], 0])), 0)
                for end in (DOOR, CLOSED):
                    self.assertGreaterEqual(min(shifts(sheet, end, borne)), 0)


class Forces(unittest.TestCase):
    def test_loads_are_whole_parts_of_a_newton(self):
        """What is divided is a multiple: the loads in parts of a newton are the paper's in fractions."""
        half, g = Fraction(1, 2), Fraction("9.81")
        sheet = stack(
            replace(B, mass=30_479, a_t=1_499, a_vmax=2_999, a_vmin=997, wind=1),
            replace(B, mass=1, a_t=1, a_vmax=1, a_vmin=1, height=2896, wind=1),
            replace(B, mass=7_919, a_t=613, a_vmax=1_201, a_vmin=811),
            head=replace(HEAD, route=1),
        )
        f = [half * tier.mass * g * Fraction(tier.a_t, 1000) * Fraction("0.87") for tier in sheet.tiers]
        p = [half * Fraction("0.00108") * 12192 * tier.height * tier.wind for tier in sheet.tiers]
        self.assertEqual([newtons(transverse(tier, route_factor(1))) for tier in sheet.tiers], f)
        self.assertEqual([newtons(transverse(tier, 601)) for tier in sheet.tiers], [each * 601 / 870 for each in f])
        self.assertEqual([newtons(wind(tier)) for tier in sheet.tiers], p)
        v = [half * tier.mass * g * Fraction(tier.a_vmax, 1000) for tier in sheet.tiers]
        self.assertEqual([newtons(vertical(tier, tier.a_vmax)) for tier in sheet.tiers], v)
        borne = loads(sheet)
        self.assertEqual([newtons(load) for load in borne.greatest], [sum(v), v[1] + v[2], v[2], 0])
        self.assertEqual(newtons(borne.least[1]), half * g * Fraction(1 + 7_919 * 811, 1000))
        for rule, share in ((1, Fraction("0.45")), (2, half)):
            for factor, part in ((None, 1), (601, Fraction(601, 870))):
                borne = loads(replace(sheet, head=replace(sheet.head, rule=rule)), factor)
                self.assertEqual(newtons(borne.racking[1]), part * (share * f[1] + f[2]) + half * p[1] + p[2])
                own = part * f[1] * share * 2896 + p[1] * half * 2896
                above = part * f[2] * (2896 + share * 2591) + p[2] * (2896 + half * 2591)
                self.assertEqual(newtons(borne.moment[1]), own + above)

    def test_the_solution_solves_the_equations(self):
        lashes = (S, replace(S, kind=SIDE, ly=700), replace(S, tier=3, hook=BOTTOM, lx=317))
        sheet = stack(B, B, replace(B, wind=1), door=lashes, closed=lashes)
        for end in (DOOR, CLOSED):
            racking = loads(sheet).racking
            shift = shifts(sheet, end, racking)[1:]
            for row in equations(sheet, end, racking):
                self.assertEqual(sum(a * d for a, d in zip(row, shift)), row[-1])

    def test_racking_is_the_load_less_the_athwart_parts(self):
        sheet = stack(B, B, B, door=[S, replace(S, tier=3, hook=BOTTOM)])
        end = exact(sheet)[DOOR]
        parts = [forces.athwart for forces in end.lashes]
        self.assertEqual(end.racking[0], racking_load(sheet, 1) - parts[0] - parts[1])
        self.assertEqual(end.racking[1], racking_load(sheet, 2) - parts[1])
        self.assertEqual(end.racking[2], racking_load(sheet, 3))

    def test_posts_of_one_box(self):
        # V/2 = 0.25 W A_V: 73,575 with A_Vmax and 39,240 with A_Vmin; M/2259 = 25,316.4...
        pair = Fraction("57189847.5") / 2259
        end = exact(stack(B))[DOOR]
        self.assertEqual(end.compression, (73_575 + pair, 0))
        light = exact(stack(replace(B, a_vmin=0)))[DOOR]
        self.assertEqual(light.tension, (pair,))

    def test_a_level_has_its_own_top_hooks_in_compression_and_not_in_tension(self):
        # One B above level 1, where the lash is hooked, so V and M there are those of (c).
        pair = Fraction("57189847.5") / 2259
        for kind in (CROSS, SIDE):
            sheet = stack(B, replace(B, a_vmin=0), door=[replace(S, kind=kind)])
            end = exact(sheet)[DOOR]
            part = end.lashes[0].vertical
            cross, side = (part, 0) if kind == CROSS else (0, part)
            self.assertEqual(end.tension[1], pair)
            self.assertEqual(end.compression[1], max(73_575 + pair + cross, 73_575 - pair + side))
        top = exact(stack(B, door=[replace(S, kind=SIDE)]))[DOOR]
        self.assertEqual(top.compression[1], top.lashes[0].vertical)

    def test_findings_by_size_strictly_above_the_limit(self):
        sheet = stack(B, door=[S])
        bare = End((150_000,), (900_000, 848_000), (250_000,), ())
        at = End((-150_000,), (900_000, 848_000), (250_000,), (LashForces(293_000, 150_000, 300_000),))
        over = End((-150_001,), (0, 848_001), (299_001,), (LashForces(293_001, 150_001, 300_001),))
        self.assertEqual(findings(sheet, (at, bare)), [])
        self.assertEqual(
            findings(sheet, (over, bare)),
            [(0, 1, 1), (0, 2, 1), (0, 3, 0), (0, 5, 0), (0, 6, 0), (0, 7, 0)],
        )

    def test_one_finding_for_one_pull(self):
        """Of the corner's 250,000 N and a lock's safe load the lower is named, the corner's if they are equal."""
        for breaking, tension, due in (
            (499_999, 249_000, []), (499_999, 249_001, [4]), (499_999, 250_000, [4]), (499_999, 250_001, [4]),
            (500_000, 250_000, []), (500_000, 250_001, [3]), (501_999, 250_001, [3]),
            (502_000, 250_000, []), (502_000, 250_001, [3]), (502_000, 251_000, [3]), (502_000, 251_001, [3]),
        ):
            sheet = stack(B)
            sheet = replace(sheet, head=replace(sheet.head, lock_material=0, lock_breaking=breaking))
            end, calm = (End((0,), (0, 0), (pull,), ()) for pull in (tension, 0))
            self.assertEqual(findings(sheet, (calm, end)), [(1, kind, 0) for kind in due], (breaking, tension))


class Refusals(unittest.TestCase):
    def refusal(self, data, room=834):
        try:
            parse(data, room)
        except Refused as refused:
            return refused.number, refused.second
        return None

    def altered(self, sheet, **changes):
        """The refusal of a sheet with its last tier changed."""
        last = replace(sheet.tiers[-1], **changes)
        return self.refusal(pack(replace(sheet, tiers=sheet.tiers[:-1] + (last,))))

    def lashed(self, *lashes, tiers=2):
        return self.refusal(pack(stack(*[B] * tiers, closed=lashes)))

    def test_bytes_by_hand(self):
        # One B with a rod S at each end, written out byte by byte from the paper.
        rod = "01 00 00 01 0000 9e07 280a f401 d0fb0100 107a0700"
        text = "01 00 01 00 20a10700  01  28 00 1f0a 204e f401 dc05 2003  01" + rod + "01" + rod
        data = bytes.fromhex(text)
        self.assertEqual(len(data), 63)
        self.assertEqual(parse(data), stack(B, door=[S], closed=[S]))
        self.assertEqual(pack(stack(B, door=[S], closed=[S])), data)

    def test_1_every_truncation(self):
        data = pack(stack(B, B, door=[S], closed=[S]))
        for size in range(len(data)):
            self.assertEqual(self.refusal(data[:size]), (1, size))

    def test_2_spare_bytes(self):
        data = pack(stack(B))
        self.assertEqual(self.refusal(data + b"\0"), (2, 23))
        self.assertEqual(self.refusal(data + bytes(999)), (2, 23))

    def test_3_to_6_head_and_tier_count(self):
        for change, due in (
            ({"rule": 0}, (3, 0)), ({"rule": 1}, None), ({"rule": 2}, None), ({"rule": 3}, (3, 0)), ({"rule": 255}, (3, 0)),
            ({"zero": 1}, (3, 0)), ({"rule": 2, "zero": 1}, (3, 0)), ({"rule": 2, "route": 13}, (4, 1)),
            ({"rule": 3, "route": 13, "lock_material": 3}, (3, 0)),
            ({"zero": 1, "route": 13}, (3, 0)), ({"route": 12}, None), ({"route": 13}, (4, 1)),
            ({"route": 13, "lock_material": 3}, (4, 1)), ({"lock_material": 2}, None),
            ({"lock_material": 3}, (5, 2)), ({"lock_breaking": 0}, (5, 2)),
            ({"lock_breaking": 1}, None), ({"lock_breaking": 2_000_000}, None),
            ({"lock_breaking": 2_000_001}, (5, 2)),
        ):
            self.assertEqual(self.refusal(pack(stack(B, head=replace(HEAD, **change)))), due, change)
        self.assertEqual(self.refusal(pack(stack())), (6, 8))
        self.assertEqual(self.refusal(pack(stack(*[B] * 10))), None)
        self.assertEqual(self.refusal(pack(stack(*[B] * 11))), (6, 8))
        self.assertEqual(self.refusal(pack(stack(), counts=(11, None, None))[:9]), (6, 8))

    def test_7_tier_fields(self):
        for change, due in (
            ({"size": 30}, 7), ({"size": 0}, 7), ({"wind": 1}, None), ({"wind": 3}, None), ({"wind": 4}, 7), ({"wind": 255}, 7),
            ({"height": 2896}, None), ({"height": 2438}, 7), ({"height": 2592}, 7),
            ({"mass": 0}, 7), ({"mass": 1}, None), ({"mass": 30_480}, None), ({"mass": 30_481}, 7),
            ({"a_t": 0}, None), ({"a_t": 1_500}, None), ({"a_t": 1_501}, 7),
            ({"a_vmax": 3_000}, None), ({"a_vmax": 3_001}, 7), ({"a_vmax": 800}, None),
            ({"a_vmax": 799}, 7), ({"a_vmin": 1_000}, None), ({"a_vmin": 1_001}, 7),
            ({"a_vmin": 1_000, "a_vmax": 1_000}, None), ({"a_vmin": 0, "a_vmax": 0}, None),
        ):
            expected = due and (7, 21)
            self.assertEqual(self.altered(stack(B, B), **change), expected, change)

    def test_7_before_8_by_the_box_itself(self):
        self.assertEqual(self.altered(stack(B, B), size=20, height=2896), (7, 21))
        self.assertEqual(self.altered(stack(B, B), size=20, height=2438), (8, 21))
        self.assertEqual(self.altered(stack(B, B), size=20, height=2591), (8, 21))

    def test_9_lash_counts(self):
        eight = [replace(S, tier=i, kind=k) for i in range(1, 5) for k in (CROSS, SIDE)]
        tiers = [B] * 5
        self.assertIsNone(self.refusal(pack(stack(*tiers, door=eight, closed=eight))))
        nine = eight + [replace(S, tier=5)]
        self.assertEqual(self.refusal(pack(stack(*tiers, door=nine))), (9, 69))
        self.assertEqual(self.refusal(pack(stack(*tiers, door=eight, closed=nine))), (9, 230))
        self.assertEqual(self.refusal(pack(stack(B), counts=(None, 9, None))), (9, 21))
        self.assertEqual(self.refusal(pack(stack(B), counts=(None, 8, None))), (1, 23))

    def test_10_to_12_lashes(self):
        first, second = 35, 55
        for name, most in (("hook", 1), ("kind", 1), ("material", 3)):
            self.assertIsNone(self.lashed(replace(S, tier=2, **{name: most})))
            self.assertEqual(self.lashed(replace(S, tier=2, **{name: most + 1})), (10, first))
        for name, least, most in (
            ("lx", 0, 5_000), ("ly", 500, 10_000), ("lz", 500, 20_000), ("area", 50, 1_000),
            ("modulus", 10_000, 200_000), ("breaking", 1, 2_000_000),
        ):
            for value in (least, most):
                self.assertIsNone(self.lashed(replace(S, **{name: value})))
            for value in {max(least - 1, 0), most + 1} - {least}:
                self.assertEqual(self.lashed(replace(S, **{name: value})), (10, first))
        self.assertEqual(self.lashed(replace(S, tier=0, ly=0)), (10, first))
        self.assertEqual(self.lashed(replace(S, tier=0)), (11, first))
        self.assertEqual(self.lashed(replace(S, tier=3)), (11, first))
        self.assertEqual(self.lashed(replace(S, hook=BOTTOM)), (11, first))
        self.assertEqual(self.lashed(S, S), (12, second))
        self.assertEqual(self.lashed(S, replace(S, tier=0)), (11, second))
        self.assertIsNone(self.lashed(S, replace(S, kind=SIDE)))
        self.assertEqual(self.lashed(replace(S, kind=SIDE), S), (12, second))
        low = replace(S, tier=2, hook=BOTTOM)
        self.assertIsNone(self.lashed(replace(S, tier=2), low))
        self.assertEqual(self.lashed(low, replace(S, tier=2)), (12, second))
        self.assertEqual(self.lashed(replace(S, tier=2), S), (12, second))

    def test_12_starts_anew_at_the_closed_end(self):
        self.assertIsNone(self.refusal(pack(stack(B, B, door=[replace(S, tier=2)], closed=[S]))))

    def test_an_early_12_comes_before_a_later_1(self):
        data = pack(stack(B, door=[S, S, S]))
        self.assertEqual(self.refusal(data[:-20]), (12, 42))

    def test_13_comes_last(self):
        data = pack(stack(B))
        self.assertEqual(self.refusal(data, 833), (13, 834))
        self.assertEqual(self.refusal(data, 0), (13, 834))
        self.assertIsNone(self.refusal(data, 834))
        self.assertEqual(self.refusal(data + b"\0", 833), (2, 23))


class Answers(unittest.TestCase):
    def test_read_by_hand(self):
        door = packed("<Bi", 1, -2) + packed("<BII", 2, 3, 4) + packed("<BI", 1, 5)
        data = b"\1" + door + packed("<BIII", 1, 6, 7, 8) + door + b"\0" + b"\1\1\3\0" + b"rest"
        answer = read_answer(data)
        ends = End((-2,), (3, 4), (5,), (LashForces(6, 7, 8),)), End((-2,), (3, 4), (5,), ())
        self.assertEqual((answer.verdict, answer.ends), (1, ends))
        self.assertEqual(answer.findings, [(1, 3, 0)])
        self.assertEqual(answer.length, len(data) - 4)
        for size in range(len(data) - 4):
            with self.assertRaises(BadAnswer):
                read_answer(data[:size])


if __name__ == "__main__":
    unittest.main()
