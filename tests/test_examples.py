"""The examples: each gives the verdict and the findings that it says, by the second program's exact forces."""

import unittest
from dataclasses import replace

from lashtool.bay_description import read_bay
from lashtool.description import describe
from lashtool.sources import Source
from lashtool.template import template
from reference import arrangements, bay
from reference.cases import HOOKED, OVER_HEAVY, OVER_LIGHT
from reference.forecast import factor
from reference.heavier import exact_faults
from reference.side import reported
from reference.stack import exact, lash_length
from sheets.limits import (
    COMPRESSION, CORNER, LASH_TENSION, LOCK, RACKING, checks, findings,
)
from sheets.bay import pack_bay
from sheets.sheet import BOTTOM, TOP, pack
from tests.support import EXAMPLES

BOTH = (0, 1)

# What each shows: the words of its comment, and its findings (end, kind, index).
SHOWN = {
    "box-b": ("accepted", []),
    "rod-s": ("accepted", []),
    "eight-high": ("accepted", []),
    "three-high": ("accepted", []),
    "route": ("accepted", []),
    "turned": ("accepted", []),
    "bottom-hook": ("accepted", []),
    "long-rods": ("accepted", []),
    "from-roll": ("accepted, its accelerations worked out from the ship's roll", []),
    "side-walls": ("accepted, and not its side walls", []),
    "gear-aboard": ("accepted, and with fewer rods than are aboard", []),
    "last-box": ("accepted, and not with a heavier box on top", []),
    "light-below": ("accepted, and a heavier box below lowers a racking and a tension, but no lash force", []),
    "racking": ("unacceptable racking", [(end, RACKING, 1) for end in BOTH]),
    "pulled-back": ("unacceptable racking, to windward", [(0, RACKING, 6)]),
    "stack-weight": ("unacceptable stack weight", [(end, COMPRESSION, 1) for end in BOTH]),
    "corner-tension": ("unacceptable corner tension", [(end, CORNER, 0) for end in BOTH]),
    "top-hook": ("unacceptable corner tension", [(end, CORNER, 1) for end in BOTH]),
    "lock": ("unacceptable tension in the locks", [(end, LOCK, 0) for end in BOTH]),
    "two-limits": ("unacceptable tension in the locks, and in the corners too", [(end, LOCK, 0) for end in BOTH]),
    "lash-force": ("unacceptable lash force", [(0, LASH_TENSION, 0)]),
    "feeder": ("unacceptable corner tension, but accepted by forecast", [(1, CORNER, 0)]),
    "fleet-standard": ("unacceptable corner tension by the fleet standard", [(1, CORNER, 0)]),
}


# The same of bays: findings by row.
BESIDE_THE_GAP = [(0, COMPRESSION, 1), (1, COMPRESSION, 1), (1, CORNER, 0)]
BAYS = {
    "open-gap": ("not accepted, for the wind in a gap of three empty rows", {5: BESIDE_THE_GAP, 9: BESIDE_THE_GAP}),
    "closed-gap": ("accepted", {}),
}


def rows_of(name):
    """The rows of a bay with their exact forces, by the second program."""
    told = read_bay(Source(str(EXAMPLES / "bays" / f"{name}.toml")))
    return bay.expected(pack_bay([row.data for row in told.rows])).rows


def sheet_of(name):
    return describe((EXAMPLES / f"{name}.toml").read_bytes()).sheet


class Examples(unittest.TestCase):
    def test_every_example_is_known_and_says_what_it_shows(self):
        self.assertEqual({path.stem for path in EXAMPLES.glob("*.toml")}, set(SHOWN))
        for name, (words, _) in SHOWN.items():
            text = (EXAMPLES / f"{name}.toml").read_text()
            self.assertRegex(text, f"(?m)^# Shows: {words}[.,: ]")

    def test_each_has_the_findings_that_it_says(self):
        """None of the exact forces lies so close to its limit that the last 100 N decide."""
        for name, (words, due) in SHOWN.items():
            with self.subTest(name):
                sheet = sheet_of(name)
                ends = exact(sheet)
                self.assertEqual(findings(sheet, ends), due)
                self.assertEqual(words.startswith("accepted"), not due)
                self.assertFalse([c for c in checks(sheet, ends) if c.limit - 100 < c.size <= c.limit])

    def test_every_bay_is_known_and_says_what_it_shows(self):
        folder = EXAMPLES / "bays"
        self.assertEqual({path.stem for path in folder.glob("*.toml")}, set(BAYS))
        for name, (words, _) in BAYS.items():
            self.assertRegex((folder / f"{name}.toml").read_text(), f"(?m)^# Shows: {words}[.,: ]")

    def test_each_bay_has_the_findings_that_it_says(self):
        """None of the exact forces lies so close to its limit that the last 100 N decide."""
        for name, (words, due) in BAYS.items():
            with self.subTest(name):
                rows = {number: row for number, row in enumerate(rows_of(name), 1) if row}
                found = {number: findings(row.sheet, row.ends) for number, row in rows.items()}
                self.assertEqual({number: each for number, each in found.items() if each}, due)
                self.assertEqual(words.startswith("accepted"), not due)
                near = [c for row in rows.values() for c in checks(row.sheet, row.ends) if c.limit - 100 < c.size <= c.limit]
                self.assertEqual(near, [])

    def test_the_bays_differ_in_one_empty_row(self):
        opened, closed = ([row and row.sheet.tiers[0].mass for row in rows_of(name)] for name in ("open-gap", "closed-gap"))
        self.assertEqual(opened[5:8], [None] * 3)
        self.assertEqual(opened[:5] + opened[6:], closed)

    def test_the_cases_that_a_class_asks_for(self):
        """CR Appendix 2, 2.3: stack weight (post compression), lash forces, racking; beside them corner tension."""
        kinds = {kind for _, found in SHOWN.values() for _, kind, _ in found}
        self.assertLessEqual({RACKING, COMPRESSION, CORNER, LASH_TENSION}, kinds)

    def test_pulled_back_points_to_windward(self):
        self.assertLess(exact(sheet_of("pulled-back"))[0].racking[5], -150_000)
        self.assertLess(exact(sheet_of("rod-s"))[0].racking[1], 0)

    def test_the_route_decides(self):
        sheet = sheet_of("route")
        unrestricted = replace(sheet, head=replace(sheet.head, route=0))
        self.assertEqual(findings(unrestricted, exact(unrestricted)), [(1, CORNER, 0)])

    def test_the_side_walls_decide(self):
        told = describe((EXAMPLES / "side-walls.toml").read_bytes())
        lighter = (*told.sheet.tiers[:-1], replace(told.sheet.tiers[-1], mass=5_500))
        for sheet, verdict, racking in ((told.sheet, 1, 131_687), (replace(told.sheet, tiers=lighter), 0, 124_526)):
            answer = reported(sheet, told.longitudinal)
            self.assertEqual((answer.verdict, answer.racking[0]), (verdict, racking))

    def test_the_gear_aboard(self):
        """Three of its five rods hold it, in one way, and two do not; no choice hangs on the last 100 N."""
        sheet = sheet_of("gear-aboard")
        self.assertEqual(sheet.door, sheet.closed)
        gear = arrangements.Due(sheet=replace(sheet, door=(), closed=()), lashes=sheet.door)
        found = list(arrangements.by_fractions(gear, 100))
        self.assertEqual([choice for choice, right in found if right], [26, 15, 23, 27, 29, 30, 31])
        self.assertEqual([choice for choice, right in found if right is None], [])

    def test_the_forecast_decides(self):
        sheet = sheet_of("feeder")
        ends = exact(sheet, factor(300, 2_500))
        self.assertEqual(findings(sheet, ends), [])
        self.assertFalse([c for c in checks(sheet, ends) if c.limit - 100 < c.size])

    def test_a_heavier_box_below(self):
        """The pair of the named cases: racking of tier 2 at the closed end and tension at the deck of the door end are lower."""
        light = sheet_of("light-below")
        heavy = replace(light, tiers=(replace(light.tiers[0], mass=10_000), light.tiers[1]))
        self.assertEqual([pack(light), pack(heavy)], [OVER_LIGHT, OVER_HEAVY])
        (door, closed), (door_heavy, closed_heavy) = exact(light), exact(heavy)
        self.assertTrue(0 < closed_heavy.racking[1] < closed.racking[1])
        self.assertTrue(0 < door_heavy.tension[0] < door.tension[0])
        self.assertEqual(list(exact_faults(light, heavy)), [])

    def test_the_turn_decides(self):
        """With no box turned it is the stack of lash-force; with all of them the wire at the other end is overloaded."""
        sheet = sheet_of("turned")
        for turn, due in ((0, [(0, LASH_TENSION, 0)]), (2, [(1, LASH_TENSION, 0)])):
            alike = replace(sheet, tiers=tuple(replace(tier, wind=tier.wind % 2 + turn) for tier in sheet.tiers))
            self.assertEqual(findings(alike, exact(alike)), due)
            self.assertEqual(alike == sheet_of("lash-force"), turn == 0)

    def test_the_hook_decides(self):
        """The two stacks differ in one lash, on the corner over level 1 or on the one under it."""
        low, high = sheet_of("bottom-hook"), sheet_of("top-hook")
        self.assertEqual([(lash.tier, lash.hook, lash.level) for lash in low.door + high.door], [(2, BOTTOM, 1), (1, TOP, 1)])
        moved = tuple(replace(lash, tier=1, hook=TOP) for lash in low.door)
        self.assertEqual(replace(low, door=moved, closed=moved), high)
        named = {case.name: case.data for case in HOOKED}
        self.assertEqual([pack(low), pack(high)], [named["hooked-bottom"], named["hooked-top"]])

    def test_the_lengths_of_long_rods(self):
        """111,352,500 and 172,435,000 mm² lie over 10,552² and 13,131² and under the next squares."""
        lengths = sorted(lash_length(lash) for lash in sheet_of("long-rods").door)
        self.assertEqual(lengths, [10_553, 10_553, 13_132, 13_132])

    def test_the_rule_decides(self):
        """By the class rule the same stack is accepted, with the forces that the example tells."""
        sheet = sheet_of("fleet-standard")
        by_class = replace(sheet, head=replace(sheet.head, rule=1))
        self.assertEqual((sheet.head.rule, findings(by_class, exact(by_class))), (2, []))
        tensions = [exact(each)[1].tension[0] for each in (by_class, sheet)]
        self.assertEqual([round(float(tension), 1) for tension in tensions], [245_816.8, 254_301.5])

    def test_one_pull_over_two_limits(self):
        """Both limits are exceeded at the deck of each end; on stronger locks the finding names the corner."""
        sheet = sheet_of("two-limits")
        over = [(c.end, c.kind, c.index) for c in checks(sheet, exact(sheet)) if c.size > c.limit]
        self.assertEqual(over, [(end, kind, 0) for end in BOTH for kind in (CORNER, LOCK)])
        stronger = replace(sheet, head=replace(sheet.head, lock_breaking=500_000))
        self.assertEqual(stronger, sheet_of("corner-tension"))

    def test_the_template_is_accepted(self):
        sheet = describe(template().encode()).sheet
        self.assertEqual(findings(sheet, exact(sheet)), [])


if __name__ == "__main__":
    unittest.main()
