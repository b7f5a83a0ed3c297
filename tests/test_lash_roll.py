"""Accelerations from roll in the tool: stacks whose tiers are filled, and `./lash roll` for one box."""

import json
import unittest
from math import radians, sin

from lashtool.description import BadDescription, describe
from lashtool.ship import unit
from sheets.sheet import parse
from tests.support import EXAMPLES, answer_bytes, lash

SHIP = """
[ship]
length = 300_000
roll_angle = 2500
roll_period = 2000
a0 = 2012
roll_centre = 15_000
"""
PLACE = """
[position]
x = 150_000
y = 20_000
foot = 20_000
"""
TIERS = "[[tier]]\nmass = 20_000\n[[tier]]\nmass = 10_000\n"
GIVEN = 574 << 8 | 1177 << 24 | 1000 << 40


class Asked:
    """A call that notes its conditions and gives the same for each."""

    def __init__(self, result=GIVEN):
        self.result, self.seen = result, []

    def __call__(self, *condition):
        self.seen.append(condition)
        return type("Reply", (), {"result": self.result, "number": self.result & 255, "second": self.result >> 8})


def told(text, roll=None):
    return describe(text.encode(), roll or Asked())


class Filled(unittest.TestCase):
    def test_all_are_worked_out(self):
        roll = Asked()
        description = told(SHIP + PLACE + TIERS, roll)
        self.assertEqual([(tier.a_t, tier.a_vmax, tier.a_vmin) for tier in description.sheet.tiers], [(574, 1177, 1000)] * 2)
        # centres at 45% of 2,591 mm over 20,000 and 22,591 mm, away from the roll centre
        ends = (2012, 2500, 2000, 300_000, 15_000, 150_000, 20_000)
        self.assertEqual(roll.seen, [(4226, 9063, *ends, z) for z in (21_166, 23_757)])
        self.assertEqual([each.z for each in description.motion.worked], [21_166, 23_757])

    def test_by_the_fleet_standard_at_half_height(self):
        description = told("rule = 2\n" + SHIP + PLACE + TIERS)
        self.assertEqual([each.z for each in description.motion.worked], [21_296, 23_887])  # 1,295.5

    def test_below_the_roll_centre_the_millimetre_is_the_lower(self):
        description = told(SHIP.replace("15_000", "40_000") + PLACE + TIERS)
        self.assertEqual([each.z for each in description.motion.worked], [21_165, 23_756])

    def test_what_is_given_stays(self):
        text = SHIP + PLACE + "[box]\nA_Vmin = 700\n[[tier]]\nmass = 20_000\nA_T = 500\n[[tier]]\nmass = 1_000\nz = 30_000\n"
        description = told(text)
        tiers = description.sheet.tiers
        self.assertEqual([(tier.a_t, tier.a_vmax, tier.a_vmin) for tier in tiers], [(500, 1177, 700), (574, 1177, 700)])
        self.assertEqual([(each.tier, each.names, each.z) for each in description.motion.worked],
                         [(1, ("A_Vmax",), 21_166), (2, ("A_T", "A_Vmax"), 30_000)])

    def test_nothing_is_asked_where_all_is_given(self):
        roll = Asked()
        description = told(SHIP + "[box]\nA_T = 1\nA_Vmax = 2\nA_Vmin = 1\n" + TIERS, roll)
        self.assertEqual((roll.seen, description.motion), ([], None))

    def test_foot_is_not_needed_where_tiers_have_z(self):
        place = PLACE.replace("foot = 20_000\n", "")
        self.assertEqual(len(told(SHIP + place + "[[tier]]\nmass = 1\nz = 0\n").sheet.tiers), 1)

    def test_messages_name_the_field(self):
        for text, words in (
            (TIERS, "tier 1: A_T is missing"),
            (PLACE + TIERS, "[position]: there is no [ship]"),
            (SHIP + TIERS, "[position]: foot is missing"),
            (SHIP + "[position]\nfoot = 1\n" + TIERS, "[position]: x is missing"),
            (SHIP + PLACE.replace("y = 20_000\n", "") + TIERS, "[position]: y is missing"),
            (SHIP.replace("a0 = 2012\n", "") + PLACE + TIERS, "[ship]: a0 is missing"),
            (SHIP.replace("a0 = 2012", "a0 = 0.2012") + PLACE + TIERS, "[ship]: a0 is 0.2012; it has to be a whole number"),
            (SHIP.replace("2000", "0") + PLACE + TIERS, "[ship]: roll_period 0 is outside 1 to 10,000"),
            (SHIP.replace("2500", "9001") + PLACE + TIERS, "[ship]: roll_angle 9001 is outside 0 to 9,000"),
            (SHIP + "rolls = 1\n" + PLACE + TIERS, '[ship]: unknown field "rolls"'),
            (SHIP + PLACE + "z = 1\n" + TIERS, '[position]: unknown field "z"'),
            (SHIP + PLACE.replace("150_000", "300_001") + TIERS, "[position]: x 300,001 lies beyond the ship's length, 300,000 mm"),
            (SHIP + PLACE.replace("150_000", "-1") + TIERS, "[position]: x -1 is outside 0 to 500,000"),
            (SHIP + PLACE.replace("foot = 20_000", "foot = 500_000") + TIERS, "tier 1: its centre at 501,166 mm lies beyond"),
            (SHIP + PLACE + "[[tier]]\nmass = 1\nz = 500_001\n", "tier 1: z 500001 is outside"),
            (SHIP + "[[tier]]\nmass = 1\nA_T = 1\nA_Vmax = 1\nA_Vmin = 1\nz = 'high'\n", 'tier 1: z is "high"'),
            ("[[tier]]\nmass = 1\nz = 1\nA_T = 1\nA_Vmax = 1\nA_Vmin = 1\n", 'tier 1: unknown field "z"'),
            ("ship = 1\n" + TIERS, "ship: has to be written as [ship]"),
        ):
            with self.subTest(words):
                with self.assertRaises(BadDescription) as fault:
                    told(text)
                self.assertIn(words, str(fault.exception))

    def test_outside_names_the_tier_and_the_acceleration(self):
        for second, words in ((1, "tier 1: A_T worked out from roll is outside 0 to 1,500"), (2, "A_Vmax"), (3, "A_Vmin")):
            with self.assertRaises(BadDescription) as fault:
                told(SHIP + PLACE + TIERS, Asked(19 | second << 8))
            self.assertIn(words, str(fault.exception))

    def test_as_if_typed(self):
        """The sheet's bytes are those of a description that gives the same numbers."""
        _, data, _ = lash(EXAMPLES / "from-roll.toml", "--write", "-", output=answer(), roll=GIVEN, binary=True)
        tiers = parse(data).tiers
        due = [(574, 1177, 1000), (574, 1177, 1000), (700, 1177, 1000)]
        self.assertEqual([(tier.a_t, tier.a_vmax, tier.a_vmin) for tier in tiers], due)

    def test_the_report_says_what_was_worked_out(self):
        status, out, _ = lash(EXAMPLES / "from-roll.toml", output=answer(), roll=GIVEN)
        words = " ".join(out.split())
        self.assertEqual(status, 0)
        tiers = "A_T, A_Vmax, A_Vmin of tiers 1, 2; A_Vmax, A_Vmin of tier 3"
        self.assertIn(f"worked out from roll by CR 5.2.4(a): {tiers}; roll 25.00 degrees", words)
        self.assertIn("centres at z 25,666, 28,257, 30,848 mm", words)
        self.assertIn("Not covered: the ship's motion but for the roll described, ", words)
        _, out, _ = lash(EXAMPLES / "from-roll.toml", "--json", output=answer(), roll=GIVEN)
        worked = json.loads(out)["worked_out"]
        self.assertEqual(worked["tiers"][2], {"tier": 3, "z": 30_848, "accelerations": ["A_Vmax", "A_Vmin"]})
        self.assertEqual(worked["ship"]["roll_angle"], 2500)
        _, out, _ = lash(EXAMPLES / "three-high.toml", "--json", output=answer())
        self.assertNotIn("worked_out", json.loads(out))

    def test_with_a_move_too(self):
        words = (EXAMPLES / "from-roll.toml", "--set", "tier.3.mass=1", "--json")
        _, out, _ = lash(*words, output=answer(), roll=GIVEN, preview=answer())
        said = json.loads(out)
        self.assertEqual(said["after"]["worked_out"], said["before"]["worked_out"])
        self.assertEqual(said["before"]["worked_out"]["tiers"][0]["tier"], 1)


def answer():
    """Of three tiers with two lashes an end, no figure above 1 N."""
    end = ((1,) * 3, (1,) * 4, (1,) * 3, ((1, 1, 1),) * 2)
    return answer_bytes(end, end)


class OneBox(unittest.TestCase):
    def roll(self, *words, **given):
        return lash("roll", *words, **{"roll": GIVEN, "stdin": SHIP.encode(), **given})

    def test_given(self):
        status, out, err = self.roll("-", "--x", 150_000, "--y", -20_000, "--z", 30_000)
        self.assertEqual((status, err), (0, ""))
        self.assertTrue(out.startswith("A_T = 574\nA_Vmax = 1177\nA_Vmin = 1000\n"), out)
        self.assertIn("box at x 150,000 mm, y -20,000 mm, z 30,000 mm", out)

    def test_the_library_itself(self):
        status, out, _ = lash("roll", EXAMPLES / "from-roll.toml", "--x", 150_000, "--y", 20_000, "--z", 30_000, "--json")
        data = json.loads(out)
        self.assertEqual((status, data["A_T"], data["A_Vmax"], data["A_Vmin"]), (0, 574, 1177, 1000))
        self.assertEqual(data["box"], {"x": 150_000, "y": 20_000, "z": 30_000})

    def test_place_of_the_description(self):
        status, out, _ = self.roll("-", "--z", 30_000, "--json", stdin=(SHIP + PLACE).encode())
        self.assertEqual((status, json.loads(out)["box"]), (0, {"x": 150_000, "y": 20_000, "z": 30_000}))

    def test_bad_values(self):
        for words, due in (
            (("-", "--y", 0, "--z", 0), "--x is missing"),
            (("-", "--x", 0, "--z", 0), "--y is missing"),
            (("-", "--x", 300_001, "--y", 0, "--z", 0), "--x is 300,001, beyond the ship's length"),
            (("-", "--x", -1, "--y", 0, "--z", 0), "--x is -1; it has to be 0 to 500,000 mm"),
            (("-", "--x", 1, "--y", "a", "--z", 0), '--y is "a"; it has to be a whole number'),
            (("-", "--x", 1, "--y", 0, "--z", "9" * 20), "--z is"),
            (("nowhere.toml", "--x", 1, "--y", 0, "--z", 0), "nowhere.toml: cannot be read"),
        ):
            with self.subTest(words):
                status, out, err = self.roll(*words)
                self.assertEqual((status, out), (2, ""))
                self.assertIn(due, err)

    def test_no_ship(self):
        status, _, err = self.roll("-", "--x", 0, "--y", 0, "--z", 0, stdin=TIERS.encode())
        self.assertEqual(status, 2)
        self.assertIn("there is no [ship]", err)

    def test_outside(self):
        status, out, err = self.roll("-", "--x", 0, "--y", 0, "--z", 0, "--json", roll=19 | 3 << 8)
        self.assertEqual((status, json.loads(out)["status"]), (2, 2))
        self.assertIn("A_Vmin worked out from roll is outside 0 to 1,000", err)

    def test_a_reply_that_cannot_be_is_not_shown(self):
        for result in (18, 19, 19 | 4 << 8, 20, 1501 << 8 | 1 << 24, 1 << 56, 1 << 24 | 2 << 40):
            with self.subTest(hex(result)):
                status, out, err = self.roll("-", "--x", 0, "--y", 0, "--z", 0, roll=result)
                self.assertEqual((status, out), (3, ""))
                self.assertIn("does not fit the question or itself", err)


class Angles(unittest.TestCase):
    def test_nearest_ten_thousandths(self):
        """No angle's sine lies so near the middle between two that doubles could round it wrongly."""
        for angle in range(9001):
            part = 10_000 * sin(radians(angle / 100)) % 1
            self.assertGreater(abs(part - 0.5), 1e-7)
        self.assertEqual([unit(angle) for angle in (0, 2500, 3000, 9000)], [(0, 10_000), (4226, 9063), (5000, 8660), (10_000, 0)])


if __name__ == "__main__":
    unittest.main()
