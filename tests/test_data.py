"""The report for scripts, from answers written by hand."""

import json
import unittest

from lashtool.geometry import RACKING_STIFFNESS
from reference import stack as second_program
from tests.support import B_ANSWER, EXAMPLES, PULLED_BACK_ANSWER, answer_bytes, lash


def data_of(name, output):
    status, text, _ = lash(EXAMPLES / f"{name}.toml", "--json", output=output)
    return status, json.loads(text)


class Data(unittest.TestCase):
    def test_figures_and_findings(self):
        status, data = data_of("pulled-back", PULLED_BACK_ANSWER)
        self.assertEqual((status, data["title"]), (1, "A light top box pulled back to windward"))
        self.assertIs(data["accepted"], False)
        door, closed = data["ends"]
        self.assertEqual((door["end"], closed["end"]), ("door", "closed"))
        self.assertEqual(
            door["racking"][5],
            {"tier": 6, "force": -155_949, "limit": 150_000, "used_percent": 104.0, "over": True},
        )
        self.assertEqual([row["level"] for row in door["compression"]], [0, 1, 2, 3, 4, 5, 6])
        self.assertIsNone(door["compression"][0]["limit"])
        tensions = [row["force"] for row in closed["corner_tension"]]
        self.assertEqual(tensions, [23_000, 250_000, 23_002, 23_003, 23_004, 23_005])
        self.assertEqual({row["limit"] for row in closed["lock_tension"]}, {299_000})
        both = [(door[name][3]["limit"], door[name][3]["over"]) for name in ("corner_tension", "lock_tension")]
        self.assertEqual(both, [(250_000, True), (299_000, True)])
        self.assertEqual((closed["lashes"][1]["lash"], closed["lashes"][1]["place"]), (4, "tier 5 top cross"))
        forces = [closed["lashes"][1][name]["force"] for name in ("tension", "vertical", "athwart")]
        self.assertEqual(forces, [24_001, 300_000, 150_000])
        self.assertEqual([row["kind"] for row in data["findings"]], [1, 2, 3, 3, 5, 6, 7])
        self.assertEqual(data["findings"][0]["tier"], 6)
        self.assertEqual(data["findings"][4]["lash"], 2)
        text = "door end, level 2: compression 848,001 N exceeds 848,000 N"
        self.assertEqual(data["findings"][1]["text"], text)

    def test_worst_and_warnings(self):
        _, data = data_of("pulled-back", PULLED_BACK_ANSWER)
        worst = data["worst_use"]
        self.assertEqual((worst["end"], worst["level"], worst["name"]), ("door", 3, "corner tension"))
        self.assertEqual((worst["force"], worst["limit"], worst["used_percent"]), (299_001, 250_000, 119.7))
        self.assertEqual(len(data["warnings"]), 1)
        self.assertIn("lash 2 (tier 6 top side, door end): its foot lies 4,000 mm to windward", data["warnings"][0])

    def test_what_was_checked(self):
        _, data = data_of("pulled-back", PULLED_BACK_ANSWER)
        stack = data["stack"]
        self.assertEqual((stack["rule"], stack["rule_name"]), (1, "class rule"))
        self.assertEqual(stack["route"], {"number": 0, "name": "Unrestricted", "A_T_percent": 100})
        lock = {"material": "higher strength", "breaking_load": 500_000, "safe_working_load": 299_000}
        self.assertEqual(stack["lock"], lock)
        self.assertEqual(stack["racking_stiffness"], {"door": 3730, "closed": 15690})
        self.assertEqual((stack["mass"], stack["height"]), (82_480, 15_546))
        tier = {"tier": 5, "size": 40, "wind": "sheltered", "turned": False, "height": 2591, "mass": 30_480}
        self.assertEqual(stack["tiers"][4], {**tier, "A_T": 800, "A_Vmax": 1000, "A_Vmin": 1000})
        self.assertEqual(
            stack["lashes"][1],
            {
                "lash": 2, "ends": ["door"], "tier": 6, "hook": "top", "kind": "side",
                "material": "higher strength rod", "LX": 0, "LY": 4000, "LZ": 3000, "area": 300,
                "modulus": 130_000, "breaking_load": 490_000, "safe_working_load": 293_000, "length": 5000,
                "foot_above_deck": 12_546, "foot_to_windward_of_stack": 4000,
            },
        )
        self.assertEqual(data["assumed"], ["lash hook top", "lash kind cross"])
        self.assertEqual(data["figures_less_than_N_above_exact"], 9)

    def test_the_fleet_standard_is_named(self):
        end = ((1,) * 5, (1,) * 6, (1,) * 5, ((1, 1, 1),) * 2)
        _, data = data_of("fleet-standard", answer_bytes(end, end))
        self.assertEqual((data["stack"]["rule"], data["stack"]["rule_name"]), (2, "fleet standard"))

    def test_stiffnesses_are_those_of_the_second_program(self):
        self.assertEqual(RACKING_STIFFNESS, tuple(second_program.RACKING_STIFFNESS[end] for end in (0, 1)))

    def test_accepted(self):
        status, data = data_of("box-b", B_ANSWER)
        self.assertEqual((status, data["accepted"], data["findings"], data["warnings"]), (0, True, [], []))


if __name__ == "__main__":
    unittest.main()
