"""The named cases held to what documents 01 and 02 say of them."""

import unittest
from fractions import Fraction

from reference.cases import CASES, case_lines, reported_range

# By hand from the table of refusals; an offset is 9 + 12 × tiers + 20 × lashes before it, and counts.
REFUSED = {
    "empty": "1 0",
    "tiers-11": "6 8",
    "mass-30481": "7 9",
    "a-vmin-1001": "7 9",
    "lashes-9-door": "9 45",
    "lashes-9-closed": "9 66",
    "room-833": "13 834",
    "same-twice": "12 42",
    "order-early-12": "12 42",
    "order-10-11": "10 22",
    "order-11-12": "11 42",
    "order-7-8": "7 21",
    "order-8": "8 21",
    "order-9-1": "9 21",
    "order-3-4-5": "3 0",
    "order-2-13": "2 23",
    "order-11-bottom": "11 22",
    "longest-and-one": "2 451",
    "wind-4": "7 21",
    "wind-255": "7 21",
    "rule-0": "3 0",
    "rule-3": "3 0",
    "rule-255": "3 0",
}


def block(name):
    return list(case_lines(next(case for case in CASES if case.name == name)))


class Cases(unittest.TestCase):
    def test_refusals(self):
        refused = {}
        for case in CASES:
            for line in case_lines(case):
                if line.startswith("refused "):
                    refused[case.name] = line.removeprefix("refused ")
        self.assertEqual(refused, REFUSED)

    def test_names_are_unique(self):
        self.assertEqual(len({case.name for case in CASES}), len(CASES))

    def test_a_case_in_full(self):
        # B alone: R = Q = 22,072.5 at both ends; V/2 = 73,575; M = 57,189,847.5.
        self.assertEqual(
            block("figure-a-c"),
            [
                "case figure-a-c",
                "why (a) and (c): B alone",
                "room 834",
                "sheet 0100010020a107000128001f0a204ef401dc0520030000",
                "taken",
                "0 racking 1 exact 44145/2 reported 22073 to 22172",
                f"0 compression 0 exact {73_575 + Fraction('57189847.5') / 2259} reported 98892 to 98991",
                "0 compression 1 exact 0 reported 0 to 99",
                "0 tension 0 exact 0 reported 0 to 99",
                "1 racking 1 exact 44145/2 reported 22073 to 22172",
                f"1 compression 0 exact {73_575 + Fraction('57189847.5') / 2259} reported 98892 to 98991",
                "1 compression 1 exact 0 reported 0 to 99",
                "1 tension 0 exact 0 reported 0 to 99",
                "verdict 0",
            ],
        )

    def test_a_case_by_rule_2(self):
        # B alone: Q = 24,525; M = 49,050 × 1,295.5 = 63,544,275; V/2 = 73,575.
        racking = "racking 1 exact 24525 reported 24525 to 24624"
        compression = f"compression 0 exact {73_575 + Fraction(63_544_275, 2259)} reported 101705 to 101804"
        nothing = ["compression 1 exact 0 reported 0 to 99", "tension 0 exact 0 reported 0 to 99"]
        end = [racking, compression, *nothing]
        self.assertEqual(
            block("fleet-a-c")[3:],
            [
                "sheet 0200010020a107000128001f0a204ef401dc0520030000",
                "taken",
                *(f"{number} {line}" for number in (0, 1) for line in end),
                "verdict 0",
            ],
        )

    def test_pulled_back(self):
        racking = next(line for line in block("figure-e") if line.startswith("0 racking 2"))
        self.assertTrue(racking.endswith("reported -9482 to -9383"))
        judged = [line for line in block("slip-windward") if line.startswith(("finding", "open", "verdict"))]
        self.assertEqual(judged, ["finding 0 1 6", "verdict 1"])

    def test_a_bottom_hook_relieves_the_corners(self):
        """Corners at the deck and at level 1, at both ends; a lash relieves level 1 by a bottom hook alone."""
        for name, due in (
            ("hooked-nowhere", [(3, 0), (3, 1)]), ("hooked-top", [(3, 1)]), ("hooked-bottom", []),
            ("hooked-heavy-top", [(3, 1)]), ("hooked-heavy-bottom", []),
        ):
            judged = [line for line in block(name) if line.startswith(("finding", "open", "verdict"))]
            lines = [f"finding {end} {kind} {level}" for end in (0, 1) for kind, level in due]
            self.assertEqual(judged, [*lines, f"verdict {1 if due else 0}"])

    def test_every_kind_is_found(self):
        """Of corner and lock, which are one pull, a stack's findings have one."""
        for name, due in (("slip-every-kind", "123567"), ("pull-lock-lower", "4")):
            kinds = {line.split()[2] for line in block(name) if line.startswith("finding")}
            self.assertEqual(kinds, set(due))

    def test_one_finding_for_one_pull(self):
        """At the deck, at both ends: 283,120 N against 250,000 N and a lock of 249,000 to 300,000, then 230,730 N."""
        for name, tension, kind in (
            ("pull-lock-lower", 283, 4), ("pull-equal", 283, 3), ("pull-equal-most", 283, 3), ("pull-corner-lower", 283, 3),
            ("pull-corner-alone", 283, 3), ("pull-lock-alone", 230, 4), ("pull-neither", 230, None),
        ):
            with self.subTest(name):
                lines = block(name)
                forces = [line.split()[4] for line in lines if line[1:].startswith(" tension 0 ")]
                self.assertEqual({int(Fraction(force) // 1_000) for force in forces}, {tension})
                judged = [line for line in lines if line.startswith(("finding", "open", "verdict"))]
                found = [f"finding {end} {kind} 0" for end in (0, 1)] if kind else []
                self.assertEqual(judged, [*found, f"verdict {1 if kind else 0}"])

    def test_reported_range(self):
        for kind, force, due in (
            ("tension", "0", (0, 99, False)),
            ("tension", "0.5", (1, 100, False)),
            ("tension", "12", (12, 111, False)),
            ("racking", "0", (0, 99, True)),
            ("racking", "99.5", (100, 199, True)),
            ("racking", "100", (100, 199, False)),
            ("racking", "-99.5", (-199, -100, True)),
            ("racking", "-100.5", (-200, -101, False)),
        ):
            self.assertEqual(reported_range(kind, Fraction(force)), due)


if __name__ == "__main__":
    unittest.main()
