"""./lash arrange: which choices it lists and what it says of them, its messages and statuses; the calls are stood in for by the second
program's forces."""

import json
import subprocess
import tempfile
import unittest
from dataclasses import replace
from functools import cache
from pathlib import Path

from lashlib.calls import Reply
from lashtool.arrange import arranged, gear_of, in_order
from lashtool.description import BadDescription, describe
from reference.arrangements import choices
from reference.arrangements_held import list_due
from reference.cases import BOX_B, HEAD, rod, rods, stack
from sheets.gear import pack_gear, pack_list
from sheets.sheet import Sheet, pack, parse
from tests.support import B_ANSWER, EXAMPLES, ROOT, lash, library_of, reply
from tests.test_compare import StandIn

GEAR_ABOARD = EXAMPLES / "gear-aboard.toml"
TOLD = describe(GEAR_ABOARD.read_bytes())
DUE = [26, 15, 23, 27, 29, 30, 31]

STACK = """
[box]
mass = {mass}
A_T = {a_t}
A_Vmax = 1500
A_Vmin = 800
wind = "sheltered"
[gear]
LY = 1950
LZ = 2600
area = 500
modulus = 130_000
"""
TIERS = "[[tier]]\n" * 3


@cache
def check(data):
    return StandIn()(data)


def listed(sheet, gear):
    """The list by the stood-in check, choice by choice."""
    data = list_due(sheet, gear, gear[0], lambda each: reply(check(each)))
    return Reply(256 * len(data), data)


def arrange(*words, gear=listed, **more):
    return lash("arrange", *words, output=check, gear=gear, **more)


def told(text, *words, mass=20_000, a_t=500, **more):
    """Of a description on standard input."""
    return arrange("-", *words, stdin=(STACK.format(mass=mass, a_t=a_t) + text).encode(), **more)


class Reports(unittest.TestCase):
    def test_choices_in_words(self):
        status, text, messages = arrange(GEAR_ABOARD)
        self.assertEqual((status, messages), (0, ""))
        self.assertTrue(text.startswith("Six forties with five rods aboard\n7 OF 32 CHOICES ACCEPTED\n  fewest lashes: 3 of 5 aboard; "))
        self.assertTrue(text.endswith("\n\n7 OF 32 CHOICES ACCEPTED\n"))
        rows = text.split("ACCEPTED CHOICES, fewest lashes first\n")[1].split("\n\n")[0].splitlines()[1:]
        self.assertEqual(len(rows), 7)
        which = "tier 2 top cross; tier 3 bottom cross, bottom side"
        self.assertRegex(rows[0], rf"^ +3  2, 4, 5 +98\.6% +\|#{{10}}\|  corner tension, closed end, level 0 +{which}$")
        self.assertRegex(rows[1], r"^ +4  1, 2, 3, 4 +98\.3% .*tier 1 top cross; tier 2 top cross, bottom cross; tier 3 bottom cross$")
        self.assertEqual([int(row.split()[0]) for row in rows], [3, 4, 4, 4, 4, 4, 5])

    def test_the_gear_is_listed_as_used_at_both_ends(self):
        _, text, _ = arrange(GEAR_ABOARD)
        self.assertEqual(len([line for line in text.splitlines() if line.split()[1:2] == ["both"]]), 5)
        self.assertNotIn("lash end", text)

    def test_as_many_lines_as_asked_for(self):
        for most, lines, rest in (("3", 3, "and 4 more; --most 7 prints them all"), ("7", 7, None), ("256", 7, None)):
            _, text, _ = arrange(GEAR_ABOARD, "--most", most)
            rows = text.split("fewest lashes first\n")[1].split("\n\n")[0].splitlines()[1:]
            self.assertEqual((len(rows), rows[-1].strip() == rest), (lines + (rest is not None), rest is not None))

    def test_none_is_accepted(self):
        status, text, _ = told(TIERS * 3 + '[[lash]]\ntier = 1\n[[lash]]\ntier = 2\nhook = "bottom"\n', a_t=1_500)
        self.assertEqual(status, 1)
        self.assertTrue(text.startswith("NONE OF 4 CHOICES ACCEPTED\n  closest: "))
        self.assertNotIn("ACCEPTED CHOICES", text)
        self.assertRegex(" ".join(text.split()), r"closest: tier 1 top cross; tier 2 bottom cross, with [0-9.,]+% at the \w+ end, ")

    def test_no_lash_aboard(self):
        for a_t, status, words in (
            (500, 0, "ACCEPTED: NO LASH IS ABOARD, AND NONE IS NEEDED"), (1_500, 1, "NOT ACCEPTED, AND NO LASH IS ABOARD"),
        ):
            found, text, _ = told(TIERS, a_t=a_t)
            self.assertEqual((found, text.splitlines()[0]), (status, words))
        self.assertIn("     0  -", told(TIERS)[1])

    def test_json(self):
        status, text, _ = arrange(GEAR_ABOARD, "--json", "--most", "1")
        data = json.loads(text)
        self.assertEqual((status, data["status"], data["choices"], data["accepted"]), (0, 0, 32, 7))
        self.assertEqual([each["choice"] for each in data["list"]], DUE)
        self.assertEqual(data["list"][0]["lashes"], [2, 4, 5])
        self.assertEqual(data["closest"]["choice"], 31)
        worst = data["list"][0]["worst_use"]
        self.assertEqual((worst["end"], worst["name"], worst["level"], worst["used_percent"]), ("closed", "corner tension", 0, 98.6))
        self.assertEqual([(each["lash"], each["ends"], each["tier"], each["hook"]) for each in data["gear"]], [
            (1, ["door", "closed"], 1, "top"), (2, ["door", "closed"], 2, "top"), (3, ["door", "closed"], 2, "bottom"),
            (4, ["door", "closed"], 3, "bottom"), (5, ["door", "closed"], 3, "bottom"),
        ])
        self.assertNotIn("lashes", data["stack"])

    def test_what_is_asked(self):
        """The stack without lashes, and its lashes in sheet order as the gear section."""
        asked = []

        def call(sheet, gear):
            asked.append((sheet, gear))
            return listed(sheet, gear)

        arrange(GEAR_ABOARD, gear=call)
        bare = replace(TOLD.sheet, door=(), closed=())
        self.assertEqual(asked, [(pack(bare), pack_gear(TOLD.sheet.door))])

    def test_a_sheet(self):
        with tempfile.TemporaryDirectory() as folder:
            path = Path(folder, "sheet")
            path.write_bytes(pack(TOLD.sheet))
            status, text, _ = arrange("--sheet", path)
            self.assertEqual((status, text.splitlines()[0]), (0, "7 OF 32 CHOICES ACCEPTED"))
            path.write_bytes(stack([BOX_B] * 3, [rod()], [rod(2)]))
            self.assertEqual(arrange("--sheet", path)[1].splitlines()[0], "4 OF 4 CHOICES ACCEPTED")

    def test_warnings(self):
        status, text, messages = told(TIERS + "[[lash]]\ntier = 1\nLZ = 9000\n")
        self.assertEqual(status, 0)
        for words in (" ".join(text.split()), messages):
            self.assertIn("lash 1 (tier 1 top cross, both ends): its foot lies 6,409 mm below the deck", words)

    def test_the_order_is_the_second_program_s(self):
        for count in range(9):
            self.assertEqual(in_order(count), choices(count))


class Gear(unittest.TestCase):
    def gear(self, door, closed):
        return gear_of("", Sheet(HEAD, (BOX_B,) * 3, tuple(door), tuple(closed)), None, [])

    def test_lashes_alike_but_for_their_end_are_one(self):
        for door, closed, count in ((rods(4), rods(4), 4), (rods(2), rods(4)[2:], 4), (rods(3), [], 3), ([], rods(8), 8)):
            gear = self.gear(door, closed)
            self.assertEqual((gear.lashes, gear.numbers), (tuple(rods(count)), tuple(range(1, count + 1))))
            self.assertEqual((gear.sheet.door, gear.sheet.closed), ((), ()))

    def test_the_same_in_a_description(self):
        text = TIERS + '[[lash]]\ntier = 2\nend = "closed"\n[[lash]]\ntier = 1\nend = "door"\n[[lash]]\ntier = 2\nend = "door"\n'
        _, out, _ = told(text, "--json")
        data = json.loads(out)
        self.assertEqual([(each["lash"], each["tier"]) for each in data["gear"]], [(2, 1), (3, 2)])
        self.assertEqual(data["choices"], 4)

    def test_two_lashes_for_one_corner(self):
        text = TIERS + '[[lash]]\ntier = 1\nend = "closed"\n[[lash]]\ntier = 1\nend = "door"\narea = 380\n'
        status, out, messages = told(text)
        words = "lash 1: tier 1 top cross is lash 2 already, with other fields; each lash aboard is used at both ends"
        self.assertEqual((status, out, messages), (2, "", f"lash: standard input: {words}\n"))
        with self.assertRaisesRegex(BadDescription, "lash closed 1: tier 1 top cross is lash door 1 already"):
            self.gear([rod()], [rod(area=380)])

    def test_more_than_eight(self):
        with self.assertRaisesRegex(BadDescription, "9 are aboard, at most 8 can be chosen from"):
            self.gear(rods(8), rods(9)[8:])
        lashes = "".join(f'[[lash]]\ntier = {tier}\nhook = "{hook}"\nkind = "{kind}"\n' for tier, hook, kind in (
            (tier, hook, kind) for tier in (2, 3) for hook in ("top", "bottom") for kind in ("cross", "side")))
        status, _, messages = told(TIERS + lashes + "[[lash]]\ntier = 1\n")
        self.assertEqual((status, "at most 8 are allowed" in messages), (2, True))


class BadUse(unittest.TestCase):
    def test_words(self):
        for words, fault in (
            ((), "a stack is needed"), ((GEAR_ABOARD, "--sheet", GEAR_ABOARD), "a stack is needed"),
            ((GEAR_ABOARD, "--svg", "x"), "unrecognized arguments"), ((GEAR_ABOARD, GEAR_ABOARD), "unrecognized arguments"),
        ):
            status, text, messages = arrange(*words)
            with self.subTest(words):
                self.assertEqual((status, text), (2, ""))
                self.assertIn(fault, messages)

    def test_values(self):
        for most in ("0", "257", "-1", "x", "", "1.5"):
            status, text, messages = arrange(GEAR_ABOARD, f"--most={most}")
            self.assertEqual((status, text), (2, ""))
            self.assertIn("--most is ", messages)
        status, text, _ = arrange(GEAR_ABOARD, "--json", "--most", "x")
        self.assertEqual(json.loads(text)["error"], '--most is "x"; it has to be a whole number of choices from 1 to 256')

    def test_a_bad_description(self):
        for text, words in (
            ("", "tier: a stack has 1 to 10 of [[tier]], not 0"),
            (TIERS + "[[lash]]\ntier = 4\n", "lash 1: tier 4 is not in this stack of 3 tiers"),
            (TIERS + "[[lash]]\ntier = 1\nhook = \"bottom\"\n", "lash 1: hook is the bottom of tier 1, which stands on the deck"),
        ):
            status, out, messages = told(text)
            self.assertEqual((status, out, messages), (2, "", f"lash: standard input: {words}\n"))
        self.assertEqual(arrange(EXAMPLES / "none.toml")[0], 2)

    def test_a_refused_sheet(self):
        with tempfile.TemporaryDirectory() as folder:
            path = Path(folder, "sheet")
            path.write_bytes(stack([BOX_B] * 2, [rod(3)]))
            status, text, messages = lash("arrange", "--sheet", path, "--json", output=lambda data: b"11 34\n", gear=listed)
            self.assertEqual((status, json.loads(text)["refused"]["number"]), (2, 11))
            self.assertIn("refused with 11 34: door end, lash 1 (bytes 34 to 53): tier 3 is not in this stack of 2 tiers", messages)

    def test_a_call_that_is_not_believed(self):
        for given, words in (
            (Reply(24), "the call for arrangements refused a stack that is to be taken, with 24 0"),
            (Reply(256, b"\0"), "the call for arrangements wrote no list: 1 bytes"),
            (Reply(256 * 3, pack_list([26, 15])[:3]), "the call for arrangements wrote no list: 1 choices, and a count of 2"),
            *((taken(wrong), "a list that is not the check's, choice by choice") for wrong in (
                [], DUE[:-1], DUE[1:], [*DUE, 31], sorted(DUE), [0, *DUE], [15, 26, *DUE[2:]])),
        ):
            status, text, messages = arrange(GEAR_ABOARD, gear=lambda sheet, gear: given)
            with self.subTest(words):
                self.assertEqual((status, text), (3, ""))
                self.assertIn(words, messages)

    def test_a_check_that_is_not_believed(self):
        gear = gear_of("", parse(stack([BOX_B] * 3, rods(1))), None, [])
        for output, words in ((b"10 46\n", "the check refused a choice of the gear with 10 46"), (b"\0", "no answer sheet")):
            with self.subTest(words), self.assertRaisesRegex(Exception, words):
                arranged(gear, lambda *given: taken([0, 1]), lambda data: reply(output))


class Command(unittest.TestCase):
    """./lash itself."""

    def run_lash(self, *words):
        return subprocess.run([ROOT / "lash", "arrange", *words], capture_output=True, text=True)

    def test_the_example_by_the_proved_library(self):
        done = self.run_lash(GEAR_ABOARD, "--json")
        self.assertEqual((done.returncode, [each["choice"] for each in json.loads(done.stdout)["list"]]), (0, DUE))

    def test_another_library(self):
        """One that lists the empty choice alone and accepts every stack as if it were one box."""
        with tempfile.TemporaryDirectory() as folder:
            library, one = library_of(Path(folder), B_ANSWER, arrangements=pack_list([0])), Path(folder, "one.toml")
            one.write_text(STACK.format(mass=20_000, a_t=500) + "[[tier]]\n")
            for path, given, status in ((one, library, 0), (GEAR_ABOARD, library, 3), (one, Path(folder, "none.so"), 3)):
                self.assertEqual(self.run_lash(path, "--library", given).returncode, status)


def taken(listed):
    data = pack_list(listed)
    return Reply(256 * len(data), data)


if __name__ == "__main__":
    unittest.main()
