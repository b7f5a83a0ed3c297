"""./lash STACK --set: what it says of a move, its messages and statuses; the call is stood in for where its answer is given."""

import json
import unittest

from lashlib.calls import loaded
from lashtool.description import describe
from lashtool.preview import read_move
from reference.judge import expected, judge
from reference.preview import expected as expected_preview
from reference.preview import with_mass
from sheets.sheet import pack
from tests.support import EXAMPLES, answer_bytes, lash

LAST_BOX = EXAMPLES / "last-box.toml"
SHEET = pack(describe(LAST_BOX.read_bytes()).sheet)

# Figures of no real stack, for three tiers without lashes: racking of tier 1 and compression at level 1 change, and so does the verdict.
LIGHT = ((114_189, 46_794, -7_947), (346_795, 145_192, 26_776, 1), (91_735, 7_852, 1))
HEAVY = ((155_391, 46_794, 7_947), (346_795, 848_001, 26_776, 1), (91_735, 7_852, 1))
ACCEPTED = answer_bytes(LIGHT, LIGHT)
DOOR_OVER = answer_bytes(HEAVY, LIGHT, ((0, 1, 1), (0, 2, 1)))


def sheet_of(stack):
    return pack(describe((EXAMPLES / f"{stack}.toml").read_bytes()).sheet)


def answer_of(stack):
    """The library's answer to an example."""
    return loaded().check(sheet_of(stack)).output


def tried(move, before=ACCEPTED, after=DOOR_OVER, words=()):
    return lash(LAST_BOX, "--set", move, *words, output=before, preview=after)


class Reports(unittest.TestCase):
    def test_before_and_after_side_by_side(self):
        status, text, messages = tried("tier.3.mass=20000")
        self.assertEqual((status, messages), (1, ""))
        self.assertIn("PREVIEW of tier 3 with 20,000 kg in place of 6,000 kg\n", text)
        self.assertRegex(text, r"as it stands:  ACCEPTED\n.* 76\.2% at the door end, tier 1")
        self.assertRegex(text, r"with the move: NOT ACCEPTED: 2 findings\n.* 103\.6% at the door end, tier 1")
        self.assertTrue(text.endswith("\n\nWITH THE MOVE: NOT ACCEPTED: 2 findings\n"))

    def test_the_rule_is_named(self):
        """And what the fleet standard takes otherwise."""
        class_rule, fleet = (f"rule = {rule}\n" + LAST_BOX.read_text().replace("rule = 1\n", "") for rule in (1, 2))
        for text, name, noted in ((class_rule, "rule 1 (class rule); route 0", 0), (fleet, "rule 2 (fleet standard); route 0", 1)):
            _, told, _ = lash("-", "--set", "tier.3.mass=20000", stdin=text.encode(), output=ACCEPTED, preview=DOOR_OVER)
            self.assertIn(f"in place of 6,000 kg\n{name}, Unrestricted: A_T x 1.00\n\n", told)
            self.assertEqual(" ".join(told.split()).count("Rule 2 is the fleet standard, one operator's own book"), noted)

    def test_limits_newly_exceeded(self):
        _, text, _ = tried("tier.3.mass=20000")
        newly = text.split("NEWLY EXCEEDED\n")[1].split("\n\n")[0].splitlines()
        self.assertEqual(newly, [
            "  racking, door end, tier 1: now 114,189 N to leeward, 76.2%; then 155,391 N to leeward, 103.6% of 150,000 N",
            "  compression, door end, level 1: now 145,192 N, 17.2%; then 848,001 N, 100.1% of 848,000 N",
        ])
        self.assertNotIn("NO LONGER", text)

    def test_limits_no_longer_exceeded(self):
        status, text, _ = tried("tier.3.mass=1_000", before=DOOR_OVER, after=ACCEPTED)
        self.assertEqual(status, 0)
        self.assertIn("NO LONGER EXCEEDED\n  racking, door end, tier 1: now 155,391 N", text)
        self.assertNotIn("NEWLY", text)

    def test_limits_exceeded_before_and_after(self):
        status, text, _ = tried("tier.3.mass=1_000", before=DOOR_OVER, after=DOOR_OVER)
        self.assertEqual(status, 1)
        self.assertIn("EXCEEDED BEFORE AND AFTER\n  racking, door end, tier 1: now 155,391 N", text)
        self.assertIn("DOOR END\n  no figure changes\n", text)

    def test_only_what_changes_is_listed(self):
        _, text, _ = tried("tier.3.mass=20000")
        door = text.split("DOOR END\n")[1].split("\n\n")[0].splitlines()
        self.assertEqual([line.split() for line in door[1:]], [
            "racking tier 1 114,189 76.2% 155,391 103.6% ! +41,202".split(),
            "racking tier 3 -7,947 5.3% 7,947 5.3% +15,894".split(),
            "compression level 1 145,192 17.2% 848,001 100.1% ! +702,809".split(),
        ])
        self.assertIn("CLOSED END\n  no figure changes\n", text)

    def test_json(self):
        status, text, _ = tried("tier.3.mass=20000", words=("--json",))
        data = json.loads(text)
        self.assertEqual((status, data["status"]), (1, 1))
        self.assertEqual(data["preview"], {"tier": 3, "mass_before": 6_000, "mass_after": 20_000})
        self.assertEqual([side["accepted"] for side in (data["before"], data["after"])], [True, False])
        self.assertEqual([data[side]["stack"]["tiers"][2]["mass"] for side in ("before", "after")], [6_000, 20_000])
        newly = [(each["name"], each["force"]) for each in data["newly_exceeded"]]
        self.assertEqual(newly, [("racking", 155_391), ("compression", 848_001)])
        self.assertEqual(data["no_longer_exceeded"], [])

    def test_a_sheet_is_previewed_too(self):
        status, text, _ = lash("--sheet", "-", "--set", "tier.1.mass=1", stdin=SHEET, output=ACCEPTED, preview=ACCEPTED)
        self.assertEqual(status, 0)
        self.assertTrue(text.startswith("PREVIEW of tier 1 with 1 kg in place of 24,000 kg\n"))


class Heavier(unittest.TestCase):
    NOTE = "The box is heavier, so no lash force is lower, though a figure may read up to 8 N lower;"

    def noted(self, stack, mass):
        _, text, _ = lash(EXAMPLES / f"{stack}.toml", "--set", f"tier.1.mass={mass}", output=answer_of(stack), preview=answer_of(stack))
        return " ".join(text.split()).count(self.NOTE)

    def test_the_note_on_lash_forces(self):
        """Of a stack with lashes, where the new mass is higher."""
        for stack, mass, due in (
            ("light-below", 2_001, 1), ("light-below", 30_480, 1), ("light-below", 2_000, 0), ("light-below", 1_999, 0),
            ("rod-s", 20_001, 1), ("last-box", 30_480, 0), ("box-b", 20_001, 0),
        ):
            with self.subTest(stack=stack, mass=mass):
                self.assertEqual(self.noted(stack, mass), due)


class BadMoves(unittest.TestCase):
    def refused(self, move, after=ACCEPTED):
        status, text, messages = tried(move, after=after)
        self.assertEqual((status, text), (2, ""))
        self.assertEqual(messages.count("\n"), 1)
        return messages

    def test_fields_that_cannot_be_previewed(self):
        for move, words in (
            ("tier.3.height=2438", '--set "tier.3.height": only a tier\'s mass can be previewed'),
            ("lock.material=1", '--set is "lock.material=1"; it has to be tier.N.mass=KG, as tier.4.mass=28000'),
            ("tier.3.mass", '--set is "tier.3.mass"; it has to be'),
            ("", '--set is ""; it has to be'),
            ("tier.-3.mass=1", "it has to be tier.N.mass=KG"),
            ("tier.3.mass=", '--set tier.3.mass is ""; it has to be a whole number, 1 to 30,480 kg'),
            ("tier.3.mass=-5", '--set tier.3.mass is "-5"; it has to be a whole number'),
            ("tier.3.mass=1.5", "it has to be a whole number"),
            ("tier.3.mass=1_00", "it has to be a whole number"),
            ("tier.3.mass=1" + "_000" * 1_500, "it has to be a whole number"),
        ):
            with self.subTest(move):
                self.assertIn(words, self.refused(move))

    def test_values_that_the_call_refuses(self):
        for move, number, words in (
            ("tier.4.mass=1", b"17 4\n", "--set tier.4.mass: the stack has tiers 1 to 3"),
            ("tier.0.mass=0", b"17 0\n", "--set tier.0.mass: the stack has tiers 1 to 3"),
            ("tier.99999999999.mass=1", b"17 4294967295\n", "--set tier.99999999999.mass: the stack has tiers 1 to 3"),
            ("tier.3.mass=0", b"7 33\n", "--set tier.3.mass 0 is outside 1 to 30,480 kg"),
            ("tier.3.mass=30481", b"7 33\n", "--set tier.3.mass 30,481 is outside 1 to 30,480 kg"),
            ("tier.3.mass=95536", b"7 33\n", "--set tier.3.mass 95,536 is outside 1 to 30,480 kg"),
        ):
            with self.subTest(move):
                self.assertIn(words, self.refused(move, after=number))

    def test_as_json(self):
        status, text, _ = tried("tier.4.mass=1", after=b"17 4\n", words=("--json",))
        self.assertEqual((status, json.loads(text)["error"]), (2, "--set tier.4.mass: the stack has tiers 1 to 3"))

    def test_one_move_of_one_stack(self):
        status, _, messages = lash(LAST_BOX, "--set", "tier.1.mass=1", "--set", "tier.2.mass=1", output=ACCEPTED, preview=ACCEPTED)
        self.assertEqual(status, 2)
        self.assertIn("--set is given 2 times; a preview is of one box at a time", messages)
        for words in ((LAST_BOX, LAST_BOX), (EXAMPLES,), (LAST_BOX, "--write", "-"), (LAST_BOX, "--svg", "-"), ("--template",)):
            status, text, messages = lash(*words, "--set", "tier.1.mass=1", output=ACCEPTED, preview=ACCEPTED)
            self.assertEqual((status, text), (2, ""))

    def test_a_stack_that_is_refused_itself(self):
        status, text, messages = lash("--sheet", "-", "--set", "tier.9.mass=0", stdin=with_mass(SHEET, 2, 0), output=b"7 21\n",
                                      preview=b"7 21\n")
        self.assertEqual((status, text), (2, ""))
        self.assertIn("refused with 7 21: tier 2 (bytes 21 to 32): mass 0 is outside", messages)


class Failures(unittest.TestCase):
    """A reply that does not fit is not believed."""

    def test_replies_that_do_not_fit(self):
        end = ((1,), (1, 1), (1,))
        for move, after in (
            ("tier.4.mass=1", ACCEPTED), ("tier.3.mass=0", ACCEPTED), ("tier.3.mass=1", b"17 3\n"), ("tier.3.mass=1", b"13 834\n"),
            ("tier.3.mass=1", answer_bytes(end, end)), ("tier.3.mass=1", b"\0"),
        ):
            with self.subTest(move=move, after=after[:8]):
                status, text, messages = tried(move, after=after)
                self.assertEqual((status, text), (3, ""))
                self.assertRegex(messages, "the (check|preview) ")


class Library(unittest.TestCase):
    def test_the_example_by_the_proved_library(self):
        """Both sides are held to the exact forces."""
        before, after = loaded().check(SHEET), loaded().preview(SHEET, 3, 20_000)
        self.assertEqual(judge(expected(SHEET), before.output).faults, [])
        self.assertEqual(judge(expected_preview(SHEET, 3, 20_000), after.output).faults, [])
        self.assertEqual([reply.answer[0] for reply in (before, after)], [0, 1])


class Reading(unittest.TestCase):
    def test_numbers_as_toml_writes_them(self):
        for text in ("tier.3.mass=20000", " tier.3.mass = 20_000 "):
            self.assertEqual((read_move([text]).tier, read_move([text]).mass), (3, 20_000))


if __name__ == "__main__":
    unittest.main()
