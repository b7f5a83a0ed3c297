"""Descriptions in TOML: the examples' sheets, defaults, and messages that name the field and the place."""

import unittest
from random import Random

from lashtool.description import BadDescription, describe
from lashtool.fields import RULES
from reference.cases import CASES
from sheets.sheet import HEAD_LIMITS, Lash, Tier, pack, parse, sheet_order
from tests.support import EXAMPLES

LEAST = """
[box]
mass = 20000
A_T = 500
A_Vmax = 1500
A_Vmin = 800
[[tier]]
[[tier]]
[gear]
LY = 1950
LZ = 2600
area = 500
modulus = 130000
[[lash]]
tier = 1
"""


def sheet_of(text):
    return describe(text.encode()).sheet


def case_data(name):
    return next(case.data for case in CASES if case.name == name)


class Examples(unittest.TestCase):
    def test_round_trip(self):
        for path in sorted(EXAMPLES.glob("*.toml")):
            with self.subTest(path.name):
                sheet = describe(path.read_bytes()).sheet
                self.assertEqual(parse(pack(sheet)), sheet)

    def test_examples_that_are_named_cases(self):
        for name, case in (
            ("box-b.toml", "figure-a-c"),
            ("rod-s.toml", "figure-e"),
            ("pulled-back.toml", "slip-windward"),
        ):
            sheet = describe((EXAMPLES / name).read_bytes()).sheet
            self.assertEqual(pack(sheet), case_data(case), name)

    def test_eight_high(self):
        sheet = describe((EXAMPLES / "eight-high.toml").read_bytes()).sheet
        masses = [24_000, 22_000, 20_000, 16_000, 9_000, 6_000, 4_000, 2_500]
        self.assertEqual([tier.mass for tier in sheet.tiers], masses)
        self.assertEqual([tier.wind for tier in sheet.tiers], [0] * 6 + [1] * 2)
        self.assertEqual(sheet.door, sheet.closed)
        self.assertEqual([(lash.tier, lash.hook) for lash in sheet.door], [(3, 0), (4, 0), (4, 1), (5, 1)])
        self.assertEqual(sheet.door[1], Lash(4, 0, 0, 1, 300, 2200, 5100, 490, 176_600, 490_000))


class Defaults(unittest.TestCase):
    def test_what_is_not_given(self):
        description = describe(LEAST.encode())
        self.assertEqual(description.title, "")
        head, tiers = description.sheet.head, description.sheet.tiers
        self.assertEqual((head.rule, head.route, head.lock_material, head.lock_breaking), (1, 0, 1, 500_000))
        self.assertEqual(tiers, (Tier(40, 1, 2591, 20_000, 500, 1_500, 800),) * 2)
        rod = Lash(1, 0, 0, 1, 0, 1950, 2600, 500, 130_000, 490_000)
        self.assertEqual((description.sheet.door, description.sheet.closed), ((rod,), (rod,)))
        self.assertEqual(
            description.assumed,
            [
                "rule 1", "route 0", "lock material higher strength", "lock breaking_load 500,000 N",
                "box size 40 feet", "box wind exposed", "box turned false", "box height 2,591 mm", "lash end both",
                "lash hook top", "lash kind cross", "lash material higher strength rod", "lash LX 0 mm",
                "lash breaking_load 490,000 N",
            ],
        )

    def test_a_tier_goes_before_the_box_and_a_lash_before_the_gear(self):
        text = LEAST.replace("[gear]", "mass = 7\nwind = 'sheltered'\n[gear]\nhook = 'bottom'")
        sheet = sheet_of(text + "hook = 'top'\n")
        self.assertEqual([(tier.mass, tier.wind) for tier in sheet.tiers], [(20_000, 1), (7, 0)])
        self.assertEqual([lash.hook for lash in sheet.door], [0])

    def test_turned(self):
        for wind, exposed in (("sheltered", 0), ("exposed", 1)):
            text = LEAST.replace("[box]", f"[box]\nwind = '{wind}'")
            self.assertEqual([tier.wind for tier in sheet_of(text).tiers], [exposed] * 2)
            all_turned = text.replace("[box]", "[box]\nturned = true")
            self.assertEqual([tier.wind for tier in sheet_of(all_turned).tiers], [exposed + 2] * 2)
            one_not = all_turned.replace("[gear]", "turned = false\n[gear]")
            self.assertEqual([tier.wind for tier in sheet_of(one_not).tiers], [exposed + 2, exposed])

    def test_rules(self):
        """1 where none is given."""
        self.assertEqual(sheet_of(LEAST).head.rule, 1)
        for rule in (1, 2):
            description = describe(f"rule = {rule}\n{LEAST}".encode())
            self.assertEqual(description.sheet.head.rule, rule)
            self.assertNotIn("rule", " ".join(description.assumed))
        self.assertEqual((min(RULES), max(RULES)), HEAD_LIMITS["rule"])

    def test_words(self):
        for word, code in (("ordinary steel", 0), ("higher strength", 1), ("nodular iron", 2)):
            text = f"lock.material = '{word}'\n{LEAST}"
            self.assertEqual(sheet_of(text).head.lock_material, code)
        for word, code in (("ordinary rod", 0), ("higher strength rod", 1), ("wire", 2), ("chain", 3)):
            self.assertEqual(sheet_of(f"{LEAST}material = '{word}'").door[0].material, code)

    def test_ends_and_order(self):
        lash = "[[lash]]\ntier = {}\nhook = '{}'\nkind = '{}'\nend = '{}'\n"
        places = ((2, "bottom", "side", "door"), (2, "top", "cross", "closed"), (1, "top", "side", "both"))
        sheet = sheet_of(LEAST + "".join(lash.format(*place) for place in places))
        door, closed = (list(map(sheet_order, lashes)) for lashes in (sheet.door, sheet.closed))
        self.assertEqual(door, [(1, 0, 0), (1, 0, 1), (2, 1, 1)])
        self.assertEqual(closed, [(1, 0, 0), (1, 0, 1), (2, 0, 0)])

    def test_lashes_are_numbered_as_they_stand_in_the_description(self):
        lash = "[[lash]]\ntier = {}\nend = '{}'\nhook = '{}'\n"
        places = ((2, "closed", "top"), (2, "door", "bottom"))
        text = LEAST.replace("tier = 1\n", "tier = 2\nkind = 'side'\n")
        description = describe((text + "".join(lash.format(*place) for place in places)).encode())
        self.assertEqual(description.numbers, ((1, 3), (2, 1)))
        self.assertEqual([lash.hook for lash in description.sheet.door], [0, 1])

    def test_the_end_of_the_gear(self):
        sheet = sheet_of(LEAST.replace("[gear]", "[gear]\nend = 'door'"))
        self.assertEqual((len(sheet.door), len(sheet.closed)), (1, 0))

    def test_title_without_control_letters(self):
        title = describe(f'title = " a\\u001b\\nb "\n{LEAST}'.encode()).title
        self.assertEqual(title, "a  b")


# (what is replaced in LEAST, by what, the message)
WRONG = (
    ("A_T = 500", "A_T = 500\nA_VMax = 2", '[box]: unknown field "A_VMax"; did you mean "A_Vmax"?'),
    ("[box]", "colour = 1\n[box]", "the stack: unknown field \"colour\"; known are title, rule, route, "
     "lock, box, gear, ship, position, tier, lash"),
    ("[[lash]]", "[[lash]]\nlenght = 3", 'lash 1: unknown field "lenght"; known are end, tier, hook, kind, '
     "material, LX, LY, LZ, area, modulus, breaking_load"),
    ("[gear]", "masss = 3\n[gear]", 'tier 2: unknown field "masss"; did you mean "mass"?'),
    ("[[tier]]\n[[tier]]", "", "tier: a stack has 1 to 10 of [[tier]], not 0"),
    ("[[tier]]\n", "[[tier]]\n" * 10, "tier: a stack has 1 to 10 of [[tier]], not 20"),
    ("[[tier]]\n[[tier]]", "[tier]", "tier: has to be written as [[tier]]"),
    ("[box]", "lock = 3\n[box]", "lock: has to be written as [lock]"),
    ("[[lash]]", "[lash]", "lash: has to be written as [[lash]]"),
    ("[box]", "title = 3\n[box]", "title: has to be text"),
    ("mass = 20000\n", "", "tier 1: mass is missing (1 to 30,480 kg)"),
    ("A_Vmax = 1500\n", "", "tier 1: A_Vmax is missing (0 to 3,000 thousandths of g)"),
    ("LY = 1950\n", "", "lash 1: LY is missing (500 to 10,000 mm)"),
    ("tier = 1", "", "lash 1: tier is missing (1 to 10)"),
    ("mass = 20000", "mass = 30481", "[box]: mass 30481 is outside 1 to 30,480 kg"),
    ("mass = 20000", "mass = 0", "[box]: mass 0 is outside 1 to 30,480 kg"),
    ("[gear]", "mass = -1\n[gear]", "tier 2: mass -1 is outside 1 to 30,480 kg"),
    ("mass = 20000", "mass = 'heavy'", '[box]: mass is "heavy"; it has to be a whole number'),
    ("mass = 20000", "mass = 20000.0", "[box]: mass is 20000.0; it has to be a whole number"),
    ("mass = 20000", "mass = true", "[box]: mass is True; it has to be a whole number"),
    ("mass = 20000", "mass = [1]", "[box]: mass is [1]; it has to be a whole number"),
    ("mass = 20000", f"mass = 0x{'f' * 9000}", "[box]: mass of very many digits is outside 1 to 30,480 kg"),
    ("A_T = 500", "A_T = 1501", "[box]: A_T 1501 is outside 0 to 1,500 thousandths of g"),
    ("A_Vmin = 800", "A_Vmin = 1001", "[box]: A_Vmin 1001 is outside 0 to 1,000 thousandths of g"),
    ("A_Vmax = 1500", "A_Vmax = 799", "tier 1: A_Vmin 800 is above A_Vmax 799"),
    ("[box]", "[box]\nsize = 30", "[box]: size 30 has to be 20 or 40 feet"),
    ("[box]", "[box]\nheight = 2590", "[box]: height 2590 has to be 2,438 or 2,591 or 2,896 mm"),
    ("[box]", "[box]\nheight = 2438", "tier 1: height 2,438 has to be 2,591 or 2,896 mm at 40 feet"),
    ("[box]", "[box]\nwind = 1", '[box]: wind is 1; it has to be "sheltered" or "exposed"'),
    ("[box]", "[box]\nturned = 1", "[box]: turned is 1; it has to be true or false"),
    ("[gear]", "turned = 'yes'\n[gear]", 'tier 2: turned is "yes"; it has to be true or false'),
    ("[box]", "[box]\nreversed = true", '[box]: unknown field "reversed"; did you mean "turned"?'),
    ("[box]", "route = 13\n[box]", "the stack: route 13 is outside 0 to 12"),
    ("[box]", "lock.material = 'tin'\n[box]", '[lock]: material is "tin"; it has to be "ordinary steel" '
     'or "higher strength" or "nodular iron"'),
    ("[box]", "lock.breaking_load = 2000001\n[box]",
     "[lock]: breaking_load 2000001 is outside 1 to 2,000,000 N"),
    ("tier = 1", "tier = 11", "lash 1: tier 11 is outside 1 to 10"),
    ("tier = 1", "tier = 1\nhook = 'middle'", 'lash 1: hook is "middle"; it has to be "top" or "bottom"'),
    ("tier = 1", "tier = 1\nend = 'aft'", 'lash 1: end is "aft"; it has to be "door" or "closed" or "both"'),
    ("[gear]", "size = 20\n[gear]", "tier 2: size 20 feet differs from tier 1, which has 40"),
    ("[box]", "rule = 0\n[box]", "the stack: rule 0 has to be 1 or 2"),
    ("[box]", "rule = 3\n[box]", "the stack: rule 3 has to be 1 or 2"),
    ("[box]", "rule = -1\n[box]", "the stack: rule -1 has to be 1 or 2"),
    ("[box]", "rule = 258\n[box]", "the stack: rule 258 has to be 1 or 2"),
    ("[box]", f"rule = 0x{'f' * 9000}\n[box]", "the stack: rule of very many digits has to be 1 or 2"),
    ("[box]", "rule = '2'\n[box]", 'the stack: rule is "2"; it has to be a whole number, 1 or 2'),
    ("[box]", "rule = 2.0\n[box]", "the stack: rule is 2.0; it has to be a whole number, 1 or 2"),
    ("[box]", "rule = true\n[box]", "the stack: rule is True; it has to be a whole number, 1 or 2"),
    ("[box]", "rule = [2]\n[box]", "the stack: rule is [2]; it has to be a whole number, 1 or 2"),
    ("[box]", "Standard = 2\n[box]", 'the stack: unknown field "Standard"; did you mean "rule"?'),
    ("tier = 1", "tier = 3", "lash 1: tier 3 is not in this stack of 2 tiers"),
    ("tier = 1", "tier = 1\nhook = 'bottom'", "lash 1: hook is the bottom of tier 1, which stands on the deck"),
    ("tier = 1", "tier = 2\n[[lash]]\ntier = 1\nend = 'closed'\n[[lash]]\ntier = 1",
     "lash 3: given twice: tier 1 top cross at the closed end is lash 2 already"),
    ("mass", "weight", '[box]: unknown field "weight"; did you mean "mass"?'),
    ("mass = 20000", "mass = 20000\nWeight = 3", '[box]: unknown field "Weight"; did you mean "mass"?'),
    ("area", "MBL", '[gear]: unknown field "MBL"; did you mean "breaking_load"?'),
    ("[box]", "weight = 1\n[box]", "the stack: unknown field \"weight\"; known are title, rule, route, "
     "lock, box, gear, ship, position, tier, lash"),
    ("tier = 1", "tier = 1\nLX = 5001", "lash 1: LX 5001 is outside 0 to 5,000 mm"),
    ("LZ = 2600", "LZ = 499", "[gear]: LZ 499 is outside 500 to 20,000 mm"),
    ("area = 500", "area = 49", "[gear]: area 49 is outside 50 to 1,000 mm2"),
    ("modulus = 130000", "modulus = 9999", "[gear]: modulus 9999 is outside 10,000 to 200,000 N/mm2"),
    ("[[lash]]\ntier = 1\n", "[[lash]]\ntier = 1\n" * 9, "lash: the door end has 9, at most 8 are allowed"),
    ("[box]", "[box",
     "this is no TOML: Expected ']' at the end of a table declaration (at line 2, column 5)"),
    ("[box]", f"x = {'[' * 9000}\n[box]", "this is no TOML: it is nested too deeply"),
)


class WrongDescriptions(unittest.TestCase):
    def test_messages(self):
        for old, new, message in WRONG:
            with self.subTest(message):
                self.assertIn(old, LEAST)
                with self.assertRaises(BadDescription) as raised:
                    sheet_of(LEAST.replace(old, new))
                self.assertEqual(str(raised.exception), message)

    def test_letters_that_are_not_utf_8(self):
        text = f'title = "Bün"\n# Größe\n{LEAST}'
        due = "a description has to be saved as UTF-8"
        for data, message in (
            (text.encode("latin-1"), f"byte 0xfc in line 1, column 11 is no UTF-8; {due}"),
            (text.replace("ü", "ue").encode("cp1252"), f"byte 0xf6 in line 2, column 5 is no UTF-8; {due}"),
            (text.replace("Bün", "Büü").encode()[:11], f"byte 0xc3 in line 1, column 11 is no UTF-8; {due}"),
            (text.encode("utf-16"), f"this is UTF-16; {due}"),
            (b"\xfe\xff" + text.encode("utf-16-be"), f"this is UTF-16; {due}"),
            (LEAST.encode("utf-16-le"), f"a zero byte in line 2, column 1, as in UTF-16; {due}"),
        ):
            with self.subTest(message):
                with self.assertRaises(BadDescription) as raised:
                    describe(data)
                self.assertEqual(str(raised.exception), message)

    def test_a_byte_order_mark_of_utf_8_is_no_fault(self):
        text = f'title = "Bün"\n{LEAST}'
        self.assertEqual(describe(text.encode("utf-8-sig")), describe(text.encode()))

    def test_damaged_descriptions_make_a_sheet_or_a_message(self):
        random = Random(1)
        texts = [path.read_bytes() for path in sorted(EXAMPLES.glob("*.toml"))]
        for _ in range(1500):
            text = bytearray(random.choice(texts))
            for _ in range(random.randint(1, 4)):
                place = random.randrange(len(text))
                end = place + random.choice((0, 1, 8))
                text[place:end] = random.choice((b"", b"0", b"-", b"[", b"'a'", b"\n"))
            try:
                sheet = describe(bytes(text)).sheet
            except BadDescription as message:
                self.assertTrue(str(message))
            else:
                self.assertTrue(pack(sheet))


if __name__ == "__main__":
    unittest.main()
