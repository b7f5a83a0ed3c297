"""./lash STACK --side: what it says of side walls, its picture, messages and statuses; the call is stood in for where its answer is
given."""

import json
import tempfile
import unittest
from pathlib import Path
from xml.etree import ElementTree

from lashlib.calls import Reply
from lashtool.description import BadDescription, describe
from lashtool.side import STIFFNESS as TOOL_STIFFNESS
from lashtool.side import sides
from lashtool.svg_side import BOX_LENGTH as DRAWN_LENGTH
from lashtool.svg_side import SCALE
from reference.side import STIFFNESS, reported
from reference.stack import BOX_LENGTH
from sheets.sheet import pack
from sheets.side import SideAnswer, pack_side
from tests.support import B_ANSWER, EXAMPLES, lash, library_of

SIDE_WALLS = EXAMPLES / "side-walls.toml"
TOLD = describe(SIDE_WALLS.read_bytes())
DUE = reported(TOLD.sheet, TOLD.longitudinal)

# Figures of no real stack, for five tiers.
CALM = pack_side(SideAnswer(0, (125_000, 100_000, 99_999, 8, 0), (21_589, 30_001, 40_000, 40_000, 40_000)))
OVER = pack_side(SideAnswer(1, (125_001, 125_001, 50_000, 8, 0), (21_590, 43_180, 51_816, 51_818, 1_051_818)))

ONE = """
[box]
mass = 20000
A_T = 500
A_Vmax = 1500
A_Vmin = 800
"""


def tried(*words, side=OVER, path=SIDE_WALLS):
    return lash(path, "--side", *words, side=side)


class Reports(unittest.TestCase):
    def test_figures(self):
        status, text, messages = tried()
        self.assertEqual((status, messages), (1, ""))
        rows = text.split("EACH SIDE WALL\n")[1].split("\n\n")[0].splitlines()
        self.assertEqual([row.split() for row in rows[1:]], [
            "limit 125,000".split(),
            "5 9,500 0.365 0 0.0% | | 5 1,051.818".split(),
            "4 14,000 0.350 8 0.1% |= | 4 51.818".split(),
            "3 20,000 0.350 50,000 40.0% |==== | 3 51.816".split(),
            "2 22,000 0.350 125,001 100.1% ! |!!!!!!!!!!| 2 43.180".split(),
            "1 24,000 0.350 125,001 100.1% ! |!!!!!!!!!!| 1 21.590".split(),
        ])
        self.assertTrue(text.startswith("Five forties forward\nSIDE WALLS NOT ACCEPTED: racking of 2 tiers exceeds 125,000 N\n"))
        self.assertTrue(text.endswith("\n\nSIDE WALLS NOT ACCEPTED: racking of 2 tiers exceeds 125,000 N\n"))

    def test_at_the_limit(self):
        status, text, _ = tried(side=CALM)
        self.assertEqual(status, 0)
        self.assertIn("SIDE WALLS ACCEPTED\nworst use of the limit: |##########| 100.0% at tier 1: racking 125,000 N of 125,000 N", text)

    def test_the_rule_is_named(self):
        for rule, words in ((1, "rule 1 (class rule): 45% of"), (2, "rule 2 (fleet standard): half of")):
            text = f"rule = {rule}\n" + SIDE_WALLS.read_text()
            _, told, _ = lash("-", "--side", stdin=text.encode(), side=OVER)
            self.assertIn(words, told)

    def test_what_is_asked(self):
        """The call is given the stack sheet and the short sheet of the description."""
        asked = []
        sides(TOLD, lambda *sheets: asked.append(sheets) or Reply(256 * len(OVER), OVER))
        self.assertEqual(asked, [(pack(TOLD.sheet), bytes.fromhex("05 5e01 5e01 5e01 5e01 6d01"))])

    def test_json(self):
        status, text, _ = tried("--json")
        data = json.loads(text)
        self.assertEqual((status, data["status"], data["accepted"], data["racking_limit"], data["rule"]), (1, 1, False, 125_000, 1))
        self.assertEqual(data["worst_use"], {"tier": 1, "racking": 125_001, "used_percent": 100.1})
        self.assertEqual(data["side_walls"][4], {
            "tier": 5, "mass": 9_500, "A_L": 365, "racking": 0, "used_percent": 0.0, "exceeded": False, "level": 5,
            "shift_thousandths_mm": 1_051_818,
        })

    def test_by_the_library(self):
        status, text, _ = lash(SIDE_WALLS, "--side", "--json")
        walls = json.loads(text)["side_walls"]
        self.assertEqual(status, DUE.verdict)
        self.assertEqual(tuple(wall["racking"] for wall in walls), DUE.racking)
        self.assertEqual(tuple(wall["shift_thousandths_mm"] for wall in walls), DUE.shift)

    def test_numbers_stand_as_in_the_second_program(self):
        self.assertEqual((TOOL_STIFFNESS, DRAWN_LENGTH), (STIFFNESS, BOX_LENGTH))


class Pictures(unittest.TestCase):
    def drawn(self, side, text=None):
        words = ("--side", "--svg", "-")
        given = {"stdin": text.encode()} if text else {}
        status, data, messages = lash("-" if text else SIDE_WALLS, *words, side=side, binary=True, **given)
        self.assertEqual(messages, "")
        return status, ElementTree.fromstring(data)

    def test_boxes_to_scale(self):
        for feet, heights in ((40, (2591, 2896)), (20, (2438, 2591))):
            tiers = "".join(f"[[tier]]\nheight = {height}\n" for height in heights)
            side = pack_side(SideAnswer(0, (2, 1), (2, 3)))
            _, page = self.drawn(side, f"{ONE}A_L = 100\nsize = {feet}\n{tiers}")
            boxes = [shape.attrib for shape in page.iter() if shape.get("class", "").split()[:1] == ["box"]]
            sizes = [(float(box["width"]) / SCALE, float(box["height"]) / SCALE) for box in boxes]
            for (width, height), due in zip(sizes, heights, strict=True):
                self.assertAlmostEqual(width, BOX_LENGTH[feet], delta=2)
                self.assertAlmostEqual(height, due, delta=2)

    def test_figures_and_states(self):
        status, page = self.drawn(OVER)
        texts = [shape.text for shape in page.iter() if shape.tag.endswith("text")]
        self.assertEqual(status, 1)
        for words in ("125,001", "100.1%", "level 5: shift 1,051.818 mm", "tier 3", "20,000 kg", "A_L 0.365 g"):
            self.assertIn(words, texts)
        names = [shape.get("class") for shape in page.iter()]
        self.assertEqual((names.count("box over"), names.count("box"), names.count("verdict over")), (2, 3, 1))

    def test_a_file(self):
        with tempfile.TemporaryDirectory() as folder:
            path = Path(folder, "side.svg")
            status, text, _ = tried("--svg", path)
            self.assertEqual((status, text[:4]), (1, "Five"))
            self.assertTrue(path.read_bytes().startswith(b"<?xml"))
            self.assertEqual(tried("--svg", Path(folder, "none", "x"))[0], 3)


class BadUse(unittest.TestCase):
    def test_a_tier_without_acceleration(self):
        text = ONE + "[[tier]]\nA_L = 1\n[[tier]]\n[[tier]]\nA_L = 2\n"
        status, told, messages = lash("-", "--side", stdin=text.encode(), side=OVER)
        self.assertEqual((status, told), (2, ""))
        words = "tier 2: A_L is missing (0 to 1,500 thousandths of g); --side needs it in each tier or in [box]"
        self.assertEqual(messages, f"lash: standard input: {words}\n")
        status, told, _ = lash("-", "--side", "--json", stdin=text.encode(), side=OVER)
        self.assertEqual((status, json.loads(told)["error"]), (2, words))

    def test_without_side_it_is_no_fault(self):
        for lines in ("A_L = 250\n[[tier]]\n", "[[tier]]\nA_L = 1500\n", "[[tier]]\n"):
            status, told, messages = lash("-", stdin=(ONE + lines).encode(), output=B_ANSWER)
            self.assertEqual((status, messages), (0, ""))
            self.assertNotIn("A_L", told)

    def test_values(self):
        for lines, words in (
            ("A_L = 1501\n[[tier]]\n", "[box]: A_L 1501 is outside 0 to 1,500 thousandths of g"),
            ("[[tier]]\nA_L = -1\n", "tier 1: A_L -1 is outside 0 to 1,500 thousandths of g"),
            ('[[tier]]\nA_L = "x"\n', 'tier 1: A_L is "x"; it has to be a whole number'),
            ("[[tier]]\nA_L = 0.3\n", "tier 1: A_L is 0.3; it has to be a whole number"),
            ("[[tier]]\nA_l = 1\n", 'tier 1: unknown field "A_l"; did you mean "A_L"?'),
        ):
            with self.subTest(words), self.assertRaises(BadDescription) as caught:
                describe((ONE + lines).encode())
            self.assertEqual(str(caught.exception), words)

    def test_a_tier_goes_before_the_box(self):
        told = describe((ONE + "A_L = 100\n[[tier]]\n[[tier]]\nA_L = 200\n").encode())
        self.assertEqual(told.longitudinal, (100, 200))
        self.assertNotIn("A_L", " ".join(told.assumed))

    def test_words_that_do_not_go_together(self):
        for words, fault in (
            (("--sheet", SIDE_WALLS, "--side"), "--side needs a description"),
            ((SIDE_WALLS, EXAMPLES / "box-b.toml", "--side"), "--side is for one stack"),
            ((SIDE_WALLS, "--side", "--set", "tier.1.mass=1"), "--side is for one stack"),
            ((SIDE_WALLS, "--side", "--forecast", "1,1,1"), "--side is for one stack"),
            ((SIDE_WALLS, "--side", "--write", "x"), "--side is for one stack"),
            (("--template", "--side"), "--template goes alone"),
            ((SIDE_WALLS, "--side", "--svg", "-", "--json"), "standard output can be written only once"),
        ):
            status, text, messages = lash(*words, side=OVER, output=B_ANSWER)
            with self.subTest(words):
                self.assertEqual((status, text), (2, ""))
                self.assertIn(fault, messages)

    def test_a_call_that_is_not_believed(self):
        for side, words in (
            (b"14 0\n", "the call for side walls refused a stack that is to be taken, with 14 0"),
            (b"\0", "the call for side walls wrote no side answer"),
            (CALM[:-8], "the call for side walls wrote no side answer"),
            (pack_side(SideAnswer(0, (1,) * 4, (1,) * 4)), "does not fit the stack or itself"),
            (b"\0" + OVER[1:], "does not fit the stack or itself"),
            (b"\1" + CALM[1:], "does not fit the stack or itself"),
        ):
            status, text, messages = tried(side=side)
            with self.subTest(words):
                self.assertEqual((status, text), (3, ""))
                self.assertIn(words, messages)

    def test_a_library_without_the_call(self):
        with tempfile.TemporaryDirectory() as folder:
            library = library_of(Path(folder), B_ANSWER, side=OVER)
            self.assertEqual(lash(SIDE_WALLS, "--side", "--library", library)[0], 1)
            self.assertEqual(lash(SIDE_WALLS, "--side", "--library", Path(folder, "none.so"))[0], 3)


if __name__ == "__main__":
    unittest.main()
