"""The picture: well formed, complete, inside its page, true to scale, and dark where a limit is exceeded."""

import re
import tempfile
import unittest
from dataclasses import replace
from math import atan2, degrees
from pathlib import Path
from xml.etree import ElementTree

from lashtool.description import describe
from lashtool.drawing import PAPER
from lashtool.svg_style import BARS, BOXES, LASHES
from reference.cases import BOX_B, HEAD, ROD_S
from sheets.sheet import BOTTOM, CROSS, SIDE, TOP, Sheet, pack
from tests.support import (
    B_ANSWER, CLOSED, DOOR, EXAMPLES, PULLED_BACK_ANSWER, answer_bytes, lash,
)

SVG = "{http://www.w3.org/2000/svg}"
STATES = ("calm", "near", "over")
OVER = BARS["over"]
BOX_WIDTH, POST_SPACING = 2438, 2259  # mm
LEE_CORNER = (BOX_WIDTH + POST_SPACING) / 2  # from the windward side


class Picture:
    """An SVG read back."""

    def __init__(self, data):
        self.root = ElementTree.fromstring(data)

    def texts(self, name=None):
        found = self.root.iter(f"{SVG}text")
        return [text.text for text in found if name is None or text.get("class") == name]

    def named(self, name):
        return [shape for shape in self.root.iter() if shape.get("class") == name]

    def ends(self, name, first, second):
        """(start, end) of each line of this name, in any state."""
        lines = [shape for shape in self.root.iter(f"{SVG}line") if (shape.get("class") or "").split()[:1] == [name]]
        return [tuple(tuple(float(line.get(f"{axis}{end}")) for axis in "xy") for end in (first, second)) for line in lines]

    def boxes(self):
        """(left, top, width, height) of each box."""
        shapes = [shape for shape in self.root.iter() if (shape.get("class") or "").split()[:1] == ["box"]]
        return [tuple(float(shape.get(name)) for name in ("x", "y", "width", "height")) for shape in shapes]

    def points(self):
        """Every point of the shapes, with the words' reach left out."""
        for shape in self.root.iter():
            for x, y in (("x", "y"), ("x1", "y1"), ("x2", "y2"), ("cx", "cy")):
                if shape.get(x):
                    yield float(shape.get(x)), float(shape.get(y))
            if shape.get("x") and shape.get("width"):
                yield float(shape.get("x")) + float(shape.get("width")), float(shape.get("y"))
            for point in (shape.get("points") or "").split():
                yield tuple(map(float, point.split(",")))


def drawn(*words, output):
    with tempfile.TemporaryDirectory() as folder:
        path = Path(folder, "stack.svg")
        status, text, errors = lash(*words, "--svg", path, output=output)
        assert status in (0, 1) and all(": warning: " in line for line in errors.splitlines()), errors
        return Picture(path.read_bytes())


def drawn_sheet(sheet, output):
    with tempfile.TemporaryDirectory() as folder:
        path = Path(folder, "stack.sheet")
        path.write_bytes(pack(sheet))
        return drawn("--sheet", path, output=output)


def quiet_answer(sheet):
    """An answer in which nothing is near its limit."""
    count = len(sheet.tiers)
    ends = [
        ((1_000,) * count, (1_000,) * (count + 1), (1_000,) * count, ((1_000, 1_000, 1_000),) * len(sheet.lashes(end)))
        for end in (0, 1)
    ]
    return answer_bytes(*ends)


class TrueToScale(unittest.TestCase):
    def test_lashes_of_every_example_run_from_corner_to_foot(self):
        """By the boxes drawn: one scale, hooks at corners, feet LY and LZ away from them and on the page."""
        for path in sorted(Path(EXAMPLES).glob("*.toml")):
            with self.subTest(path.name):
                sheet = describe(path.read_bytes()).sheet
                self.assert_true(drawn(path, output=quiet_answer(sheet)), sheet)

    def test_lashes_far_out_stay_true_and_on_the_page(self):
        sides = ((500, 20_000), (10_000, 500), (10_000, 20_000), (1950, 2600))
        lashes = tuple(
            replace(ROD_S, tier=t, kind=k, ly=ly, lz=lz) for t, (ly, lz) in enumerate(sides, 1) for k in (0, 1)
        )
        sheet = Sheet(HEAD, (BOX_B,) * 4, lashes, ())
        self.assert_true(drawn_sheet(sheet, quiet_answer(sheet)), sheet)

    def assert_true(self, picture, sheet):
        boxes = picture.boxes()
        left, top, width, height = boxes[0]
        scale = width / BOX_WIDTH
        self.assertAlmostEqual(height / sheet.tiers[0].height, scale, delta=0.0005)
        hooks_and_feet = picture.ends("lash", 1, 2)
        self.assertEqual(len(hooks_and_feet), len(sheet.door) + len(sheet.closed))
        page = [float(picture.root.get(name)) for name in ("width", "height")]
        for end, lashes in enumerate((sheet.door, sheet.closed)):
            left, top, width, height = boxes[end * len(sheet.tiers)]
            for lash in lashes:
                corner = left + LEE_CORNER * scale - lash.kind * POST_SPACING * scale
                level = sum(tier.height for tier in sheet.tiers[: lash.level])
                hook = (corner, top + height - level * scale)
                foot = (hook[0] - lash.ly * scale, hook[1] + lash.lz * scale)
                found = min(hooks_and_feet, key=lambda pair: self.apart(pair, (hook, foot)))
                self.assertLess(self.apart(found, (hook, foot)), 1)
                hooks_and_feet.remove(found)
                self.assertTrue(0 < foot[0] < page[0] and 0 < foot[1] < page[1])

    def test_a_bottom_hook_has_a_mark(self):
        """A top hook and the bottom hook over it lie in one point; the mark alone, in the upper box, tells them apart."""
        lashes = tuple(replace(ROD_S, tier=t, hook=h, kind=k) for t, h in ((1, TOP), (2, TOP), (2, BOTTOM)) for k in (CROSS, SIDE))
        sheet = Sheet(HEAD, (BOX_B,) * 3, lashes, ())
        picture = drawn_sheet(sheet, quiet_answer(sheet))
        left, top, width, height = picture.boxes()[1]
        lee = left + LEE_CORNER * width / BOX_WIDTH
        corners = [(x, top + height) for x in (lee, lee - POST_SPACING * width / BOX_WIDTH)]
        marks = picture.ends("bottom", 1, 2)
        self.assertEqual(len(marks), len(corners))
        for (corner, level), (hook, end) in zip(corners, marks):
            self.assertLess(self.apart(((corner, level),), (hook,)), 1)
            self.assertEqual(end[0], hook[0])
            self.assertTrue(top < end[1] < hook[1] - 5)

    def apart(self, pair, other):
        return max(abs(a - b) for one, two in zip(pair, other) for a, b in zip(one, two))

    def test_an_angle_looks_like_itself(self):
        lash = replace(ROD_S, ly=4000, lz=3000)
        sheet = Sheet(HEAD, (BOX_B,), (lash,), ())
        ((hook, foot),) = drawn_sheet(sheet, quiet_answer(sheet)).ends("lash", 1, 2)
        self.assertAlmostEqual(degrees(atan2(foot[1] - hook[1], hook[0] - foot[0])), 36.87, delta=0.1)

    def test_feet_of_eight_high_lie_in_order_and_above_the_deck(self):
        """In the sheet's order: LZ 2,500 and 5,100 to tops, 2,700 and 5,300 to bottoms of tiers above."""
        sheet = describe((EXAMPLES / "eight-high.toml").read_bytes()).sheet
        picture = drawn(EXAMPLES / "eight-high.toml", output=quiet_answer(sheet))
        deck = picture.ends("deck", 1, 2)[0][0][1]
        feet = [foot[1] for _, foot in picture.ends("lash", 1, 2)[:4]]  # lashes 1 to 4 of the door end
        self.assertLess(max(feet), deck)
        self.assertEqual(sorted(range(4), key=lambda index: feet[index]), [0, 2, 1, 3])


class Drawn(unittest.TestCase):
    def test_accepted(self):
        picture = drawn(EXAMPLES / "box-b.toml", output=B_ANSWER)
        words = picture.texts()
        for due in ("Box B alone", "ACCEPTED", "door end", "closed end"):
            self.assertIn(due, words)
        self.assertEqual(picture.texts("mass"), ["20,000 kg"] * 2)
        self.assertEqual(words.count("22,073"), 2)
        self.assertEqual(words.count("98,892"), 2)
        self.assertEqual(picture.texts("figure"), ["22,073", "98,892", "< 9", "< 9"] * 2)
        self.assertFalse([s for s in picture.root.iter() if "over" in (s.get("class") or "")])
        self.assertEqual([shape.get("fill") for shape in picture.root.iter()].count(OVER), 1)  # the legend's

    def test_what_was_checked_stands_on_the_page(self):
        picture = drawn(EXAMPLES / "pulled-back.toml", output=PULLED_BACK_ANSWER)
        text = "\n".join(picture.texts())
        for words in (
            "Worst use of a limit: 119.7% at the door end, level 3: corner tension 299,001 N of 250,000 N",
            "6 tiers of 40 feet, 82,480 kg, 15,546 mm high; rule 1 (class rule); route 0, Unrestricted: A_T x 1.00",
            "locks: higher strength, breaking load 500,000 N, safe working load 299,000 N; "
            "racking stiffness of each box: door end 3,730 N/mm, closed end 15,690 N/mm",
            "Warning: lash 2 (tier 6 top side, door end): its foot lies 4,000 mm to windward of the stack",
            "Not given and taken as: lash hook top; lash kind cross.",
        ):
            self.assertIn(words, text)
        checked = picture.texts("checked")
        tier = ["5", "2,591", "30,480", "sheltered", "0.800", "1.000", "1.000"]
        rod = ["3", "closed", "tier 4 top cross", "0", "4,000", "3,000", "5,000", "7,364", "500", "higher strength rod"]
        for row in (tier, [*rod, "130,000", "490,000"]):
            self.assertIn(row, [checked[i : i + len(row)] for i in range(len(checked))])

    def test_turned_boxes_are_marked(self):
        sheet = Sheet(HEAD, tuple(replace(BOX_B, wind=wind) for wind in (0, 1, 2, 3)), (), ())
        picture = drawn_sheet(sheet, quiet_answer(sheet))
        self.assertEqual(picture.texts("wind"), ["exposed"] * 4)
        self.assertEqual(picture.texts("turned"), ["turned"] * 4)
        tops = [top for _, top, _, _ in picture.boxes()]
        marked = [float(shape.get("y")) for shape in picture.named("turned")]
        for top, y in zip((tops[2], tops[3]) * 2, marked, strict=True):
            self.assertLess(top, y)
            self.assertLess(y, top + picture.boxes()[0][3])
        self.assertEqual([row for row in picture.texts("checked") if row.startswith(("1", "2", "3", "4")) and len(row) > 7],
                         ["3 turned", "4 turned"])

    def test_the_rule_is_named(self):
        for rule, words in ((1, "rule 1 (class rule); route 0"), (2, "rule 2 (fleet standard); route 0")):
            sheet = Sheet(replace(HEAD, rule=rule), (BOX_B,), (), ())
            text = " ".join(drawn_sheet(sheet, quiet_answer(sheet)).texts())
            self.assertIn(words, text)
            self.assertEqual("Rule 2 is the fleet standard, one operator's own book, and not the class rule" in text, rule == 2)

    def test_what_was_not_given_keeps_its_letters(self):
        sheet = describe((EXAMPLES / "three-high.toml").read_bytes()).sheet
        text = " ".join(drawn(EXAMPLES / "three-high.toml", output=quiet_answer(sheet)).texts())
        self.assertIn("Not given and taken as: rule 1; lock material higher strength; lock breaking_load 500,000 N;", text)
        self.assertIn("lash LX 0 mm;", text)

    def test_numbers_of_lashes_stay_off_the_words(self):
        """Long rods that cross the words of two boxes."""
        lashes = tuple(replace(ROD_S, tier=t, ly=2_200, lz=2_591 * t) for t in (1, 2, 3))
        sheet = Sheet(HEAD, (BOX_B,) * 3, lashes, lashes)
        picture = drawn_sheet(sheet, quiet_answer(sheet))
        badges = [(float(shape.get("x")), float(shape.get("y"))) for shape in picture.named("badge")]
        words = [(float(shape.get("x")), float(shape.get("y"))) for shape in picture.named("mass")]
        self.assertEqual((len(badges), len(words)), (6, 6))
        for x, y in badges:
            self.assertFalse([1 for left, row in words if -8 <= x - left <= 64 and abs(y - 4 - (row - 8)) < 14])

    def test_everything_is_there(self):
        picture = drawn(EXAMPLES / "pulled-back.toml", output=PULLED_BACK_ANSWER)
        masses = ["10,000 kg", "10,000 kg", "10,000 kg", "20,000 kg", "30,480 kg", "2,000 kg"]
        self.assertEqual(picture.texts("mass"), masses * 2)
        figures = picture.texts("figure") + picture.texts("figure near") + picture.texts("figure over")
        for racking, compression, tension, _ in (DOOR, CLOSED):
            for force in (*racking, *compression, *tension):
                self.assertIn(f"{abs(force):,}", figures)
        self.assertEqual(picture.texts().count("racking, windward"), 3)
        self.assertEqual(len(picture.ends("lash", 1, 2)), 4)
        self.assertEqual(sorted(picture.texts("badge")), ["1", "2", "3", "4"])

    def test_the_governing_share_is_shown(self):
        """Of lash 1 the athwart part, 9.4 %, not its tension, 4.8 %; of a level's tension the lower limit."""
        picture = drawn(EXAMPLES / "pulled-back.toml", output=PULLED_BACK_ANSWER)
        words = picture.texts()
        for number, part, force, share in (
            (1, "athwart", "14,100", "9.4%"),
            (3, "tension", "293,000", "100.0%"),
            (4, "vertical", "300,000", "100.0%"),
        ):
            place = words.index(f"lash {number} {part}")
            self.assertEqual(words[place + 1 : place + 3], [force, share])
            self.assertEqual(len([text for text in words if text.startswith(f"lash {number} ")]), 1)
        place = words.index("250,000")
        self.assertEqual(words[place - 1 : place + 2], ["tension", "250,000", "100.0%"])

    def test_what_exceeds_is_dark(self):
        picture = drawn(EXAMPLES / "pulled-back.toml", output=PULLED_BACK_ANSWER)
        self.assertIn("NOT ACCEPTED: 7 findings", picture.texts())
        over = picture.texts("figure over")
        # Racking, compression, both tensions, lash tension with its vertical and athwart part.
        due = ["155,949", "848,001", "250,001", "299,001", "293,001", "300,001", "150,001"]
        self.assertEqual(sorted(over), sorted(due))
        self.assertEqual([box.get("fill") for box in picture.named("box over")], [OVER])
        self.assertEqual([line.get("stroke") for line in picture.named("lash over")], [OVER])
        self.assertEqual({text.get("fill") for text in picture.named("figure over")}, {PAPER})
        self.assertEqual([shape.get("fill") for shape in picture.named("bar over")], [OVER] * 7)
        for name in ("box", "box near", "figure", "figure near", "lash", "lash near", "bar", "bar near"):
            for shape in picture.named(name):
                self.assertNotIn(OVER, (shape.get("fill"), shape.get("stroke")))

    def test_bars_show_the_share(self):
        picture = drawn(EXAMPLES / "pulled-back.toml", output=PULLED_BACK_ANSWER)
        grounds = [shape for shape in picture.root.iter() if (shape.get("class") or "").startswith("ground")]
        bars = [shape for shape in picture.root.iter() if (shape.get("class") or "").startswith("bar")]
        shares = [shape for shape in picture.root.iter() if (shape.get("class") or "").startswith("share")]
        self.assertEqual(len(grounds), len(bars))
        self.assertEqual(len(grounds), len(shares))
        for ground, bar, share in zip(grounds, bars, shares):
            part = float(bar.get("width")) / float(ground.get("width"))
            used = 0 if share.text == "-" else float(share.text.rstrip("%")) / 100
            self.assertAlmostEqual(part, min(used, 1), delta=0.002)

    def test_states_differ_in_grey(self):
        def grey(colour):
            red, green, blue = (int(colour[i : i + 2], 16) for i in (1, 3, 5))
            return 0.299 * red + 0.587 * green + 0.114 * blue

        for palette in (BARS, BOXES):
            tones = [grey(palette[state]) for state in STATES]
            self.assertGreater(tones[0] - tones[1], 25)
            self.assertGreater(tones[1] - tones[2], 25)
            self.assertLess(tones[2], 70)
        tones = [grey(LASHES[state][0]) for state in STATES]
        self.assertEqual(tones, sorted(tones, reverse=True))
        widths = [LASHES[state][1] for state in STATES]
        self.assertEqual(widths, sorted(set(widths)))

    def test_title_is_no_markup(self):
        text = (EXAMPLES / "box-b.toml").read_text().replace("Box B alone", "<b>&\\u0007 " + "long " * 40)
        with tempfile.TemporaryDirectory() as folder:
            path = Path(folder, "stack.toml")
            path.write_text(text)
            picture = drawn(path, output=B_ANSWER)
        title = next(picture.root.iter(f"{SVG}title")).text
        self.assertTrue(title.startswith("<b>&  long long"))
        self.assertLessEqual(max(len(words) for words in picture.texts()[:1]), 80)

    def test_crowded_stacks_stay_on_their_page(self):
        """Everything over its limits: long, steep and flat lashes; short ones high up; many on two tiers."""
        mixed = [(500, 20_000), (10_000, 500), (10_000, 20_000), (500, 500)] * 2
        far = [(t, h, k) for t, h in ((1, 0), (2, 0), (9, 1), (10, 0)) for k in (0, 1)]
        high = [(t, h, k) for t in (9, 10) for h in (0, 1) for k in (0, 1)]
        low = [(1, 0, 0), (1, 0, 1), (2, 0, 0), (2, 0, 1), (2, 1, 0), (2, 1, 1)]
        for count, places, sides in (
            (10, far, mixed),
            (10, high, [(500, 500)] * 8),
            (2, low, [(2000, 2600)] * 6),
            (1, low[:2], [(2000, 2600)] * 2),
        ):
            with self.subTest(places=places):
                self.assert_fits(self.overloaded(count, places, sides))

    def overloaded(self, count, places, sides):
        """The picture of a stack whose every figure exceeds its limit."""
        lashes = tuple(
            replace(ROD_S, tier=t, hook=h, kind=k, ly=ly, lz=lz) for (t, h, k), (ly, lz) in zip(places, sides)
        )
        sheet = Sheet(HEAD, (replace(BOX_B, height=2896),) * count, lashes, lashes)
        forces = ((90_000_000, 2_000_000, 80_000_000),) * len(lashes)
        posts = ((-2_000_000,) * count, (70_000_000,) * (count + 1), (70_000_000,) * count)
        indices = {**dict.fromkeys((1, 2), range(1, count + 1)), 3: range(count)}
        indices.update(dict.fromkeys((5, 6, 7), range(len(lashes))))
        findings = [(e, kind, i) for e in (0, 1) for kind, rows in indices.items() for i in rows]
        end = (*posts, forces)
        picture = drawn_sheet(sheet, answer_bytes(end, end, findings))
        self.assertIn(f"NOT ACCEPTED: {len(findings)} findings", picture.texts())
        return picture

    def assert_fits(self, picture):
        """All lies on the page, no label on the heading, the legend or another label."""
        width, height = (float(picture.root.get(name)) for name in ("width", "height"))
        for x, y in picture.points():
            self.assertTrue(0 <= x <= width and 0 <= y <= height, (x, y))
        grounds = [
            tuple(float(shape.get(name)) for name in ("x", "y", "width", "height"))
            for shape in picture.named("ground over")
        ]
        self.assertGreater(min(y for _, y, _, _ in grounds), 106)
        legend = next(text for text in picture.root.iter(f"{SVG}text") if text.text.startswith("over its"))
        self.assertLess(max(y + height for _, y, _, height in grounds), float(legend.get("y")) - 11)
        for index, (x, y, width, height) in enumerate(grounds):
            for other_x, other_y, other_width, other_height in grounds[:index]:
                apart = x + width <= other_x or other_x + other_width <= x
                apart = apart or y + height <= other_y or other_y + other_height <= y
                self.assertTrue(apart)

    def test_no_number_is_left_unrounded(self):
        picture = drawn(EXAMPLES / "pulled-back.toml", output=PULLED_BACK_ANSWER)
        for shape in picture.root.iter():
            for value in shape.attrib.values():
                self.assertIsNone(re.search(r"\d\.\d{3,}", value))


if __name__ == "__main__":
    unittest.main()
