"""The printout, from answers written by hand."""

import io
import re
import unittest
from dataclasses import replace

from lashtool import colour
from lashtool.figures import KEPT, Figure, result
from lashtool.report import table
from reference import judge
from reference.cases import BOX_B, HEAD, ROD_S
from sheets.answer import read_answer
from sheets.sheet import Sheet
from tests.support import B_ANSWER, EXAMPLES, PULLED_BACK_ANSWER, answer_bytes, lash

B_TOP = """\
Box B alone
ACCEPTED
worst use of a limit: |==        | 14.8% at the door end, tier 1: racking to leeward 22,073 N of 150,000 N

CHECKED
  1 tier of 40 feet, 20,000 kg, 2,591 mm high
  rule 1 (class rule); route 0, Unrestricted: A_T x 1.00
  locks: higher strength, breaking load 500,000 N, safe working load 299,000 N
  racking stiffness of each box: door end 3,730 N/mm, closed end 15,690 N/mm

  tier  height, mm  mass, kg  wind       A_T, g  A_Vmax, g  A_Vmin, g
  1          2,591    20,000  sheltered   0.500      1.500      0.800

  no lashes

"""
B_END = """\
  tier   racking, N   used
  limit     150,000
  1          22,073  14.8%    |==        |

  level  compr., N  used    tension, N  of corner    of lock
  limit    848,000                        250,000    299,000
  0         98,892     -           < 9       0.1%       0.1%    |=         |
  1            < 9  0.1%                                        |=         |

  no lashes

"""

# With findings and warnings: what decides stands first, the findings by kind, lashes by the description's count.
PULLED_BACK_TOP = """\
A light top box pulled back to windward
NOT ACCEPTED: 7 findings
worst use of a limit: |!!!!!!!!!!| 119.7% at the door end, level 3: corner tension 299,001 N of 250,000 N

FINDINGS
  racking
    door end, tier 6: 155,949 N to windward, 104.0% of 150,000 N
  compression
    door end, level 2: 848,001 N, 100.1% of 848,000 N
  corner tension
    door end, level 1: 250,001 N, 100.1% of 250,000 N
    door end, level 3: 299,001 N, 119.7% of 250,000 N
  lash tension
    door end, lash 2 (tier 6 top side): 293,001 N, 100.1% of 293,000 N
  lash vertical part
    door end, lash 2 (tier 6 top side): 300,001 N, 100.1% of 300,000 N
  lash athwart part
    door end, lash 2 (tier 6 top side): 150,001 N, 100.1% of 150,000 N

WARNINGS
  lash 2 (tier 6 top side, door end): its foot lies 4,000 mm to windward of the stack (LY 4,000 mm), beyond
    the next stack and, for a stack at the ship's side, beyond the ship

CHECKED
"""

LINES = (
    "  not given and taken as: lash hook top; lash kind cross",
    "  5          2,591    30,480  sheltered   0.800      1.000      1.000",
    "  2     door    tier 6 top side    0  4,000  3,000   5,000   12,546   300  higher strength rod  130,000    490,000",
    "  4     closed  tier 5 top cross   0  4,000  3,000   5,000    9,955   500  higher strength rod  130,000    490,000",
    "  4          11,004    7.4%    |=         | to windward",
    "  6         155,949  104.0% !  |!!!!!!!!!!| to windward",
    "  0        900,000       -        13,000       5.2%       4.4%    |=         |",
    "  1         12,001    1.5%       250,001     100.1% !    83.7%    |!!!!!!!!!!|",
    "  2        848,001  100.1% !      13,002       5.3%       4.4%    |!!!!!!!!!!|",
    "  3         12,003    1.5%       299,001     119.7% !   100.1% !  |!!!!!!!!!!|",
    "  6         12,006    1.5%                                        |=         |",
    "  1      tier 6 top cross      14,000    293,000    4.8%         14,200    4.8%        14,100    9.4%    |=         |",
    "  2      tier 6 top side      293,001    293,000  100.1% !      300,001  100.1% !     150,001  100.1% !  |!!!!!!!!!!|",
    "  6         150,000  100.0%    |##########|",
    "  2        848,000  100.0%        23,002       9.3%       7.7%    |##########|",
    "  3      tier 4 top cross     293,000    293,000  100.0%         24,200    8.1%        24,100   16.1%    |##########|",
    "  4      tier 5 top cross      24,001    293,000    8.2%        300,000  100.0%       150,000  100.0%    |##########|",
)


def figure(force, limit, over=False, kind=1):
    return Figure(0, kind, 1, force, limit, over)


class Table(unittest.TestCase):
    def test_accepted(self):
        status, text, errors = lash(EXAMPLES / "box-b.toml", output=B_ANSWER)
        self.assertEqual((status, errors), (0, ""))
        self.assertTrue(text.startswith(f"{B_TOP}DOOR END\n{B_END}CLOSED END\n{B_END}NOTES\n"), text)
        self.assertTrue(text.endswith("\n\nACCEPTED\n"))
        self.assertIn("  < 9: every figure is proved to be at least the exact force", text)

    def test_not_accepted(self):
        status, text, errors = lash(EXAMPLES / "pulled-back.toml", output=PULLED_BACK_ANSWER)
        self.assertEqual(status, 1)
        self.assertTrue(text.startswith(PULLED_BACK_TOP), text)
        for line in LINES:
            self.assertIn(line, text.splitlines())
        self.assertTrue(text.endswith("\n\nNOT ACCEPTED: 7 findings\n"))
        self.assertNotIn("< 9", text)

    def test_which_lashes_count_in_a_tension(self):
        """Said where there are lashes."""
        for example, answer, said in (("box-b", B_ANSWER, False), ("pulled-back", PULLED_BACK_ANSWER, True)):
            _, text, _ = lash(EXAMPLES / f"{example}.toml", output=answer)
            self.assertEqual("\n  tension: the lashes above the level count, and at it those on bottom corners;" in text, said)

    def test_one_line_for_one_pull(self):
        """At level 3 of the door end 299,001 N are over both limits: one finding, both limits in the table, and a note."""
        _, text, _ = lash(EXAMPLES / "pulled-back.toml", output=PULLED_BACK_ANSWER)
        self.assertEqual(text.count("door end, level 3: 299,001 N"), 1)
        self.assertIn("119.7% !   100.1% !", text)
        note = "Corner and lock tension are one pull against two limits"
        self.assertIn(note, text)
        self.assertNotIn(note, lash(EXAMPLES / "box-b.toml", output=B_ANSWER)[1])

    def test_turned_boxes_are_marked(self):
        end = ((1_000, 1_000), (1_000,) * 3, (1_000, 1_000), ())
        for winds, tiers, other_way in (((3, 0), ["1 turned", "2"], True), ((1, 2), ["1", "2 turned"], True), ((0, 1), ["1", "2"], False)):
            sheet = Sheet(HEAD, tuple(replace(BOX_B, wind=wind) for wind in winds), (), ())
            text = table(result("", sheet, read_answer(answer_bytes(end, end)), []))
            rows = [line.split("  ")[1:] for line in text.splitlines() if " 2,591 " in line]
            self.assertEqual([row[0] for row in rows], tiers)
            self.assertEqual(["exposed" in row for row in rows], [wind % 2 == 1 for wind in winds])
            self.assertEqual("the other way round where a box stands turned" in " ".join(text.split()), other_way)

    def test_the_rule_is_named(self):
        """By the fleet standard a note says what it takes otherwise; by the class rule there is none."""
        end = ((1_000,), (1_000,) * 2, (1_000,), ())
        for rule, words, noted in ((1, "class rule", False), (2, "fleet standard", True)):
            sheet = Sheet(replace(HEAD, rule=rule, route=7), (BOX_B,), (), ())
            text = table(result("", sheet, read_answer(answer_bytes(end, end)), []))
            self.assertIn(f"\n  rule {rule} ({words}); route 7, South America (East Coast) - Africa: A_T x 0.73\n", text)
            notes = " ".join(text.split("NOTES\n")[1].split())
            self.assertEqual("fleet standard" in notes, noted)
            self.assertEqual("a box's centre lies at half its height" in notes, noted)

    def test_a_lash_at_both_ends_is_listed_once_and_keeps_its_number(self):
        """Lashes 2 and 3 of this description change places in the sheet."""
        posts = ((1_000,) * 8, (1_000,) * 9, (1_000,) * 8)
        end = (*posts, tuple((n, n, n) for n in (100_001, 100_003, 100_002, 100_004)))
        status, text, _ = lash(EXAMPLES / "eight-high.toml", output=answer_bytes(end, end))
        self.assertEqual(status, 0)
        listed = [line.split()[:6] for line in text.splitlines() if " both " in line]
        hooked = ["tier 3 top cross", "tier 4 bottom cross", "tier 4 top cross", "tier 5 bottom cross"]
        self.assertEqual(listed, [[str(n), "both", *place.split()] for n, place in enumerate(hooked, 1)])
        for number, place in enumerate(hooked, 1):
            row = rf"(?m)^  {number} +{place} +{100_000 + number:,} "
            self.assertEqual(len(re.findall(row, text)), 2, text)

    def test_a_sheet_has_no_description_to_count_by(self):
        door = (ROD_S, replace(ROD_S, kind=1))
        sheet = Sheet(HEAD, (BOX_B,), door, (replace(ROD_S, kind=1),))
        lists = [((1,), (1, 1), (1,), ((9, 9, 9),) * count) for count in (2, 1)]
        text = table(result("", sheet, read_answer(answer_bytes(*lists)), []))
        rows = [line.split()[:3] for line in text.splitlines() if " higher strength rod " in line]
        self.assertEqual(rows, [["1", "door", "tier"], ["1", "closed", "tier"], ["2", "door", "tier"]])

    def test_lines_fit_a_page(self):
        for name, output in (("box-b", B_ANSWER), ("pulled-back", PULLED_BACK_ANSWER)):
            text = lash(EXAMPLES / f"{name}.toml", output=output)[1]
            self.assertLessEqual(max(map(len, text.splitlines())), 122)


class Figures(unittest.TestCase):
    def test_the_share_never_hides_an_excess(self):
        for force, limit, used, share in (
            (0, 150_000, 0, "0.0%"),
            (-149_999, 150_000, 100.0, "100.0%"),
            (150_000, 150_000, 100.0, "100.0%"),
            (150_001, 150_000, 100.1, "100.1%"),
            (74_999, 150_000, 50.0, "50.0%"),
            (1_500_001, 150_000, 1000.1, "1,000.1%"),
            (5, None, None, "-"),
            (0, 0, 0.0, "0.0%"),
        ):
            shown = figure(force, limit)
            self.assertEqual((shown.used, shown.used_text), (used, share))
        self.assertEqual(figure(5, 0, True).used_text, "no limit left")

    def test_a_figure_that_may_stand_for_no_force(self):
        """The pad is less than the 9 N that compare holds figures to; what exceeds its limit is shown as it is."""
        self.assertEqual(KEPT, judge.KEPT)
        for force, over, text in ((0, False, "0"), (4, False, "< 9"), (-8, False, "< 9"), (9, False, "9"), (4, True, "4")):
            self.assertEqual(figure(force, 0 if over else 150_000, over).force_text, text)

    def test_the_worst_use(self):
        """By share, not by force; a limit of 0 that is exceeded is worst, a force without a limit never."""
        weak = replace(ROD_S, breaking=1, material=2)
        for lashes, forces, due in (
            ((), (), (0, 3, 0)),
            ((ROD_S,), ((150_000, 149_999, 50_000),), (0, 7, 0)),
            ((weak,), ((1, 1, 1),), (0, 5, 0)),
        ):
            end = ((50_000,), (800_000, 300_000), (125_000,))
            found = [(e, 5, 0) for e in (0, 1)] if lashes == (weak,) else []
            answer = answer_bytes((*end, forces), (*end, forces), found)
            outcome = result("", Sheet(HEAD, (BOX_B,), lashes, lashes), read_answer(answer), [])
            worst = outcome.worst()
            self.assertEqual((worst.end, worst.kind, worst.index), due)
        self.assertIn("worst use of a limit: |!!!!!!!!!!| no limit left at the door end, lash 1", table(outcome))
        self.assertIn("    door end, lash 1 (tier 1 top cross): 1 N, nothing is allowed", table(outcome))

    def test_bars(self):
        for force, over, text in (
            (0, False, "|          |"),
            (1, False, "|=         |"),
            (-75_000, False, "|=====     |"),
            (119_999, False, "|========  |"),
            (120_000, False, "|########  |"),
            (150_000, False, "|##########|"),
            (150_001, True, "|!!!!!!!!!!|"),
        ):
            self.assertEqual(colour.bar(figure(force, 150_000, over)), text)


class Terminal(io.StringIO):
    def isatty(self):
        return True


class Colours(unittest.TestCase):
    def test_on_a_terminal_only(self):
        self.assertTrue(colour.wanted(Terminal(), {"TERM": "xterm"}))
        self.assertTrue(colour.wanted(Terminal(), {"NO_COLOR": ""}))
        for stream, environment in (
            (io.StringIO(), {}),
            (Terminal(), {"NO_COLOR": "1"}),
            (Terminal(), {"TERM": "dumb"}),
            (None, {}),
        ):
            self.assertFalse(colour.wanted(stream, environment))
        closed = Terminal()
        closed.close()
        closed.isatty = io.StringIO.isatty.__get__(closed)
        self.assertFalse(colour.wanted(closed, {}))

    def test_colours_change_no_letter(self):
        sheet = Sheet(HEAD, (BOX_B,), (), ())
        end = ((150_001,), (1, 700_000), (1,))
        outcome = result("", sheet, read_answer(answer_bytes(end, end, [(0, 1, 1), (1, 1, 1)])), [])
        coloured = table(outcome, True)
        for code in ("\x1b[1;31m", "\x1b[1;33m", "\x1b[36m"):
            self.assertIn(code, coloured)
            coloured = coloured.replace(code, "")
        self.assertEqual(coloured.replace("\x1b[0m", ""), table(outcome))


if __name__ == "__main__":
    unittest.main()
