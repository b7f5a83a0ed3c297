"""What docs/SHEET.md says of bytes, ranges, refusals and limits is what the code has; and packages use what they may."""

import ast
import re
import sys
import unittest
from struct import calcsize

from lashlib.calls import BayReply
from reference import arrangements, bay, preview, roll, side, twenties
from reference.bay_held import judge_bay
from reference.forecast import factor
from reference.judge import KEPT, MARGIN, expected, judge
from reference.roll_asked import USUAL
from sheets.answer import read_answer
from sheets.bay import LENGTH, MOST_ROWS, REPORT_ROOM, TOTALS, pack_bay, read_report
from sheets.gear import LIST_ROOM, read_list
from sheets.limits import (
    COMPRESSION_LIMIT, CORNER_LIMIT, LASH_ATHWART_LIMIT, LASH_VERTICAL_LIMIT, RACKING_LIMIT,
)
from sheets.sheet import (
    ANSWER_ROOM, HEAD, HEAD_LIMITS, LASH, LASH_LIMITS, MOST_LASHES, MOST_TIERS, TIER, TIER_LIMITS, Head, Lash, Tier,
)
from sheets.side import SIDE_LIMIT, SIDE_ROOM
from tests.support import ROOT

TEXT = (ROOT / "docs" / "SHEET.md").read_text()


def rows(title):
    """The cells of the table behind a heading that begins so."""
    section = TEXT.split(f"# {title}", 1)[1]
    lines = section[section.index("\n|") + 1 :].split("\n\n", 1)[0].splitlines()
    return [[cell.strip() for cell in line.strip("|").split("|")] for line in lines[2:]]


def hex_of(begin):
    """The bytes of an example's block, the words beside them left out."""
    block = TEXT.split(begin, 1)[1].split("\n\n", 2)[1]
    return bytes.fromhex("".join(re.match(r"    ((?:[0-9a-f]{2} )*[0-9a-f]{2})", line)[1] for line in block.splitlines()))


class SheetDocument(unittest.TestCase):
    def test_fields(self):
        for title, layout, kind, limits in (
            ("Head, 8 bytes", HEAD, Head, HEAD_LIMITS),
            ("Tier, 12 bytes", TIER, Tier, TIER_LIMITS),
            ("Lash, 20 bytes", LASH, Lash, LASH_LIMITS),
        ):
            place, found = 0, rows(title)
            names = list(kind.__dataclass_fields__)
            self.assertEqual(len(found), len(names))
            for (offset, size, _, values), code, name in zip(found, layout.format.strip("<"), names):
                with self.subTest(title, field=name):
                    self.assertEqual((int(offset), int(size)), (place, calcsize(f"<{code}")))
                    place += int(size)
                    if name in limits:
                        least, most = limits[name]
                        self.assertEqual(values, f"{least:,} to {most:,}")
            self.assertEqual(place, layout.size)

    def test_sizes(self):
        longest = HEAD.size + 3 + MOST_TIERS * TIER.size + 2 * MOST_LASHES * LASH.size
        self.assertIn(f"{longest} for ten tiers with eight lashes an end", TEXT)
        header = (ROOT / "include" / "lash_check.h").read_text()
        self.assertIn(f"#define LASH_SHEET_SIZE {longest}\n", header)
        self.assertIn(f"#define LASH_ANSWER_SIZE {ANSWER_ROOM}\n", header)
        self.assertIn(f"less than {KEPT} N above it", TEXT)

    def test_refusals_are_the_headers(self):
        header = (ROOT / "include" / "lash_check.h").read_text()
        for title, name, numbers in (
            ("Refusals", "lash_number", list(range(1, 14))),
            ("Refused by a preview alone", "lash_preview_number", [17]),
            ("Refused by a forecast alone", "lash_forecast_number", [20, 21]),
            ("Refused by the call for side walls alone", "lash_side_number", [14, 15]),
            ("Refused by a bay alone", "lash_bay_number", [16]),
            ("Refused by the call for arrangements alone", "lash_arrangements_number", [24]),
            ("Numbers of its refusals", "lash_twenties_number", [22, 23]),
            ("Numbers of the refusals of roll", "lash_roll_number", [18, 19]),
        ):
            enum = header.split(f"enum {name}")[1].split("};")[0]
            listed = re.findall(r"LASH_\w+ = (\d+),? +/\* ([^:*]+): (.*?) \*/", enum)
            self.assertEqual([int(number) for number, *_ in listed], numbers)
            self.assertEqual([tuple(row) for row in rows(title)], listed)

    def test_preview(self):
        """The three that it tells of the example's sheet."""
        sheet = hex_of("23 bytes:")
        self.assertEqual(preview.with_mass(sheet, 1, 20_000), sheet)
        self.assertEqual([preview.expected(sheet, *move).refusal for move in ((2, 0), (1, 0))], [(17, 2), (7, 9)])

    def test_forecast(self):
        self.assertIn(f"Breadth 2,500 and wave height 300 give {factor(300, 2_500)}.", TEXT)

    def test_side(self):
        due = side.expected(hex_of("23 bytes:"), bytes.fromhex("01 f4 01"))
        self.assertEqual(hex_of("gives ten bytes:"), due.data)
        header = (ROOT / "include" / "lash_check.h").read_text()
        self.assertIn(f"#define LASH_SIDE_SIZE {SIDE_ROOM}\n", header)
        self.assertIn(f"#define LASH_SIDE_LIMIT {SIDE_LIMIT}\n", header)
        self.assertIn(f"The side buffer must hold {SIDE_ROOM} bytes", TEXT)
        self.assertIn(f"no racking exceeds {SIDE_LIMIT:,} N", TEXT)

    def test_bay(self):
        """The example's bay and report, and what it says of the sizes."""
        data, report = hex_of("28 bytes of a bay:"), hex_of("Its report, 55 bytes:")
        self.assertEqual((len(data), len(report)), (28, 55))
        self.assertEqual(data, pack_bay([hex_of("23 bytes:"), b""]))
        self.assertEqual(judge_bay(bay.expected(data), BayReply(55 << 8, report)).faults, [])
        self.assertEqual(read_report(report, 2).racking, 30_602)
        longest = 1 + MOST_ROWS * (LENGTH.size + HEAD.size + 3 + MOST_TIERS * TIER.size + 2 * MOST_LASHES * LASH.size)
        self.assertIn(f"{longest:,} for {MOST_ROWS} of the longest stack sheets", TEXT)
        self.assertIn(f"of {TOTALS.size + LENGTH.size} to {REPORT_ROOM:,} bytes", TEXT)
        header = (ROOT / "include" / "lash_check.h").read_text()
        for name, size in (("BAY_SIZE", longest), ("REPORT_SIZE", REPORT_ROOM), ("MOST_ROWS", MOST_ROWS)):
            self.assertIn(f"#define LASH_{name} {size}\n", header)

    def test_arrangements(self):
        """The example's stack, gear and list, the order of 4 lashes, and what it says of the sizes."""
        sheet, gear, listed = (hex_of(begin) for begin in ("47 bytes of a stack sheet:", "41 bytes of gear:", "Its list, 5 bytes"))
        self.assertEqual((len(sheet), len(gear), len(listed)), (47, 41, 5))
        due = arrangements.expected(sheet, gear)
        self.assertEqual([right for _, right in arrangements.by_fractions(due, MARGIN)], [False, True, True, True])
        self.assertEqual(read_list(listed), (1, 2, 3))
        self.assertIn(f"in order, {', '.join(map(str, arrangements.choices(4)))};", TEXT)
        self.assertIn(f"The list buffer must hold {LIST_ROOM} bytes", TEXT)
        header = (ROOT / "include" / "lash_check.h").read_text()
        for name, size in (("LIST_SIZE", LIST_ROOM), ("GEAR_SIZE", 1 + MOST_LASHES * LASH.size)):
            self.assertIn(f"#define LASH_{name} {size}\n", header)

    def test_twenties(self):
        said = twenties.packed(twenties.judge(0, 412, (24_000, 22_000, 20_000, 18_000)))
        self.assertIn(f"`{said:#018x}`, which is yes, 60,000 kg of 74,700 kg", TEXT)

    def test_roll(self):
        said = roll.packed(roll.accelerations(USUAL))
        self.assertIn(f"`{said:#018x}`, which is A_T 574, A_Vmax 1,177 and A_Vmin 1,000", TEXT)

    def test_limits(self):
        kinds = re.findall(r"^\| (\d) \| [^|]* \| [^|]* \| ([^|]*) \|$", TEXT.split("## Answer sheet")[1], re.M)
        due = (RACKING_LIMIT, COMPRESSION_LIMIT, CORNER_LIMIT, None, None, LASH_VERTICAL_LIMIT, LASH_ATHWART_LIMIT)
        self.assertEqual([int(kind) for kind, _ in kinds], list(range(1, 8)))
        for (_, limit), number in zip(kinds, due):
            self.assertEqual(limit, f"{number:,}" if number else limit)
            self.assertEqual("safe working load" in limit, number is None)

    def test_example(self):
        sheet, answer = hex_of("23 bytes:"), hex_of("Its answer, 42 bytes")
        self.assertEqual((len(sheet), len(answer)), (23, 42))
        self.assertEqual(judge(expected(sheet), answer).faults, [])
        self.assertEqual(read_answer(answer).ends[0].compression, (98_895, 4))


# What each package may use of the others. The second program knows neither the library nor the tool.
ALLOWED = {
    "sheets": {"sheets"},
    "reference": {"reference", "sheets"},
    "lashlib": {"lashlib", "sheets"},
    "lashtool": {"lashtool", "lashlib", "sheets"},
}


class Packages(unittest.TestCase):
    def test_imports(self):
        for package, allowed in ALLOWED.items():
            for path in sorted((ROOT / package).glob("*.py")):
                for node in ast.walk(ast.parse(path.read_text())):
                    names = [alias.name for alias in node.names] if isinstance(node, ast.Import) else []
                    names += [node.module] if isinstance(node, ast.ImportFrom) else []
                    for name in names:
                        top = name.split(".")[0]
                        self.assertTrue(top in allowed or top in sys.stdlib_module_names, f"{path}: {name}")


if __name__ == "__main__":
    unittest.main()
