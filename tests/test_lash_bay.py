"""./lash bay: the table by row, the wind beside what was described, messages that name row and field, the picture, the library."""

import json
import subprocess
import tempfile
import unittest
from pathlib import Path
from xml.etree import ElementTree

from lashlib.calls import BayReply
from lashtool import exposure
from lashtool.bay_report import tiers_words
from reference import bay as second_program
from reference.bay_asked import drawn, edges
from sheets.bay import REPORT_ROOM, TOTALS, BayRefused, pack_bay, rows_of
from sheets.sheet import pack
from tests.support import B_ANSWER, EXAMPLES, ROOT, lash, library_of
from tests.test_bay import CHECK, Bay
from tests.test_svg import Picture

OPEN, CLOSED = EXAMPLES / "bays" / "open-gap.toml", EXAMPLES / "bays" / "closed-gap.toml"
BOX = "[row.box]\nA_T = 500\nA_Vmax = 1500\nA_Vmin = 800\n[[row.tier]]\nmass = 20_000\n"


def bay(*words, call=None, check=CHECK, **more):
    """./lash bay with stand-ins for the calls."""
    right = Bay()
    return lash("bay", *words, output=check, bay=call or (lambda data: right(data, REPORT_ROOM)), **more)


def told(text, *words, **more):
    """The same of a description that is given on standard input."""
    return bay("-", *words, stdin=text.encode(), **more)


class Wind(unittest.TestCase):
    def test_the_tools_wind_is_the_second_programs(self):
        for each in [*edges(), *map(drawn, range(200))]:
            try:
                rows = second_program.sheets_of(each.data)
            except BayRefused:
                continue
            found = exposure.in_the_wind(rows)
            self.assertEqual([row and row[0] for row in found], second_program.in_the_wind(rows))

    def test_sides(self):
        text = f"[[row]]\n{BOX}[[row]]\nempty = true\n[[row]]\n{BOX}[[row.tier]]\nmass = 1\n"
        rows = json.loads(told(text, "--json")[1])["rows"]
        self.assertEqual(rows[0]["open_sides"], [["port"]])
        self.assertEqual(rows[1], {"row": 2, "loaded": False})
        self.assertEqual(rows[2]["open_sides"], [["starboard"], ["port", "starboard"]])

    def test_tiers_in_words(self):
        for numbers, words in (([], ""), ([1], "1"), ([1, 2, 3], "1 to 3"), ([1, 3, 4, 8], "1, 3 to 4, 8")):
            self.assertEqual(tiers_words(numbers), words)


class Reports(unittest.TestCase):
    def test_not_accepted(self):
        status, text, errors = bay(OPEN)
        self.assertEqual((status, errors), (1, ""))
        lines = text.splitlines()
        self.assertEqual(lines[:2], ["Eight stacks in thirteen rows, a gap of three", "NOT ACCEPTED: 2 of 8 loaded rows, 6 findings"])
        self.assertEqual(lines[-1], lines[1])
        totals = r"\ngreatest racking 115,6\d\d N to leeward of 150,000 N \(row 5, closed end, tier 1\); "
        self.assertRegex(text, totals + "total mass 563,900 kg; accepted 6 of 8\n")
        rows = [line.split() for line in lines if line[:4].strip().isdigit()]
        self.assertEqual([row[0] for row in rows], [str(number) for number in range(1, 14)])
        self.assertEqual([row[0] for row in rows if row[1] == "empty"], ["3", "4", "6", "7", "8"])
        stack = r"\n  5 +\.\./eight-high\.toml +8 x 40 ft +20,728 +103,500  "
        self.assertRegex(text, stack + r"1 to 8 +NOT ACCEPTED  115\.0% !  \|!{10}\|  corner tension, ")
        self.assertRegex(text, r"\n  11 +\.\./route\.toml +6 x 20 ft +14,628 +72,000  none +accepted ")
        self.assertRegex(text, r"\n  13 +Two empty boxes +2 x 40 ft ")

    def test_findings_by_row(self):
        text = bay(OPEN)[1]
        found = text.split("\nFINDINGS\n")[1].split("\n\n")[0].splitlines()
        self.assertEqual([line for line in found if line[3:4] != " "], ["  row 5 (../eight-high.toml)", "  row 9 (../eight-high.toml)"])
        self.assertEqual(len(found), 8)
        self.assertRegex(found[3], r"^    corner tension, closed end, level 0: 287,\d{3} N, 115\.0% of 250,000 N$")

    def test_accepted(self):
        status, text, _ = bay(CLOSED)
        self.assertEqual((status, text.splitlines()[1]), (0, "ACCEPTED: 8 loaded rows"))
        self.assertNotIn("FINDINGS", text)

    def test_wind_that_differs_is_told(self):
        """Of tiers whose description gives it; not where it was left out."""
        text = " ".join(bay(OPEN)[1].split())
        for words in (
            "row 5 (../eight-high.toml): described as sheltered, exposed in this bay, which counts: tiers 1 to 6",
            "row 11 (../route.toml): described as exposed, sheltered in this bay, which counts: tiers 5 to 6",
            "row 12 (../bottom-hook.toml): described as sheltered, exposed in this bay, which counts: tier 1",
        ):
            self.assertIn(words, text)
        self.assertNotIn("row 2 (../eight-high.toml): described", text)
        three = f"[[row]]\n{BOX}" * 3
        self.assertNotIn("\nWIND\n", told(three)[1])
        self.assertIn("row 2: described as exposed, sheltered in this bay", told(three.replace("A_T", 'wind = "exposed"\nA_T'))[1])

    def test_an_empty_bay(self):
        status, text, _ = told("[[row]]\nempty = true\n" * 24)
        self.assertEqual((status, text.splitlines()[0]), (0, "ACCEPTED: no row is loaded"))
        self.assertIn("\n  24   empty\n", text)
        data = json.loads(told("[[row]]\nempty = true\n", "--json")[1])
        self.assertEqual((data["accepted"], data["rows_loaded"], data["mass"], data["greatest_racking"]), (True, 0, 0, 0))

    def test_rules_are_named(self):
        self.assertNotIn("By rule 2", told(f"[[row]]\n{BOX}")[1])
        self.assertIn("By rule 2: row 2. Rule 2 is the fleet", " ".join(told(f"[[row]]\n{BOX}[[row]]\nrule = 2\n{BOX}")[1].split()))

    def test_one_row_in_full(self):
        status, text, _ = bay(OPEN, "--row", "11")
        self.assertEqual(status, 1)
        self.assertIn("\nCHECKED\n  6 tiers of 20 feet, 72,000 kg, 14,628 mm high\n", text)
        self.assertNotIn("exposed", text)
        for number in ("0", "3", "14", "x", "", "-1", "99999999999999999999"):
            status, text, errors = bay(OPEN, f"--row={number}")
            self.assertEqual((status, text), (2, ""))
            self.assertIn(f"--row is '{number}'; it has to be a loaded row: 1, 2, 5, 9, 10, 11, 12, 13", errors)
        self.assertIn("there is none", told("[[row]]\nempty = true\n", "--row", "1")[2])

    def test_warnings_name_the_row(self):
        _, text, errors = told(f'[[row]]\nstack = "{EXAMPLES / "pulled-back.toml"}"\n')
        self.assertIn("warning: lash 2 (tier 6 top side, door end): its foot lies 4,000 mm to windward", errors)
        self.assertIn("standard input: row 1 (", errors)
        self.assertIn("\nWARNINGS\n  row 1 (", text)

    def test_colours(self):
        self.assertNotIn("\x1b", bay(OPEN)[1])


class Data(unittest.TestCase):
    def test_json(self):
        status, text, _ = bay(OPEN, "--json")
        data = json.loads(text)
        self.assertEqual((status, data["status"], data["source"], data["accepted"]), (1, 1, str(OPEN), False))
        self.assertEqual((data["rows_loaded"], data["rows_accepted"], data["mass"]), (8, 6, 563_900))
        self.assertEqual((data["worst_use"]["row"], data["worst_use"]["name"]), (5, "corner tension"))
        rows = data["rows"]
        self.assertEqual([row["row"] for row in rows], list(range(1, 14)))
        self.assertEqual([row["row"] for row in rows if not row["loaded"]], [3, 4, 6, 7, 8])
        self.assertEqual((rows[10]["file"], rows[10]["exposed_tiers"]), ("../route.toml", []))
        self.assertEqual(rows[10]["wind_differs"], [{"described": "exposed", "tiers": [5, 6]}])
        self.assertEqual([tier["wind"] for tier in rows[1]["stack"]["tiers"]], ["sheltered"] * 6 + ["exposed"] * 2)
        self.assertEqual(len(rows[4]["findings"]), 3)
        rackings = [abs(figure["force"]) for row in rows if row["loaded"] for end in row["ends"] for figure in end["racking"]]
        self.assertEqual(data["greatest_racking"], max(rackings))
        self.assertFalse(any(words.startswith("box wind") for words in rows[12]["assumed"]))


class BadBays(unittest.TestCase):
    def test_messages(self):
        good = f"[[row]]\n{BOX}"
        for text, words in (
            ("", "row: a bay has 1 to 24 of [[row]], not 0"),
            ("[[row]]\nempty = true\n" * 25, "row: a bay has 1 to 24 of [[row]], not 25"),
            ("row = 1", "row: has to be written as [[row]]"),
            ("[row]\nempty = true", "row: has to be written as [[row]]"),
            ("row = [1]", "row: has to be written as [[row]]"),
            ("rows = 1", 'the bay: unknown field "rows"; did you mean "row"?'),
            (f"title = 1\n{good}", "title: has to be text"),
            ("[[row]", "this is no TOML"),
            ("[[row]]\n", 'row 1: nothing is given; it has to be stack = "FILE", empty = true, or a stack of its own from [[row.tier]]'),
            (f"{good}[[row]]\nempty = false", "row 2: empty is False; it has to be true"),
            (f"{good}[[row]]\nempty = 1", "row 2: empty is 1; it has to be true"),
            ("[[row]]\nempty = true\ntitle = 'x'", 'row 1: beside empty nothing else can be given, as "title"'),
            (f"{good}[[row]]\nstack = 3", "row 2: stack is 3; it has to be the name of a stack's file"),
            (f"{good}[[row]]\nstack = ''", 'row 2: stack is ""; it has to be'),
            (f"{good}[[row]]\nstack = 'a'\nempty = true", 'row 2: beside stack nothing else can be given, as "empty"'),
            (f"{good}[[row]]\nstack = 'none.toml'", "row 2, none.toml: cannot be read: No such file or directory"),
            (f"{good}[[row]]\nstak = 'a'", 'row 2: unknown field "stak"; did you mean "stack"?'),
            (good.replace("20_000", "30_481"), "row 1: tier 1: mass 30481 is outside 1 to 30,480 kg"),
            (f"{good}[[row]]\n{BOX}masss = 3\n", 'row 2: tier 1: unknown field "masss"; did you mean "mass"?'),
            (f"{good}[[row]]\nroute = 13\n{BOX}", "row 2: the stack: route 13 is outside 0 to 12"),
            (f"{good}[[row]]\nroute = 1\n", "row 2: tier: a stack has 1 to 10 of [[tier]], not 0"),
        ):
            with self.subTest(words):
                status, out, errors = told(text)
                self.assertEqual((status, out), (2, ""))
                self.assertTrue(errors.startswith(f"lash: standard input: {words}"), errors)

    def test_a_fault_in_a_stacks_file(self):
        with tempfile.TemporaryDirectory() as folder:
            Path(folder, "bay.toml").write_text('[[row]]\nstack = "deep/stack.toml"\n')
            Path(folder, "deep").mkdir()
            Path(folder, "deep", "stack.toml").write_text("[[tier]]\nmass = 0\n")
            status, out, errors = bay(Path(folder, "bay.toml"))
            self.assertEqual((status, out), (2, ""))
            self.assertIn("bay.toml: row 1, deep/stack.toml: tier 1: mass 0 is outside 1 to 30,480 kg", errors)
            Path(folder, "deep", "stack.toml").write_bytes(bytes(65_537))
            self.assertIn("has more than 65,536 bytes; no stack needs as many", bay(Path(folder, "bay.toml"))[2])
            Path(folder, "bay.toml").write_bytes(b"#" * 1_638_401)
            self.assertIn("has more than 1,638,400 bytes; no bay needs as many", bay(Path(folder, "bay.toml"))[2])
        self.assertIn("none: cannot be read", bay(Path(folder, "none"))[2])

    def test_json(self):
        data = json.loads(told("[[row]]\n", "--json")[1])
        self.assertEqual((data["status"], data["source"]), (2, "standard input"))
        self.assertTrue(data["error"].startswith("row 1: nothing is given"))

    def test_words_that_do_not_go_together(self):
        for words, message in (
            ((), "a bay is needed"), ((OPEN, "--sheet", "x"), "either a description"), ((OPEN, "--svg", ""), "need a file's name"),
            ((OPEN, "--svg", "-", "--json"), "standard output can be written only once"),
            ((OPEN, "--svg", "-", "--write", "-"), "standard output can be written only once"),
            ((OPEN, "--row", "1", "--json"), "--row is for the printed report"), ((OPEN, "--write", OPEN), "would be written over"),
        ):
            status, out, errors = bay(*words)
            self.assertEqual((status, out), (2, ""))
            self.assertIn(message, errors)


class Sheets(unittest.TestCase):
    """Bytes of a bay sheet in and out."""

    def sheet(self, data, *words, **more):
        with tempfile.TemporaryDirectory() as folder:
            path = Path(folder, "bay")
            path.write_bytes(data)
            return bay("--sheet", path, *words, **more)

    def test_written_and_read(self):
        status, data, _ = bay(OPEN, "--write", "-", binary=True)
        self.assertEqual((status, data[0]), (1, 13))
        status, text, _ = self.sheet(data)
        self.assertEqual((status, text.splitlines()[0]), (1, "NOT ACCEPTED: 2 of 8 loaded rows, 6 findings"))
        self.assertNotIn("\nWIND\n", text)

    def test_refusals_in_words(self):
        stack = pack(second_program.sheets_of(bay(OPEN, "--write", "-", binary=True)[1])[0])
        no_bay = "the bytes are no bay; they have to be a count of 1 to 24 rows, then each row's sheet after its length, and nothing more"
        for data, words in (
            (b"", f"refused with 16 0: {no_bay}"),
            (pack_bay([stack]) + b"\0", f"refused with 16 0: {no_bay}"),
            (pack_bay([stack, b"", stack[:1] + b"\x0d" + stack[2:]]), "refused with 4 1: row 3: the head: route 13 is outside 0 to 12"),
            (pack_bay([b"\1"]), "refused with 1 1: row 1: the sheet has 1 bytes, too few for the head (bytes 0 to 7)"),
        ):
            status, out, errors = self.sheet(data)
            self.assertEqual((status, out), (2, ""))
            self.assertTrue(errors.endswith(f"bay: {words}\n"), errors)
        data = json.loads(self.sheet(pack_bay([b"\1"]), "--json")[1])
        self.assertEqual({key: data["refused"][key] for key in ("number", "second", "row")}, {"number": 1, "second": 1, "row": 1})

    def test_a_refusal_that_is_not_due(self):
        for result in (16, 13 | 20_073 << 8, 4 | 1 << 8 | 1 << 32, 4 | 1 << 8 | 99 << 32):
            status, out, errors = bay(OPEN, call=lambda data: BayReply(result))
            self.assertEqual((status, out), (2, ""))
            self.assertIn("not known here", errors)


class WrongReplies(unittest.TestCase):
    """A report is held to the bay before anything is said of it."""

    def failed(self, call=None, check=CHECK):
        status, out, errors = bay(OPEN, call=call, check=check)
        self.assertEqual((status, out), (3, ""))
        return errors

    def changed(self, change):
        def call(data):
            report = bytearray(Bay()(data, REPORT_ROOM).answer)
            change(report)
            return BayReply(len(report) << 8, bytes(report))

        return call

    def test_totals(self):
        for place in (0, 1, 5):
            words = self.failed(self.changed(lambda report: report.__setitem__(place, report[place] ^ 1)))
            self.assertIn("totals that are not those of its rows", words)

    def test_rows(self):
        self.assertIn("no report of this bay", self.failed(self.changed(lambda report: report.append(0))))
        self.assertIn("no report of this bay", self.failed(self.changed(lambda report: report.__setitem__(TOTALS.size + 2, 2))))
        self.assertIn("does not fit row 1", self.failed(self.changed(lambda report: report.__setitem__(TOTALS.size + 2, 1))))
        swapped = lambda data: Bay()(pack_bay(rows_of(data)[::-1]), REPORT_ROOM)
        self.assertIn("does not fit row", self.failed(swapped))

    def test_another_wind_than_the_tool_says(self):
        """Answers of another wind, or a check that gives another answer."""
        other = type("Other", (Bay,), {"far": 2})()
        self.assertIn("does not fit row 2 or its wind", self.failed(lambda data: other(data, REPORT_ROOM)))
        self.assertIn("does not fit row 1 or its wind", self.failed(check=lambda data: B_ANSWER))


class Pictures(unittest.TestCase):
    @classmethod
    def setUpClass(cls):
        cls.picture = Picture(bay(OPEN, "--svg", "-", binary=True)[1])

    def test_boxes_to_scale(self):
        """Heights of 40-ft and 20-ft boxes, the boxes' width and the rows' distance have one scale; port is on the left."""
        boxes = self.picture.boxes()
        self.assertEqual(len(boxes), 3 * 6 + 3 * 8 + 6 + 2)
        scale = boxes[0][2] / 2438
        self.assertTrue(all(abs(box[2] / scale - 2438) < 3 for box in boxes))
        self.assertEqual({round(box[3] / scale / 10) for box in boxes}, {259, 244})
        lefts = sorted({box[0] for box in boxes})
        self.assertEqual([round((left - lefts[0]) / scale / 2463) for left in lefts], [0, 1, 4, 8, 9, 10, 11, 12])
        deck = max(box[1] + box[3] for box in boxes)
        tallest = [box for box in boxes if box[0] == lefts[1]]
        self.assertTrue(abs((deck - min(box[1] for box in tallest)) / scale - 20_728) < 20)

    def test_the_wind_is_marked(self):
        ports, starboards = (self.picture.named(f"wind {side}") for side in ("port", "starboard"))
        # rows 1, 2, 9 and 12 to port; 5, 9, 10, 12 and 13 to starboard
        self.assertEqual((len(ports), len(starboards)), (6 + 2 + 8 + 6, 8 + 2 + 6 + 4 + 2))
        exposed = sum(len(row["exposed_tiers"]) for row in json.loads(bay(OPEN, "--json")[1])["rows"] if row["loaded"])
        self.assertEqual(self.picture.texts("wind").count("wind"), exposed)

    def test_verdicts(self):
        words = self.picture.texts("verdict of row")
        self.assertEqual([words.count(each) for each in ("accepted", "NOT ACCEPTED", "empty")], [6, 2, 5])
        self.assertEqual(self.picture.texts("row"), [f"row {number}" for number in range(1, 14)])
        self.assertIn("NOT ACCEPTED: 2 of 8 loaded rows, 6 findings", self.picture.texts())
        self.assertEqual(len(self.picture.named("box over")), 4)

    def test_inside_its_page(self):
        width, height = (float(self.picture.root.get(name)) for name in ("width", "height"))
        for x, y in self.picture.points():
            self.assertTrue(0 <= x <= width and 0 <= y <= height)

    def test_other_bays(self):
        for text in ("[[row]]\nempty = true\n", f"title = '<&>'\n[[row]]\nrule = 2\n{BOX}", f"[[row]]\n{BOX}" * 24):
            ElementTree.fromstring(told(text, "--svg", "-", binary=True)[1])

    def test_files(self):
        with tempfile.TemporaryDirectory() as folder:
            drawn_, written = Path(folder, "a.svg"), Path(folder, "a.bay")
            status, text, _ = bay(CLOSED, "--svg", drawn_, "--write", written)
            self.assertEqual((status, text.splitlines()[-1]), (0, "ACCEPTED: 8 loaded rows"))
            self.assertTrue(drawn_.read_bytes().startswith(b"<?xml"))
            self.assertEqual(written.read_bytes()[0], 12)
            status, _, errors = bay(CLOSED, "--svg", Path(folder, "no", "a.svg"))
            self.assertEqual(status, 3)
            self.assertIn("cannot be written", errors)


class Library(unittest.TestCase):
    def run_lash(self, *words):
        return subprocess.run([ROOT / "lash", "bay", *words], capture_output=True, text=True)

    def test_the_gap_decides(self):
        """By the proved library: one row more in the gap, and the stacks beside it are not accepted."""
        self.assertEqual([self.run_lash(path).returncode for path in (OPEN, CLOSED)], [1, 0])

    def test_an_answer_of_another_stack_is_no_verdict(self):
        with tempfile.TemporaryDirectory() as folder:
            done = self.run_lash(OPEN, "--library", library_of(Path(folder), B_ANSWER))
        self.assertEqual((done.returncode, done.stdout), (3, ""))
        self.assertIn("no report of this bay", done.stderr)

    def test_help(self):
        done = self.run_lash("--help")
        self.assertEqual(done.returncode, 0)
        self.assertIn("Exit status", done.stdout)


if __name__ == "__main__":
    unittest.main()
