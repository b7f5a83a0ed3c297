"""./lash --forecast: the factor in the report and in JSON, messages that name the number at fault, and the library's own verdicts."""

import json
import subprocess
import tempfile
import unittest
from pathlib import Path

from lashtool.description import describe
from lashtool.forecast import FIELDS, Forecast, forecast
from lashtool.values import BadValue
from reference.forecast import expected
from reference.judge import judge
from sheets.sheet import pack
from tests.support import B_ANSWER, EXAMPLES, ROOT, lash, library_of

FEEDER, ROUTED, BOX_B = EXAMPLES / "feeder.toml", EXAMPLES / "route.toml", EXAMPLES / "box-b.toml"
WORDS = "forecast of waves 300 cm high, breadth 2,500 cm, 48 hours: A_T x 0.700"


class Reports(unittest.TestCase):
    def test_the_factor_stands_in_place_of_the_route(self):
        status, text, errors = lash(BOX_B, "--forecast", "300,2500,48", output=B_ANSWER)
        self.assertEqual((status, errors), (0, ""))
        self.assertIn(f"\n  rule 1 (class rule); {WORDS}\n", text)
        self.assertNotIn("route 0", text)
        self.assertIn("route 0, Unrestricted: A_T x 1.00", lash(BOX_B, output=B_ANSWER)[1])

    def test_json(self):
        stack = json.loads(lash(BOX_B, "--forecast", " 300, 2500,48", "--json", output=B_ANSWER)[1])["stack"]
        self.assertEqual(stack["forecast"], {"wave_height_cm": 300, "breadth_cm": 2500, "hours": 48, "A_T_thousandths": 700})
        self.assertNotIn("route", stack)
        plain = json.loads(lash(BOX_B, "--json", output=B_ANSWER)[1])["stack"]
        self.assertEqual((plain["route"]["A_T_percent"], "forecast" in plain), (100, False))

    def test_the_picture(self):
        self.assertIn(WORDS, lash(BOX_B, "--forecast", "300,2500,48", "--svg", "-", output=B_ANSWER)[1])

    def test_several_stacks(self):
        text = lash(BOX_B, BOX_B, "--forecast", "0,1,0", output=B_ANSWER)[1]
        self.assertIn("\n2 stacks by forecast of waves 0 cm high, breadth 1 cm, 0 hours: A_T x 0.600: 2 accepted\n", text)


class BadForecasts(unittest.TestCase):
    def message(self, text, *words):
        status, out, errors = lash(BOX_B, "--forecast", text, *words, output=B_ANSWER)
        self.assertEqual(status, 2)
        return out, errors

    def test_messages(self):
        height, breadth, hours = (
            f"it has to be a whole number of {unit} from {allowed[0]:,} to {allowed[-1]:,}" for _, allowed, unit in FIELDS
        )
        for text, message in (
            ("65536,2500,48", f"wave height is 65,536; {height}"),
            ("3.5,2500,48", f'wave height is "3.5"; {height}'),
            ("+1,2500,48", f'wave height is "+1"; {height}'),
            (",2500,48", f'wave height is ""; {height}'),
            ("300,0,48", f"breadth is 0; {breadth}"),
            ("300,65536,48", f"breadth is 65,536; {breadth}"),
            ("300,25m,48", f'breadth is "25m"; {breadth}'),
            ("300,2500,72", f"voyage is 72; {hours}"),
            ("300,2500,4294967296", f"voyage is 4,294,967,296; {hours}"),
            ("300,2500,two", f'voyage is "two"; {hours}'),
        ):
            with self.subTest(text):
                self.assertEqual(self.message(text), ("", f"lash: --forecast: {message}\n"))
        self.assertEqual([hours[-2:], breadth[-15:]], ["71", "from 1 to 65,535"[1:]])

    def test_how_many(self):
        for text, count in (("", 1), ("300", 1), ("300,2500", 2), ("300,2500,48,1", 4)):
            self.assertTrue(self.message(text)[1].startswith(f"lash: --forecast: {count} given; it takes 3 numbers: "))

    def test_json(self):
        data = json.loads(self.message("300,0,48", "--json")[0])
        self.assertEqual((data["status"], data["error"][:24]), (2, "--forecast: breadth is 0"))

    def test_no_stack_and_no_move(self):
        moved = (BOX_B, "--set", "tier.1.mass=1")
        given = (((), "a stack is needed"), (("--template",), "--template goes alone"), (moved, "does not go with --forecast"))
        for words, message in given:
            status, _, errors = lash(*words, "--forecast", "300,2500,48")
            self.assertEqual(status, 2)
            self.assertIn(message, errors)

    def test_a_route(self):
        status, text, errors = lash(ROUTED, "--forecast", "300,2500,48", output=b"20 0\n")
        self.assertEqual((status, text), (2, ""))
        self.assertIn("route.toml: refused with 20 0: route 7; with --forecast it has to be 0, since ", errors)
        self.assertIn("not known here", lash(BOX_B, "--forecast", "300,2500,48", output=b"20 0\n")[2])

    def test_read(self):
        self.assertIsNone(forecast(None))
        self.assertEqual(forecast("65535,65535,71"), Forecast(65_535, 65_535, 71))
        with self.assertRaises(BadValue):
            forecast("1,1,-0")


class Library(unittest.TestCase):
    def run_lash(self, *words):
        return subprocess.run([ROOT / "lash", *words], capture_output=True, text=True)

    def test_the_forecast_decides(self):
        """By the proved library: accepted by forecast and not without, and the figures are those of the fractions."""
        self.assertEqual(self.run_lash(FEEDER).returncode, 1)
        done = self.run_lash(FEEDER, "--forecast", "300,2500,48", "--json")
        self.assertEqual(done.returncode, 0, done.stderr)
        racking = json.loads(done.stdout)["ends"][0]["racking"]
        due = expected(pack(describe(FEEDER.read_bytes()).sheet), 300, 2_500, 48)
        for figure, exact in zip(racking, due.ends[0].racking, strict=True):
            self.assertTrue(0 <= abs(figure["force"]) - abs(exact) < 9)

    def test_an_answer_of_another_stack_is_no_verdict(self):
        with tempfile.TemporaryDirectory() as folder:
            done = self.run_lash(FEEDER, "--forecast", "300,2500,48", "--library", library_of(Path(folder), B_ANSWER))
        self.assertEqual((done.returncode, done.stdout), (3, ""))
        self.assertIn("does not fit the sheet", done.stderr)

    def test_box_b(self):
        """The stand-in's answer is right for box B without a forecast alone."""
        data = pack(describe(BOX_B.read_bytes()).sheet)
        self.assertTrue(judge(expected(data, 300, 2_500, 48), B_ANSWER).faults)


if __name__ == "__main__":
    unittest.main()
