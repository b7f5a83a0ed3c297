"""./lash twenties: verdicts, figures and statuses, messages that name the option, and no verdict on a reply that does not fit."""

import json
import subprocess
import tempfile
import unittest
from pathlib import Path

from lashlib.version import version
from reference.twenties import Refused, Verdict, judge, packed
from tests.support import B_ANSWER, ROOT, lash, library_of

MASSES = (24_000, 22_000, 20_000, 18_000)


def twenties(acceleration, masses, *words, said=None):
    """Status, output and messages, given what the call says; else by the second program."""
    said = judge(int("--forty-on-top" in words), acceleration, masses) if said is None else said
    given = said if isinstance(said, int) else packed(said)
    listed = ",".join(map(str, masses))
    return lash("twenties", "--acceleration", acceleration, "--masses", listed, *words, twenties=given)


class Verdicts(unittest.TestCase):
    def test_permitted(self):
        status, text, errors = twenties(412, MASSES)
        self.assertEqual((status, errors), (0, ""))
        # 24.9 t at row 0.42 × 3; 60.0 of 74.7 t, rounded up
        self.assertTrue(text.startswith(
            "PERMITTED\n3 boxes above the lowest: 60,000 kg, 80.4% of the permitted 74,700 kg\n\nCHECKED\n"
            "  CR Table 5-2, without a 40-ft box on top; acceleration 0.412 g\n  row 0.42 g, 4 tiers: 24.9 t a box on average\n\n"
            "  tier  mass, kg\n  1       24,000  not counted\n  2       22,000\n  3       20,000\n  4       18,000\n\nNOTES\n"
        ), text)

    def test_at_the_permitted_mass_and_above(self):
        self.assertIn("74,700 kg, 100.0% of", twenties(412, (1, 24_900, 24_900, 24_900))[1])
        status, text, errors = twenties(412, (1, 24_900, 24_900, 24_901))
        self.assertEqual((status, errors), (1, ""))
        self.assertTrue(text.startswith("NOT PERMITTED\n3 boxes above the lowest: 74,701 kg, 100.1% of the permitted 74,700 kg\n"))

    def test_a_forty_on_top(self):
        lines = twenties(420, MASSES, "--forty-on-top")[1].splitlines()
        self.assertIn("  CR Table 5-3, with a 40-ft box on top; acceleration 0.420 g", lines)
        self.assertIn("  row 0.42 g, 4 tiers: 28.8 t a box on average", lines)

    def test_rows(self):
        for acceleration, row in ((350, "0.35"), (351, "0.36"), (360, "0.36"), (361, "0.37"), (641, "0.65"), (650, "0.65")):
            self.assertIn(f"\n  row {row} g, 4 tiers: ", twenties(acceleration, MASSES)[1])

    def test_json(self):
        status, text, _ = twenties(391, (20_000,) * 7, "--json")
        self.assertEqual(status, 1)
        self.assertEqual(json.loads(text), {
            "version": version(), "status": 1, "permitted": False, "total": 120_000, "permitted_total": 89_400,
            "table": "5-2", "forty_on_top": False, "acceleration": 391, "row": 400, "entry_tonnes": 14.9, "masses": [20_000] * 7,
        })
        data = json.loads(twenties(350, (1, 1, 1), "--json", "--forty-on-top")[1])
        self.assertEqual((data["table"], data["forty_on_top"], data["permitted"], data["entry_tonnes"]), ("5-3", True, True, 42.2))


class BadValues(unittest.TestCase):
    ACCELERATION = "it has to be a whole number of thousandths of g from 350 to 650"
    MASS = "it has to be a whole number of kg from 1 to 30,480"

    def test_messages(self):
        for acceleration, masses, message in (
            ("349", "1,1,1", f"--acceleration is 349; {self.ACCELERATION}"),
            ("651", "1,1,1", f"--acceleration is 651; {self.ACCELERATION}"),
            ("0.4", "1,1,1", f'--acceleration is "0.4"; {self.ACCELERATION}'),
            ("", "1,1,1", f'--acceleration is ""; {self.ACCELERATION}'),
            ("4²0", "1,1,1", f'--acceleration is "4²0"; {self.ACCELERATION}'),
            ("9" * 5000, "1,1,1", f'--acceleration is "{"9" * 36}...; {self.ACCELERATION}'),
            ("400", "", "--masses: 0 given; a stack has 3 to 11 twenties"),
            ("400", "1,1", "--masses: 2 given; a stack has 3 to 11 twenties"),
            ("400", ",".join("1" * 12), "--masses: 12 given; a stack has 3 to 11 twenties"),
            ("400", "1,0,1", f"--masses: tier 2 is 0; {self.MASS}"),
            ("400", "1,1,30481", f"--masses: tier 3 is 30,481; {self.MASS}"),
            ("400", "1,1,", f'--masses: tier 3 is ""; {self.MASS}'),
            ("400", "-1,1,1", f'--masses: tier 1 is "-1"; {self.MASS}'),
            ("400", "1,24t,1", f'--masses: tier 2 is "24t"; {self.MASS}'),
            ("400", "1,2\n4,1", f'--masses: tier 2 is "2?4"; {self.MASS}'),
            ("400", "1;1;1", "--masses: 1 given; a stack has 3 to 11 twenties"),
        ):
            words = ("twenties", f"--acceleration={acceleration}", f"--masses={masses}")
            with self.subTest(acceleration=acceleration[:9], masses=masses):
                self.assertEqual(lash(*words, twenties=0), (2, "", f"lash: {message}\n"))
                status, text, _ = lash(*words, "--json", twenties=0)
                self.assertEqual((status, json.loads(text)), (2, {"version": version(), "status": 2, "error": message}))

    def test_spaces_beside_a_mass(self):
        words = ("twenties", "--acceleration", " 412 ", "--masses", "24000, 22000 ,20000,18000")
        self.assertEqual(lash(*words, twenties=packed(judge(0, 412, MASSES)))[0], 0)

    def test_bad_words(self):
        for words, message in (
            ((), "the following arguments are required: --acceleration, --masses"),
            (("--masses", "1,1,1"), "the following arguments are required: --acceleration"),
            (("--acceleration", "400"), "the following arguments are required: --masses"),
            (("--acceleration", "400", "--masses", "1,1,1", "stack.toml"), "unrecognized arguments: stack.toml"),
            (("--acceleration", "400", "--masses", "1,1,1", "--forty"), "unrecognized arguments: --forty"),
        ):
            status, text, errors = lash("twenties", *words)
            self.assertEqual((status, text), (2, ""))
            self.assertIn(f"lash twenties: error: {message}", errors)

    def test_a_stack_of_that_name_is_named_by_its_path(self):
        self.assertIn("./twenties: cannot be read", lash("./twenties", output=B_ANSWER)[2])


class RepliesThatDoNotFit(unittest.TestCase):
    def test_no_verdict(self):
        right = Verdict(True, 60_000, 74_700)
        for name, said in (
            ("another total", Verdict(True, 60_001, 74_700)),
            ("no where yes is due", Verdict(False, 60_000, 74_700)),
            ("yes where no is due", Verdict(True, 60_000, 59_700)),
            ("no mass of an entry", Verdict(True, 60_000, 74_800)),
            ("nothing permitted", Verdict(False, 60_000, 0)),
            ("a bit more", packed(right) | 1 << 9),
            ("refused", Refused(22)),
            ("refused", Refused(23)),
        ):
            with self.subTest(name):
                status, text, errors = twenties(412, MASSES, said=said)
                self.assertEqual((status, text), (3, ""))
                self.assertIn("which does not fit the question or itself", errors)
        self.assertEqual(twenties(412, MASSES, said=right)[0], 0)


class Process(unittest.TestCase):
    def test_the_command(self):
        words = ["twenties", "--acceleration", "412", "--masses", ",".join(map(str, MASSES))]
        with tempfile.TemporaryDirectory() as folder:
            library = library_of(Path(folder), B_ANSWER, twenties=packed(judge(0, 412, MASSES)))
            done = subprocess.run([ROOT / "lash", *words, "--library", library], capture_output=True, text=True, cwd=folder)
            self.assertEqual((done.returncode, done.stderr, done.stdout[:10]), (0, "", "PERMITTED\n"))
            gone = subprocess.run([ROOT / "lash", *words, "--library", Path(folder, "none.so")], capture_output=True, text=True)
            self.assertEqual((gone.returncode, gone.stdout), (3, ""))
            self.assertIn("lash: the library cannot be loaded", gone.stderr)


if __name__ == "__main__":
    unittest.main()
