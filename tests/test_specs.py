"""What must be believed: how many lines it has, and that every public call has a statement."""

import re
import unittest
from pathlib import Path

ROOT = Path(__file__).resolve().parent.parent
MOST = 900
# A call beside the check has a limit of its own: where it is stated, and how many lines. Of those of twenties in guides 68 are CR's
# two tables, which tests/test_twenties.py holds to the printed ones. A call that answers as the check does adds its own to the check's;
# a bay's greatest racking is read from the rows' answers, so it adds where an answer's numbers lie too.
BAY_CRATES = tuple(f"crates/{name}/specs/" for name in ("bay_wind", "bay_rows", "bay_answer", "bay"))
OWN = {
    "twenties": (
        (
            "crates/twenties/specs/",
            "crates/packing/specs/RefusalIn.antt",
            "crates/packing/specs/VerdictIn.antt",
            "crates/lash/specs/Told.antt",
        ),
        130,
    ),
    "preview": (("crates/preview_moves/specs/",), 20),
    "forecast": (("crates/forecast/specs/", "crates/forecast_factor/specs/"), 35),
    "side": (("crates/side_walls/specs/", "crates/side_parts/specs/", "crates/side/specs/"), 70),
    "bay": ((*BAY_CRATES, "crates/answer/specs/Places.antt", "crates/lash/specs/BayCalled.antt"), 290),
    "arrangements": (("crates/choices/specs/", "crates/gear/specs/", "crates/arrangements/specs/"), 115),
    "roll": (
        (
            "crates/roll/specs/",
            "crates/arith/specs/Wholes.antt",
            "crates/packing/specs/AccelerationsIn.antt",
            "crates/lash/specs/RolledIn.antt",
        ),
        110,
    ),
}
LISTS = {"Lib.antt", "Inner.antt"}  # lists of modules
FOLLOWS = {  # proved of the rest
    "Theorems.antt", "Table.antt", "SafeLoads.antt", "Turned.antt", "Trials.antt", "Relief.antt", "FleetStandard.antt",
    "OnePull.antt", "Consequences.antt", "Written.antt", "Heavier.antt", "NotIncluded.antt",
}
USE = re.compile(r"(pub )?use ")
CITED = re.compile(r"Rattle\.(\w+)\.specs\.((?:Inner\.)?\w+)")
CALL = re.compile(r"pub (?:extern \"C\" )?fn (\w+)")


def counted_lines(text):
    """Lines of a file, comments too, but for blank lines and what it takes from other files."""
    count, inside = 0, False
    for line in text.splitlines():
        if inside or USE.match(line):
            inside = "{" in line and "}" not in line or inside and "}" not in line
        elif line.strip():
            count += 1
    return count


def believed(root=ROOT):
    """The files that must be believed: specs/ outside Inner/, without the lists and without what is proved."""
    files = sorted(root.glob("crates/*/specs/*.antt"))
    return [path for path in files if path.name not in LISTS | FOLLOWS]


def cited(text):
    """Crate and file of the definitions that a file takes from specs/."""
    return {(crate, module) for line in text.splitlines() if USE.match(line) for crate, module in CITED.findall(line)}


def stateless(text):
    """The public functions of a source file that have no statement of what they return."""
    parts = CALL.split("\n".join(line for line in text.splitlines() if not line.lstrip().startswith("//")))
    return [name for name, rest in zip(parts[1::2], parts[2::2]) if "ensures" not in rest.split("\n{", 1)[0]]


class Specs(unittest.TestCase):
    def test_few_lines_must_be_believed(self):
        counts = {path.relative_to(ROOT).as_posix(): counted_lines(path.read_text(encoding="utf-8")) for path in believed()}
        self.assertGreater(len(counts), 10)
        for name, (places, most) in OWN.items():
            own = {path: counts.pop(path) for path in list(counts) if path.startswith(places)}
            self.assertTrue(0 < sum(own.values()) <= most, f"lines of {name} that must be believed: {own}")
        total = sum(counts.values())
        self.assertLessEqual(total, MOST, f"{total} lines must be believed: {counts}")

    def test_what_must_be_believed_rests_on_nothing_else(self):
        for path in believed():
            for crate, module in cited(path.read_text(encoding="utf-8")):
                outside = module.startswith("Inner.") or f"{module}.antt" in FOLLOWS
                self.assertFalse(outside, f"{path.relative_to(ROOT)} takes definitions from {crate}, {module}")

    def test_no_public_call_lacks_a_statement(self):
        sources = [path for path in ROOT.glob("crates/*/src/*.rt") if not (path.parent / "main.rt").is_file()]
        self.assertGreater(len(sources), 10)
        found = {path.relative_to(ROOT).as_posix(): stateless(path.read_text(encoding="utf-8")) for path in sources}
        self.assertEqual({path: names for path, names in found.items() if names}, {})


class Counting(unittest.TestCase):
    """That these checks can fail."""

    def test_lines(self):
        self.assertEqual(counted_lines("-- first\nuse a.{b}\nuse a.{\n  b,\n  c,\n}\n\nx : N\nx = 1\n"), 3)

    def test_citations(self):
        text = "use Rattle.statics.specs.Inner.Computed.{figures_by}\npub use Rattle.answer.specs.Places as P\n"
        text += "-- use Rattle.a.specs.B\n"
        self.assertEqual(cited(text), {("statics", "Inner.Computed"), ("answer", "Places")})

    def test_calls(self):
        stated = "pub fn a(x: u8) -> u8\n    ensures { r }\n{\n    x\n}\n"
        self.assertEqual(stateless(stated), [])
        self.assertEqual(stateless(stated + "pub fn b() -> u8 {\n    1\n}\n" + stated.replace("fn a", "fn c")), ["b"])
        self.assertEqual(stateless("pub fn d() -> u8\n{\n    ensures(1)\n}\n"), ["d"])
        self.assertEqual(stateless("pub extern \"C\" fn e()\n{\n}\n"), ["e"])


if __name__ == "__main__":
    unittest.main()
