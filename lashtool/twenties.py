"""./lash twenties: whether the masses of 20-ft boxes in 40-ft cell guides are permitted (CR 5.4.6(b)(ii), Tables 5-2 and 5-3)."""

import argparse
import json
from dataclasses import dataclass
from fractions import Fraction
from math import ceil
from pathlib import Path

from lashlib.version import version
from lashtool.checking import CheckFailed, library
from lashtool.ending import ACCEPTED, BAD_INPUT, FAILED, NOT_ACCEPTED, say
from lashtool.report import aligned, bulleted
from lashtool.values import BadValue, failed, number

WORD = "twenties"
HELP = (
    "Says whether the masses of a stack of 20-ft boxes in 40-ft cell guides are permitted: all tiers but the lowest together, "
    "by CR Table 5-2, or 5-3 with a 40-ft box on top."
)
STATUS_HELP = "Exit status: 0 permitted, 1 not permitted, 2 a bad value, 3 the check could not be built or run."
ACCELERATION = range(350, 651)  # thousandths of g
TIERS = range(3, 12)
MASS = range(1, 30_481)  # kg
ROW = 10  # thousandths of g from row to row
TABLES = ("CR Table 5-2, without a 40-ft box on top", "CR Table 5-3, with a 40-ft box on top")
NOTES = (
    "Of the lowest box only its own mass is limited. Between two rows the one of higher acceleration is taken. 40-ft boxes on top "
    "are no tiers.",
    "Not covered: cones, their strength and that of the boxes, the second stack in the cell, the guides and the tank top. No class "
    "society has certified this program.",
)


@dataclass(frozen=True)
class Asked:
    table: int
    acceleration: int
    masses: tuple

    @property
    def row(self):
        """Acceleration of the row that is taken."""
        return -(-self.acceleration // ROW) * ROW


@dataclass(frozen=True)
class Judged:
    """What the call said, in kg."""

    yes: bool
    total: int
    permitted: int


def arguments(words):
    parser = argparse.ArgumentParser(f"lash {WORD}", description=HELP, epilog=STATUS_HELP, allow_abbrev=False)
    meaning = "transverse, at the roll centre, in thousandths of g: 350 to 650"
    parser.add_argument("--acceleration", required=True, metavar="N", help=meaning)
    parser.add_argument("--masses", required=True, metavar="KG,KG,..", help="of the 20-ft boxes alone, lowest first: 3 to 11")
    parser.add_argument("--forty-on-top", action="store_true", help="one or more 40-ft boxes stand on top")
    parser.add_argument("--json", action="store_true", help="print the figures as JSON")
    parser.add_argument("--library", type=Path, help=argparse.SUPPRESS)
    return parser.parse_args(words)


def asked(options):
    acceleration = number("--acceleration", options.acceleration, ACCELERATION, "thousandths of g")
    texts = options.masses.split(",") if options.masses.strip() else []
    if len(texts) not in TIERS:
        raise BadValue(f"--masses: {len(texts)} given; a stack has {TIERS[0]} to {TIERS[-1]} twenties")
    masses = tuple(number(f"--masses: tier {tier}", text, MASS, "kg") for tier, text in enumerate(texts, 1))
    return Asked(int(options.forty_on_top), acceleration, masses)


def judged(asked, result):
    """The verdict in the call's 64 bits, held to the question before anything is said of it."""
    verdict = Judged(bool(result >> 8 & 1), result >> 16 & 0xFFFFFF, result >> 40)
    by_entry = verdict.permitted > 0 and verdict.permitted % (100 * (len(asked.masses) - 1)) == 0
    said = result & 0xFEFF == 0 and verdict.total == sum(asked.masses[1:])
    if not said or not by_entry or verdict.yes != (verdict.total <= verdict.permitted):
        raise CheckFailed(f"the library said {result:#x}, which does not fit the question or itself")
    return verdict


def entry(asked, verdict):
    """The table's entry, in tenths of a tonne."""
    return verdict.permitted // (100 * (len(asked.masses) - 1))


def words_of(yes):
    return "PERMITTED" if yes else "NOT PERMITTED"


def report(asked, verdict):
    tiers = len(asked.masses)
    used = ceil(Fraction(1000 * verdict.total, verdict.permitted)) / 10
    tenths = entry(asked, verdict)
    rows = [("tier", "mass, kg"), *((str(tier), f"{mass:,}") for tier, mass in enumerate(asked.masses, 1))]
    rows[1] += ("not counted",)
    by_row = f"row {asked.row / 1000:.2f} g, {tiers} tiers: {tenths / 10:.1f} t a box on average"
    lines = [
        words_of(verdict.yes),
        f"{tiers - 1} boxes above the lowest: {verdict.total:,} kg, {used:,.1f}% of the permitted {verdict.permitted:,} kg",
        "",
        *bulleted("CHECKED", (f"{TABLES[asked.table]}; acceleration {asked.acceleration / 1000:.3f} g", by_row)),
        "",
        *aligned(rows, {0, 2}),
        "",
        *bulleted("NOTES", NOTES),
    ]
    return "\n".join(lines)


def as_data(asked, verdict, status):
    return {
        "version": version(), "status": status, "permitted": verdict.yes,
        "total": verdict.total, "permitted_total": verdict.permitted,
        "table": TABLES[asked.table].split(",")[0].removeprefix("CR Table "), "forty_on_top": bool(asked.table),
        "acceleration": asked.acceleration, "row": asked.row, "entry_tonnes": entry(asked, verdict) / 10, "masses": list(asked.masses),
    }


def main(words, judge=None):
    """The exit status. `judge` gives a question's reply in place of the library."""
    options = arguments(words)
    try:
        question = asked(options)
        judge = judge or library(options.library).twenties
        verdict = judged(question, judge(question.table, question.acceleration, question.masses).result)
    except BadValue as fault:
        return failed(options, str(fault), BAD_INPUT)
    except CheckFailed as failure:
        return failed(options, str(failure), FAILED)
    status = ACCEPTED if verdict.yes else NOT_ACCEPTED
    if options.json:
        return say(json.dumps(as_data(question, verdict, status), indent=2), status)
    return say(report(question, verdict), status)
