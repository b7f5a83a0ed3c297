"""./lash bay: the stacks of a bay checked together, with the wind that their neighbours leave them (02, P6)."""

import argparse
import json
import sys
from dataclasses import dataclass
from pathlib import Path

from lashlib.version import version
from lashtool import bay_report, report, svg_bay
from lashtool.bay_description import LARGEST_BAY, Row, read_bay
from lashtool.checking import CheckFailed, fits, library, library_roll
from lashtool.colour import wanted
from lashtool.description import BadDescription
from lashtool.ending import ACCEPTED, BAD_INPUT, FAILED, NOT_ACCEPTED, complain, say
from lashtool.exposure import in_the_wind
from lashtool.figures import Result, result
from lashtool.refusals import explain
from lashtool.sources import STREAM, Source, clash, read
from lashtool.storing import write
from lashtool.words import warnings
from sheets.answer import BadAnswer, read_answer
from sheets.bay import BAD_BAY, MOST_ROWS, BadReport, BayRefused, pack_bay, read_report, rows_of
from sheets.sheet import Refused, pack, parse

WORD = "bay"
HELP = (
    "Checks the stacks of a bay together and prints a line a row. BAY is a description in TOML with a [[row]] for each row from port "
    "to starboard: a stack's file, a stack, or empty. Which boxes the wind reaches is worked out from the neighbours."
)
STATUS_HELP = (
    "Exit status: 0 every loaded row accepted, 1 not accepted, 2 refused, or a bad description, 3 the check could not be built or run, "
    "or a file not be written."
)


@dataclass(frozen=True)
class CheckedRow:
    """A loaded row with its answer; the sheet in the result has the bay's wind."""

    row: Row
    result: Result
    sides: tuple  # for each tier those that lie in the wind

    @property
    def number(self):
        return self.row.number


@dataclass(frozen=True)
class Bay:
    title: str
    rows: tuple  # CheckedRow, none for an empty row
    accepted: int
    mass: int
    racking: int

    @property
    def loaded(self):
        return [row for row in self.rows if row]

    @property
    def not_accepted(self):
        return [row for row in self.loaded if not row.result.accepted]


def arguments(words):
    parser = argparse.ArgumentParser(f"lash {WORD}", description=HELP, epilog=STATUS_HELP, allow_abbrev=False)
    parser.add_argument("bay", nargs="?", metavar="BAY", help="a bay's description; - for standard input")
    parser.add_argument("--sheet", metavar="FILE", help="take a bay sheet's bytes instead")
    parser.add_argument("--write", metavar="FILE", help="store the bay sheet's bytes; - for standard output in place of the report")
    parser.add_argument("--svg", metavar="FILE", help="draw the bay as seen from behind; - as above")
    parser.add_argument("--row", metavar="N", help="print all figures of one row instead, with the bay's wind")
    parser.add_argument("--json", action="store_true", help="print the figures as JSON")
    parser.add_argument("--library", type=Path, help=argparse.SUPPRESS)
    options = parser.parse_args(words)
    fault = misuse(options)
    if fault:
        parser.error(fault)
    return options


def misuse(options):
    """What is wrong with the words given, if anything."""
    files = [name for name in (options.write, options.svg) if name is not None]
    if (options.bay is None) == (options.sheet is None):
        return "a bay is needed: either a description in TOML, or --sheet with a bay sheet's bytes"
    if "" in files:
        return "--write and --svg need a file's name"
    if files.count(STREAM) + options.json > 1 and STREAM in files:
        return "standard output can be written only once"
    if options.row is not None and options.json:
        return "--row is for the printed report; --json has all rows"
    return clash(options.sheet if options.bay is None else options.bay, [name for name in files if name != STREAM])


# What is checked


def load(source, roll):
    """The bay's title and rows, and its sheet's bytes. Of bytes whose rows cannot be told apart there are none."""
    if not source.sheet:
        told = read_bay(source, roll)
        return told.title, told.rows, pack_bay([row.data for row in told.rows])
    data = read(source, LARGEST_BAY, "bay")
    try:
        return "", tuple(Row(number, row) for number, row in enumerate(rows_of(data), 1)), data
    except BayRefused:
        return "", (), data


def checked(title, rows, data, call, check):
    """The bay by the call's reply, which is held to its rows before anything is said of it. Raises what stands against a report."""
    reply = call(data)
    if reply.number:
        raise refusal(rows, BayRefused(reply.number, reply.second, reply.row))
    try:
        told = read_report(reply.answer, len(rows))
        found = in_the_wind([parse(row.data) if row.data else None for row in rows])
        answers = [read_answer(answer) if answer else None for answer in told.answers]
    except (BadReport, BadAnswer) as reason:
        raise CheckFailed(f"the check wrote no report of this bay: {reason}") from None
    except Refused as refused:
        raise CheckFailed(f"the check took a bay with a row that is to be refused with {refused}") from None
    made = tuple(
        checked_row(row, wind, answer, bytes_, check) for row, wind, answer, bytes_ in zip(rows, found, answers, told.answers)
    )
    bay = Bay(title, made, told.accepted, told.mass, told.racking)
    if (bay.accepted, bay.mass, bay.racking) != totals(bay):
        raise CheckFailed("the check wrote totals that are not those of its rows")
    return bay


def checked_row(row, wind, answer, data, check):
    """A row with its answer, which must be the check's own for the stack with the wind that the report says."""
    if (wind is None) != (answer is None):
        raise CheckFailed(f"the check wrote an answer that does not fit row {row.number}")
    if wind is None:
        return None
    sheet, sides = wind
    if not fits(sheet, answer, len(data)) or check(pack(sheet)).output != data:
        raise CheckFailed(f"the check wrote an answer that does not fit row {row.number} or its wind")
    told = row.told
    if told is None:
        return CheckedRow(row, result("", sheet, answer, []), sides)
    assumed = [each for each in told.assumed if not each.startswith("box wind ")]
    return CheckedRow(row, result(told.title, sheet, answer, assumed, told.numbers, told.motion), sides)


def totals(bay):
    rackings = (abs(force) for row in bay.loaded for end in row.result.answer.ends for force in end.racking)
    mass = sum(tier.mass for row in bay.loaded for tier in row.result.sheet.tiers)
    return len(bay.loaded) - len(bay.not_accepted), mass, max(rackings, default=0)


def refusal(rows, refused):
    """A refusal with its meaning in words."""
    if 1 <= refused.row <= len(rows):
        row = rows[refused.row - 1]
        refused.meaning = f"{row}: {explain(row.data, refused.number, refused.second)}"
    elif refused.number == BAD_BAY and not rows:
        due = f"a count of 1 to {MOST_ROWS} rows, then each row's sheet after its length, and nothing more"
        refused.meaning = f"the bytes are no bay; they have to be {due}"
    else:
        refused.meaning = "what this means for these bytes is not known here"
    return refused


# The command


def main(words, call=None, check=None, roll=None):
    """The exit status. In place of the library's calls: `call` gives a bay's reply, `check` a sheet's, `roll` that of a box."""
    options = arguments(words)
    source = Source(options.bay if options.sheet is None else options.sheet, sheet=options.sheet is not None)
    try:
        title, rows, data = load(source, roll or library_roll(options.library))
        library_ = None if call and check else library(options.library)
        bay = checked(title, rows, data, call or library_.bay, check or library_.check)
        return told(options, source, bay, data, chosen(options.row, rows))
    except BayRefused as refused:
        numbers = {"number": refused.number, "second": refused.second, "row": refused.row, "meaning": refused.meaning}
        return untold(options, source, f"refused with {refused}: {refused.meaning}", BAD_INPUT, {"refused": numbers})
    except BadDescription as fault:
        return untold(options, source, str(fault), BAD_INPUT)
    except CheckFailed as failure:
        return untold(options, source, str(failure), FAILED)


def chosen(text, rows):
    """The number of the row that is to be shown in full, or none."""
    if text is None:
        return None
    number = int(text) if text.isdecimal() and text.isascii() and len(text) < 4 else 0
    if not 1 <= number <= len(rows) or not rows[number - 1].data:
        loaded = ", ".join(str(row.number) for row in rows if row.data)
        raise BadDescription(f"--row is {text[:40]!r}; it has to be a loaded row: {loaded or 'there is none'}")
    return number


def untold(options, source, message, status, more=None):
    """The end of a bay that has no report."""
    complain(f"{source}: {message}")
    if options.json:
        head = {"version": version(), "source": str(source), "status": status}
        return say(json.dumps({**head, **(more or {"error": message})}, indent=2), status)
    return status


def told(options, source, bay, data, row):
    status = NOT_ACCEPTED if bay.not_accepted else ACCEPTED
    for each in bay.loaded:
        for warning in warnings(each.result):
            complain(f"{source}: {each.row}: warning: {warning}")
    if options.json:
        head = {"version": version(), "source": str(source), "status": status}
        printed = json.dumps({**head, **bay_report.as_data(bay)}, indent=2)
    elif row:
        printed = report.table(bay.rows[row - 1].result, wanted(sys.stdout))
    else:
        printed = bay_report.table(bay, wanted(sys.stdout))
    for name, make in ((options.write, lambda: data), (options.svg, lambda: svg_bay.picture(bay))):
        if name == STREAM:
            printed = make()
        elif name is not None:
            write(name, make())
    return say(printed, status)
