"""./lash roll: the accelerations of one box from the ship's roll (CR 5.2.4(a), Condition A)."""

import argparse
import json
import re
from pathlib import Path

from lashlib.version import version
from lashtool.checking import CheckFailed, library_roll
from lashtool.description import BadDescription, read_ship, shown
from lashtool.ending import ACCEPTED, BAD_INPUT, FAILED, say
from lashtool.fields import HEIGHT_FIELD, POSITION_FIELDS, SHIP_FIELDS, field
from lashtool.report import bulleted
from lashtool.ship import ACCELERATIONS, Outside, accelerations, unit
from lashtool.sources import Source, read
from lashtool.values import failed

WORD = "roll"
HELP = (
    "Works out A_T, A_Vmax and A_Vmin of one box from the ship's roll, by Condition A of CR 5.2.4(a). SHIP is a description in TOML "
    "with a [ship], a stack's too; lengths are whole millimetres."
)
STATUS_HELP = "Exit status: 0 given, 2 a bad value or accelerations that no sheet can hold, 3 the library could not be built or run."
NOTES = (
    "A_T and A_Vmax are rounded up to thousandths of g, A_Vmin down, and A_Vmin is then cut at 1.000 g. Sine and cosine of the roll "
    "angle are taken to the nearest ten-thousandth.",
    "Not covered: the roll angle, period, centre and a0 themselves (CR 5.2.3, 5.2.4), pitching, and boxes in cell guides, for which "
    "CR has Condition B. No class society has certified this program.",
)


def arguments(words):
    parser = argparse.ArgumentParser(f"lash {WORD}", description=HELP, epilog=STATUS_HELP, allow_abbrev=False)
    parser.add_argument("ship", metavar="SHIP", help="a description with a [ship]; - for standard input")
    for name in ("x", "y"):
        words_of = f"{field(POSITION_FIELDS, name).meaning}; if left out, that of [position]"
        parser.add_argument(f"--{name}", metavar="MM", help=words_of)
    parser.add_argument("--z", required=True, metavar="MM", help=HEIGHT_FIELD.meaning)
    parser.add_argument("--json", action="store_true", help="print the figures as JSON")
    parser.add_argument("--library", type=Path, help=argparse.SUPPRESS)
    return parser.parse_args(words)


def number(name, text, due):
    """A whole number of millimetres within its range."""
    if not re.fullmatch(r"-?[0-9]{1,12}", text.strip()):
        raise BadDescription(f"--{name} is {shown(text)}; it has to be a whole number, {due.allowed()}")
    least, most = due.limits
    if not least <= int(text) <= most:
        raise BadDescription(f"--{name} is {int(text):,}; it has to be {due.allowed()}")
    return int(text)


def asked(options):
    """The ship, and the box's place."""
    ship, position = read_ship(read(Source(options.ship)))
    given = {"z": number("z", options.z, HEIGHT_FIELD)}
    for name in ("x", "y"):
        text = getattr(options, name)
        if text is None and name not in position:
            raise BadDescription(f"--{name} is missing, and [position] has no {name}")
        given[name] = position[name] if text is None else number(name, text, field(POSITION_FIELDS, name))
    if given["x"] > ship.length:
        raise BadDescription(f"--x is {given['x']:,}, beyond the ship's length, {ship.length:,} mm")
    return ship, given


def report(ship, place, found):
    sine, cosine = unit(ship.angle)
    box = ", ".join(f"{name} {place[name]:,} mm" for name in ("x", "y", "z"))
    lines = [
        *(f"{name} = {found[attribute]}" for attribute, (name, _, _) in ACCELERATIONS.items()),
        "",
        *bulleted("WORKED OUT FROM", (f"{ship.words()}; sine {sine / 10000:.4f}, cosine {cosine / 10000:.4f}", f"box at {box}")),
        "",
        *bulleted("NOTES", NOTES),
    ]
    return "\n".join(lines)


def as_data(ship, place, found):
    return {
        "version": version(), "status": ACCEPTED, **{name: found[attribute] for attribute, (name, _, _) in ACCELERATIONS.items()},
        "ship": {each.name: getattr(ship, each.attribute) for each in SHIP_FIELDS}, "box": {name: place[name] for name in ("x", "y", "z")},
    }


def main(words, roll=None):
    """The exit status. `roll` gives a box's reply in place of the library."""
    options = arguments(words)
    try:
        ship, place = asked(options)
        condition = ship.condition(place["x"], place["y"], place["z"])
        found = accelerations(roll or library_roll(options.library), condition)
    except BadDescription as fault:
        return failed(options, f"{Source(options.ship)}: {fault}", BAD_INPUT)
    except Outside as fault:
        return failed(options, str(fault), BAD_INPUT)
    except CheckFailed as failure:
        return failed(options, str(failure), FAILED)
    if options.json:
        return say(json.dumps(as_data(ship, place, found), indent=2), ACCEPTED)
    return say(report(ship, place, found), ACCEPTED)
