"""./lash arrange: which choices of the lashes aboard hold a stack when they are used alike at both ends (02, P13)."""

import argparse
import json
import sys
from dataclasses import dataclass, replace
from pathlib import Path

from lashlib.version import version
from lashtool import arrange_report
from lashtool.checking import CheckFailed, library, library_roll, outcome, written
from lashtool.colour import wanted
from lashtool.description import BadDescription, describe
from lashtool.ending import ACCEPTED, BAD_INPUT, FAILED, NOT_ACCEPTED, complain, say
from lashtool.fields import ENDS, lash_place
from lashtool.figures import Result, result
from lashtool.refusals import explain
from lashtool.sources import Source, read
from lashtool.values import BadValue, number
from lashtool.words import warnings
from sheets.gear import chosen, pack_gear, read_list
from sheets.sheet import MOST_LASHES, Refused, pack, sheet_order

WORD = "arrange"
HELP = (
    "Lists every choice of the lashes aboard that holds a stack when it is used alike at both ends, fewest lashes first, with each one's "
    "worst use of a limit. STACK is a stack's description in TOML, whose [[lash]] are the gear aboard, 8 at most; two that are alike but "
    "for their end are one."
)
STATUS_HELP = (
    "Exit status: 0 some choice accepted, 1 none accepted, 2 refused, or a bad description or value, 3 the check could not be built or run."
)
SHOWN = 20  # lines of choices, if --most is not given
MOST_SHOWN = range(1, 2**MOST_LASHES + 1)


@dataclass(frozen=True)
class Gear:
    """A stack without lashes, and the lashes aboard in sheet order, as a person counts them."""

    title: str
    sheet: object
    lashes: tuple
    numbers: tuple
    assumed: list
    motion: object = None


@dataclass(frozen=True)
class Choice:
    """A choice with the check's answer for the stack with it at both ends."""

    choice: int
    numbers: tuple  # of its lashes, as a person counts them
    lashes: tuple
    result: Result


@dataclass(frozen=True)
class Arranged:
    """A stack and its gear with every choice in order, accepted or not."""

    gear: Gear
    choices: tuple

    @property
    def accepted(self):
        return [each for each in self.choices if each.result.accepted]

    @property
    def whole(self):
        """The choice of every lash."""
        return self.choices[-1]

    @property
    def closest(self):
        """The choice whose worst use of a limit is the least; the first of equal ones."""
        return min(self.choices, key=lambda each: each.result.worst().share)


def arguments(words):
    parser = argparse.ArgumentParser(f"lash {WORD}", description=HELP, epilog=STATUS_HELP, allow_abbrev=False)
    parser.add_argument("stack", nargs="?", metavar="STACK", help="a stack's description; - for standard input")
    parser.add_argument("--sheet", metavar="FILE", help="take a stack sheet's bytes instead; its lashes are the gear aboard")
    parser.add_argument("--most", metavar="N", default=str(SHOWN), help=f"print at most so many choices (default {SHOWN})")
    parser.add_argument("--json", action="store_true", help="print every accepted choice as JSON")
    parser.add_argument("--library", type=Path, help=argparse.SUPPRESS)
    options = parser.parse_args(words)
    if (options.stack is None) == (options.sheet is None):
        parser.error("a stack is needed: either a description in TOML, or --sheet with a stack sheet's bytes")
    return options


# What is asked


def load(source, check, roll):
    """The stack and its gear."""
    if not source.sheet:
        told = describe(read(source), roll)
        assumed = [each for each in told.assumed if not each.startswith("lash end ")]
        return gear_of(told.title, told.sheet, told.numbers, assumed, told.motion)
    data = read(source)
    try:
        sheet, _ = outcome(data, check(data))
    except Refused as refused:
        refused.meaning = explain(data, refused.number, refused.second)
        raise
    return gear_of("", sheet, None, [])


def gear_of(title, sheet, numbers, assumed, motion=None):
    """The lashes of both ends, each once: those that are alike but for their end are one lash."""
    found = {}
    for end, name in enumerate(ENDS):
        for index, lash in enumerate(sheet.lashes(end)):
            given = numbers[end][index] if numbers else f"{name} {index + 1}"
            first = found.setdefault(sheet_order(lash), (given, lash))
            if first[1] != lash:
                raise BadDescription(
                    f"lash {given}: {lash_place(lash)} is lash {first[0]} already, with other fields; each lash aboard is used at both ends"
                )
    if len(found) > MOST_LASHES:
        raise BadDescription(f"lash: {len(found)} are aboard, at most {MOST_LASHES} can be chosen from")
    lashes = [found[place] for place in sorted(found)]
    counted = tuple(given for given, _ in lashes) if numbers else tuple(range(1, len(lashes) + 1))
    return Gear(title, replace(sheet, door=(), closed=()), tuple(lash for _, lash in lashes), counted, assumed, motion)


# What is said


def arranged(gear, call, check):
    """Every choice, by the call's list and the check of each; the two are held to each other before anything is said of them."""
    listed = written(call(pack(gear.sheet), pack_gear(gear.lashes)), "arrangements", read_list)
    found = Arranged(gear, tuple(tried(gear, choice, check) for choice in in_order(len(gear.lashes))))
    if listed != tuple(each.choice for each in found.accepted):
        raise CheckFailed("the call for arrangements wrote a list that is not the check's, choice by choice")
    return found


def in_order(count):
    """All choices: fewer lashes first, then by the places of the lashes used, as a dictionary has words."""
    def places(choice):
        return chosen(choice, range(count))

    return sorted(range(2**count), key=lambda choice: (len(places(choice)), places(choice)))


def tried(gear, choice, check):
    """The stack with a choice at both ends, checked."""
    lashes, numbers = chosen(choice, gear.lashes), chosen(choice, gear.numbers)
    data = pack(replace(gear.sheet, door=lashes, closed=lashes))
    try:
        sheet, answer = outcome(data, check(data))
    except Refused as refused:
        raise CheckFailed(f"the check refused a choice of the gear with {refused}") from None
    return Choice(choice, numbers, lashes, result(gear.title, sheet, answer, gear.assumed, (numbers, numbers), gear.motion))


# The command


def main(words, call=None, check=None, roll=None):
    """The exit status. In place of the library's calls: `call` gives the reply for a sheet and its gear, `check` a sheet's, `roll` that of
    a box."""
    options = arguments(words)
    source = Source(options.stack if options.sheet is None else options.sheet, sheet=options.sheet is not None)
    try:
        most = number("--most", options.most, MOST_SHOWN, "choices")
        library_ = None if call and check else library(options.library)
        check = check or library_.check
        gear = load(source, check, roll or library_roll(options.library))
        return told(options, source, arranged(gear, call or library_.arrangements, check), most)
    except Refused as refused:
        numbers = {"number": refused.number, "second": refused.second, "meaning": refused.meaning}
        return untold(options, source, f"refused with {refused}: {refused.meaning}", BAD_INPUT, {"refused": numbers})
    except (BadDescription, BadValue) as fault:
        return untold(options, source, str(fault), BAD_INPUT)
    except CheckFailed as failure:
        return untold(options, source, str(failure), FAILED)


def untold(options, source, message, status, more=None):
    """The end of a stack that has no list."""
    complain(f"{source}: {message}")
    if options.json:
        return say(json.dumps({**head(source, status), **(more or {"error": message})}, indent=2), status)
    return status


def head(source, status):
    return {"version": version(), "source": str(source), "status": status}


def told(options, source, found, most):
    status = ACCEPTED if found.accepted else NOT_ACCEPTED
    for warning in warnings(found.whole.result):
        complain(f"{source}: warning: {warning}")
    if options.json:
        return say(json.dumps({**head(source, status), **arrange_report.as_data(found)}, indent=2), status)
    return say(arrange_report.table(found, most, wanted(sys.stdout)), status)
