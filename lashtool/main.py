"""The command line of ./lash."""

import argparse
import json
import sys
from collections import Counter
from dataclasses import dataclass
from pathlib import Path

from lashlib.version import version
from lashtool import arrange, bay, preview, report, rolled, side, svg, svg_side, twenties
from lashtool.checking import CheckFailed, library, library_check, library_roll, outcome
from lashtool.colour import wanted
from lashtool.data import as_data
from lashtool.description import BadDescription, describe
from lashtool.ending import ACCEPTED, BAD_INPUT, FAILED, NOT_ACCEPTED, complain, say
from lashtool.fields import CLASS_RULE
from lashtool.figures import result
from lashtool.forecast import HELP as FORECAST_HELP
from lashtool.forecast import OPTION as FORECAST
from lashtool.forecast import forecast
from lashtool.refusals import explain
from lashtool.sources import STREAM, Source, misuse, read, several, sources
from lashtool.storing import write
from lashtool.template import template
from lashtool.values import BadValue, failed
from lashtool.words import KIND_WORDS, rule_words, warnings, where
from sheets.sheet import Refused, pack

HELP = (
    "Checks the lashing of a container stack and prints its forces beside their limits; of several stacks, "
    "or of a folder of *.toml, a line each with the worst use of a limit. `lash bay --help` tells of a bay, `lash arrange --help` of "
    "every choice of the lashes aboard, `lash twenties --help` of 20-ft boxes in 40-ft guides, `lash roll --help` of a box's accelerations."
)
STATUS_HELP = (
    "Exit status: 0 accepted, 1 not accepted, 2 refused, or a bad description, move or forecast, "
    "3 the check could not be built or run, or a file not be written; of several stacks the greatest."
)


def arguments(words):
    parser = argparse.ArgumentParser("lash", description=HELP, epilog=STATUS_HELP, allow_abbrev=False)
    parser.add_argument("stacks", nargs="*", metavar="STACK", help="a description in TOML, or a folder of them; - for standard input")
    parser.add_argument("--sheet", metavar="FILE", help="take a stack sheet's bytes instead")
    parser.add_argument("--write", metavar="FILE", help="store the sheet's bytes; - for standard output in place of the report")
    parser.add_argument("--svg", metavar="FILE", help="draw the stack with its forces; - as above")
    parser.add_argument("--set", metavar="tier.N.mass=KG", action="append", help="preview another mass in a tier: before and after")
    parser.add_argument("--json", action="store_true", help="print the figures as JSON; of several stacks one line each")
    parser.add_argument(side.OPTION, action="store_true", help=side.HELP)
    parser.add_argument(FORECAST, metavar="H,B,HOURS", help=FORECAST_HELP)
    parser.add_argument("--template", action="store_true", help="print a commented description to start from")
    parser.add_argument("--version", action="version", version=f"lash {version()}")
    parser.add_argument("--library", type=Path, help=argparse.SUPPRESS)
    options = parser.parse_args(words)
    options.sources = sources(options)
    fault = misuse(options)
    if fault:
        parser.error(fault)
    return options


# One stack


def load(source, roll):
    """The sheet's bytes, and what a description says beside them: title, what was assumed, the lashes' numbers, the ship's motion."""
    if source.sheet:
        return read(source), ("", [], None, None)
    told = describe(read(source), roll)
    return pack(told.sheet), (told.title, told.assumed, told.numbers, told.motion)


def checked(source, check, roll, weather):
    """The report of a stack, by the forecast if there is one, and its sheet's bytes. Raises what stands against one."""
    data, (title, assumed, numbers, motion) = load(source, roll)
    try:
        sheet, answer = outcome(data, check(data))
    except Refused as refused:
        refused.meaning = explain(data, refused.number, refused.second)
        raise
    return result(title, sheet, answer, assumed, numbers, motion, weather), data


@dataclass(frozen=True)
class Tried:
    """What became of a stack."""

    source: Source
    status: int
    report: object = None
    data: bytes = b""
    message: str = ""  # in words, if there is no report
    numbers: dict = None  # of a refusal

    def as_data(self):
        """For JSON."""
        head = {"version": version(), "source": str(self.source), "status": self.status}
        if self.report:
            return {**head, **as_data(self.report)}
        return {**head, **({"refused": self.numbers} if self.numbers else {"error": self.message})}


def tried(source, check, roll, weather):
    """A stack checked, with what stands against a report in words."""
    try:
        report, data = checked(source, check, roll, weather)
    except Refused as refused:
        numbers = {"number": refused.number, "second": refused.second, "meaning": refused.meaning}
        return Tried(source, BAD_INPUT, message=f"refused with {refused}: {refused.meaning}", numbers=numbers)
    except BadDescription as fault:
        return Tried(source, BAD_INPUT, message=str(fault))
    except CheckFailed as failure:
        return Tried(source, FAILED, message=str(failure))
    return Tried(source, ACCEPTED if report.accepted else NOT_ACCEPTED, report, data)


def untold(stack, options):
    """The end of a stack that has no report."""
    complain(f"{stack.source}: {stack.message}")
    return say(json.dumps(stack.as_data(), indent=2), stack.status) if options.json else stack.status


def warn(stack):
    for warning in warnings(stack.report) if stack.report else ():
        complain(f"{stack.source}: warning: {warning}")


def one(options, check, roll):
    """A stack in full."""
    stack = tried(options.sources[0], check, roll, options.forecast)
    if not stack.report:
        return untold(stack, options)
    warn(stack)
    printed = json.dumps(stack.as_data(), indent=2) if options.json else report.table(stack.report, wanted(sys.stdout))
    for name, make in ((options.write, lambda: stack.data), (options.svg, lambda: svg.picture(stack.report))):
        if name == STREAM:
            printed = make()
        elif name is not None:
            write(name, make())
    return say(printed, stack.status)


def moved(options, check, roll, call):
    """A stack as it stands and with a move, side by side; the status is that of the verdict with the move."""
    stack = tried(options.sources[0], check, roll, None)
    if not stack.report:
        return untold(stack, options)
    try:
        found = preview.previewed(preview.read_move(options.set), stack.report, stack.data, call)
    except preview.BadMove as fault:
        return untold(Tried(stack.source, BAD_INPUT, message=str(fault)), options)
    warn(stack)
    status = ACCEPTED if found.after.accepted else NOT_ACCEPTED
    if options.json:
        head = {"version": version(), "source": str(stack.source), "status": status}
        return say(json.dumps({**head, **preview.as_data(found)}, indent=2), status)
    return say(preview.table(found, wanted(sys.stdout)), status)


def walls(options, roll, call):
    """The side walls of a stack; the status is that of their verdict."""
    source = options.sources[0]
    try:
        found = side.sides(describe(read(source), roll), call)
    except BadDescription as fault:
        return untold(Tried(source, BAD_INPUT, message=str(fault)), options)
    except CheckFailed as failure:
        return untold(Tried(source, FAILED, message=str(failure)), options)
    status = ACCEPTED if found.accepted else NOT_ACCEPTED
    head = {"version": version(), "source": str(source), "status": status}
    printed = json.dumps({**head, **side.as_data(found)}, indent=2) if options.json else side.table(found, wanted(sys.stdout))
    if options.svg == STREAM:
        printed = svg_side.picture(found)
    elif options.svg is not None:
        write(options.svg, svg_side.picture(found))
    return say(printed, status)


# Several stacks


VERDICTS = {ACCEPTED: "accepted", NOT_ACCEPTED: "not accepted", BAD_INPUT: "not checked", FAILED: "failed"}


def line(stack, width):
    """A stack's verdict and its worst use of a limit, or why there is no verdict."""
    words = f"{str(stack.source):{width}}  {VERDICTS[stack.status].upper():12}"
    if not stack.report:
        return f"{words} {'-':>9}  {' '.join(stack.message.split())}"
    worst, head = stack.report.worst(), stack.report.sheet.head
    rule = "" if head.rule == CLASS_RULE else f"; {rule_words(head)}"
    return f"{words} {worst.used_text:>9}  {KIND_WORDS[worst.kind]}, {where(stack.report, worst)}{rule}"


def many(options, check, roll):
    """A line for each stack; the status is the greatest."""
    counts, status = Counter(), ACCEPTED
    width = max(len(str(source)) for source in options.sources)
    for source in options.sources:
        stack = tried(source, check, roll, options.forecast)
        warn(stack)
        counts[stack.status] += 1
        status = max(status, say(json.dumps(stack.as_data()) if options.json else line(stack, width), stack.status))
    if not options.json:
        words = ", ".join(f"{count} {VERDICTS[each]}" for each, count in sorted(counts.items()))
        weather = f" by {options.forecast}" if options.forecast else ""
        status = max(status, say(f"{counts.total()} stacks{weather}: {words}", status))
    return status


def main(words=None, check=None, judge=None, call=None, roll=None, pitch=None, bay_call=None, gear_call=None):
    """The exit status. In place of the library's calls: `check` gives a sheet's reply, `judge` that of twenties, `call` that of a preview,
    `roll` that of a box's accelerations, `pitch` that of side walls, `bay_call` that of a bay, `gear_call` that of arrangements."""
    words = sys.argv[1:] if words is None else words
    if words[:1] == [bay.WORD]:
        return bay.main(words[1:], bay_call, check, roll)
    if words[:1] == [arrange.WORD]:
        return arrange.main(words[1:], gear_call, check, roll)
    if words[:1] == [twenties.WORD]:
        return twenties.main(words[1:], judge)
    if words[:1] == [rolled.WORD]:
        return rolled.main(words[1:], roll)
    options = arguments(words)
    if options.template:
        return say(template().rstrip(), ACCEPTED)
    try:
        options.forecast = forecast(options.forecast)
        roll = roll or library_roll(options.library)
        if options.side:
            return walls(options, roll, pitch or library(options.library).side)
        check = check or library_check(options.library, options.forecast)
        if options.set:
            return moved(options, check, roll, call or library(options.library).preview)
        return many(options, check, roll) if several(options) else one(options, check, roll)
    except BadValue as fault:
        return failed(options, str(fault), BAD_INPUT)
    except CheckFailed as failure:
        return failed(options, str(failure), FAILED)
