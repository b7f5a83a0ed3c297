"""The whole bay, from document 02 (P6) and CR 1.3.1(40): which boxes the wind reaches, and what must come out of a call."""

from dataclasses import dataclass, replace
from fractions import Fraction

from reference.judge import Expected
from reference.stack import exact
from sheets.bay import NO_ROOM, REPORT_ROOM, BayRefused, rows_of
from sheets.sheet import HEAD, TIER, Refused, parse, wind_code

PORT, STARBOARD = -1, 1  # rows are counted from port
FAR = 3  # so many empty rows between, or more, leave a side open
UNEXPOSED = Fraction(1, 3)  # of a box's height; what shows above this exposes it


# Rows are sheets, none for an empty row.


def nearest(rows, index, side):
    """The nearest loaded row on a side and the empty rows between, or none if there is none beyond."""
    place = index + side
    while 0 <= place < len(rows):
        if rows[place]:
            return rows[place], abs(place - index) - 1
        place += side
    return None


def stack_height(sheet):
    """All rows start at the same height."""
    return sum(tier.height for tier in sheet.tiers)


def exposed_on(rows, index, number, side):
    """Whether the wind reaches a box on one side; the box is the tier of this number, from 1."""
    found = nearest(rows, index, side)
    if found is None or found[1] >= FAR:
        return True
    beside, tiers = found[0], rows[index].tiers
    box = tiers[number - 1]
    if box.size == 40 and beside.tiers[0].size == 20:
        return True
    top = sum(tier.height for tier in tiers[:number])
    shows = min(box.height, max(0, top - stack_height(beside)))
    return Fraction(shows, box.height) > UNEXPOSED


def exposed(rows, index, number):
    return any(exposed_on(rows, index, number, side) for side in (PORT, STARBOARD))


def in_the_wind(rows):
    """Each row with the wind part of its tiers worked out afresh; how a box is turned stays."""
    return [sheet and replace(sheet, tiers=tuple(winds(rows, index))) for index, sheet in enumerate(rows)]


def winds(rows, index):
    for number, tier in enumerate(rows[index].tiers, 1):
        yield replace(tier, wind=wind_code(exposed(rows, index, number), tier.turned))


def with_winds(data, sheet):
    """A copy of a row's bytes with the wind bits of this sheet put in."""
    copy = bytearray(data)
    for index, tier in enumerate(sheet.tiers):
        at = HEAD.size + 1 + TIER.size * index + 1
        copy[at] = copy[at] & 0xFE | tier.exposed
    return bytes(copy)


# What must come out


def sheets_of(data, room=REPORT_ROOM):
    """The sheets of a bay's rows as they stand, or the first refusal: 16, that of the first row that has one, 13."""
    rows = []
    for number, row in enumerate(rows_of(data), 1):
        try:
            rows.append(parse(row) if row else None)
        except Refused as refused:
            raise BayRefused(refused.number, refused.second, number) from None
    if room < REPORT_ROOM:
        raise BayRefused(NO_ROOM, REPORT_ROOM, 0)
    return rows


@dataclass(frozen=True)
class BayExpected:
    """What must come out of a bay: a refusal, or a report whose rows are within reach of the exact forces."""

    refusal: tuple = None  # (number, second number, row)
    rows: tuple = ()  # Expected, none for an empty row
    mass: int = 0


def expected(data, room=REPORT_ROOM):
    try:
        sheets = in_the_wind(sheets_of(data, room))
    except BayRefused as refused:
        return BayExpected(refusal=(refused.number, refused.second, refused.row))
    rows = tuple(sheet and Expected(sheet=sheet, ends=exact(sheet)) for sheet in sheets)
    return BayExpected(rows=rows, mass=sum(tier.mass for sheet in sheets if sheet for tier in sheet.tiers))
