"""Short voyages by forecast, from document 02, P9, and CR 5.2.4(d): the factor, the refusals and what must come out of a call."""

from fractions import Fraction
from math import ceil, isqrt

from reference.judge import Expected
from reference.stack import exact
from sheets.sheet import ANSWER_ROOM, Refused, parse

LEAST_FACTOR, MOST_FACTOR = 600, 1_000  # thousandths
HOURS = 72  # a voyage is shorter
WITH_ROUTE, NO_FORECAST, NO_ROOM = 20, 21, 13


def factor(wave_height, breadth):
    """The least whole t with t - 400 at least 1,000 × H / (20 × the root of B), in cm, kept within 600 and 1,000.

    A whole number is at least the root of a fraction exactly if its square is at least the next whole number from the fraction up.
    """
    square = ceil(Fraction(1_000 * wave_height, 20) ** 2 / breadth)
    above = isqrt(square - 1) + 1 if square else 0
    return min(max(400 + above, LEAST_FACTOR), MOST_FACTOR)


def taken(data, breadth, hours, room=ANSWER_ROOM):
    """The sheet of a call that is not refused: after the sheet's own tests 20, then 21, then 13."""
    sheet = parse(data)
    if sheet.head.route != 0:
        raise Refused(WITH_ROUTE, 0)
    if hours >= HOURS or breadth == 0:
        raise Refused(NO_FORECAST, 0)
    if room < ANSWER_ROOM:
        raise Refused(NO_ROOM, ANSWER_ROOM)
    return sheet


def expected(data, wave_height, breadth, hours, room=ANSWER_ROOM):
    """What must come out, as of a check."""
    try:
        sheet = taken(data, breadth, hours, room)
    except Refused as refused:
        return Expected(refusal=(refused.number, refused.second))
    return Expected(sheet=sheet, ends=exact(sheet, factor(wave_height, breadth)))
