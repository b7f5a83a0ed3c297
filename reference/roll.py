"""Accelerations from roll, from document 02, P8, and CR 5.2.4(a), Condition A: the printed formulas in fractions."""

from dataclasses import astuple, dataclass
from fractions import Fraction
from math import ceil, floor

K_C = Fraction("0.0701")  # for metres, degrees and seconds
SUM_OF_SQUARES, FURTHEST = 100_000_000, 15_000  # of sine and cosine, in ten-thousandths
FARTHEST = 500_000  # mm
MOST_ANGLE, MOST_PERIOD, MOST_HEAVE = 90 * 100, 100 * 100, 10_000
LIMITS = (1_500, 3_000, 1_000)  # of A_T, A_Vmax and A_Vmin by document 01, in thousandths of g, from 0

BAD_CONDITION, OUTSIDE = 18, 19


@dataclass(frozen=True)
class Condition:
    """As the call takes it: ten-thousandths, hundredths of a degree and of a second, millimetres."""

    sine: int
    cosine: int
    heave: int
    angle: int
    period: int
    length: int
    centre: int
    x: int
    y: int
    z: int


@dataclass(frozen=True)
class Refused:
    number: int
    second: int = 0


@dataclass(frozen=True)
class Accelerations:
    transverse: int  # A_T, thousandths of g
    most: int  # A_Vmax
    least: int  # A_Vmin


def factor(length, x):
    """k_3."""
    if x < Fraction("0.2") * length:
        return Fraction("0.5") * (Fraction("0.2") * length - x) / (Fraction("0.2") * length)
    if x > Fraction("0.7") * length:
        return Fraction("0.7") * (x - Fraction("0.7") * length) / (Fraction("0.3") * length)
    return Fraction(0)


def exact(given):
    """A_T, A_VMAX and A_VMIN in g, as CR prints them; A_VMIN not yet cut."""
    sine, cosine, heave = (Fraction(number, 10_000) for number in (given.sine, given.cosine, given.heave))
    angle, period = Fraction(given.angle, 100), Fraction(given.period, 100)
    length, centre, x, y, z = (Fraction(mm, 1_000) for mm in (given.length, given.centre, given.x, given.y, given.z))
    k3 = factor(length, x)
    across = angle / period**2 * abs(z - centre)
    vertical = angle / period**2 * abs(y)
    return (
        sine + K_C * across + (1 + k3) * heave * sine,
        cosine + K_C * vertical + (1 + k3) * heave * cosine,
        cosine - K_C * vertical + (1 - k3) * heave * cosine,
    )


def faults(given):
    """The faults that 18 names, in its words and order."""
    lengths = (given.length, given.centre, given.x, given.y, given.z)
    yield "a ship's length of zero", given.length == 0
    yield "a period of zero", given.period == 0
    yield "a period over 100 s", given.period > MOST_PERIOD
    yield "an angle over 90 degrees", given.angle > MOST_ANGLE
    yield "a0 over 1", given.heave > MOST_HEAVE
    yield "a length beyond 500 m", any(abs(mm) > FARTHEST for mm in lengths)
    yield "x off the ship", not 0 <= given.x <= given.length
    yield "squares off", abs(given.sine**2 + given.cosine**2 - SUM_OF_SQUARES) > FURTHEST


def accelerations(given):
    """What the call must say of this condition."""
    if any(found for _, found in faults(given)):
        return Refused(BAD_CONDITION)
    transverse, most, least = exact(given)
    found = Accelerations(ceil(1_000 * transverse), ceil(1_000 * most), min(floor(1_000 * least), LIMITS[2]))
    for which, (number, limit) in enumerate(zip(astuple(found), LIMITS), 1):
        if not 0 <= number <= limit:
            return Refused(OUTSIDE, which)
    return found


def packed(said):
    """The 64 bits that the call for C returns for this."""
    if isinstance(said, Refused):
        return said.number | said.second << 8
    return said.transverse << 8 | said.most << 24 | said.least << 40
