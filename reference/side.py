"""Side walls under pitching, from document 02, P5 (and P10), and CR 5.2.7(b): rackings and shifts in fractions, what is refused, and
the bytes due."""

from dataclasses import dataclass
from fractions import Fraction
from itertools import accumulate
from math import ceil

from reference.stack import GRAVITY, PERCENT, SHARE_TO_TOP, THOUSAND
from sheets.sheet import Refused, parse
from sheets.side import MOST_LONGITUDINAL, SIDE_LIMIT, SIDE_ROOM, SideAnswer, pack_side

STIFFNESS = 5_790  # of a side wall, N/mm (CR Table 2-4)
WRONG_PITCH, TOO_GREAT, NO_ROOM = 14, 15, 13


def forces(sheet, longitudinal):
    """F_L = 0.5 × W × A_L of each tier, per side wall; W = mass × 9.81."""
    return [
        Fraction(1, 2) * tier.mass * Fraction(GRAVITY, PERCENT) * Fraction(a_l, THOUSAND)
        for tier, a_l in zip(sheet.tiers, longitudinal, strict=True)
    ]


def rackings(sheet, longitudinal):
    """Of each tier: its share of its own F_L (45%, by rule 2 half), all of those of the tiers above."""
    f, share = forces(sheet, longitudinal), Fraction(SHARE_TO_TOP[sheet.head.rule], PERCENT)
    return [share * own + sum(f[index + 1 :]) for index, own in enumerate(f)]


def shifts(exact):
    """Of the level over each tier, in mm, from the exact rackings."""
    return list(accumulate(racking / STIFFNESS for racking in exact))


def reported(sheet, longitudinal):
    """The least whole newton not below each racking, the least whole thousandth of a millimetre not below each shift."""
    exact = rackings(sheet, longitudinal)
    racking = tuple(map(ceil, exact))
    shift = tuple(ceil(THOUSAND * each) for each in shifts(exact))
    return SideAnswer(1 if any(each > SIDE_LIMIT for each in racking) else 0, racking, shift)


def read_pitch(pitch, tiers):
    """A_L of each tier, or why the short sheet is turned back."""
    if len(pitch) != 1 + 2 * tiers or pitch[0] != tiers:
        raise Refused(WRONG_PITCH, 0)
    longitudinal = [int.from_bytes(pitch[1 + 2 * index : 3 + 2 * index], "little") for index in range(tiers)]
    for tier, a_l in enumerate(longitudinal, 1):
        if a_l > MOST_LONGITUDINAL:
            raise Refused(TOO_GREAT, tier)
    return longitudinal


@dataclass(frozen=True)
class Due:
    """What must come out: the two numbers and the side answer's bytes."""

    number: int
    second: int
    data: bytes = b""

    @property
    def result(self):
        return self.number + 256 * self.second


def expected(sheet, pitch, room=SIDE_ROOM):
    """After the stack sheet's own tests 14, then 15, then 13."""
    try:
        stack = parse(sheet)
        longitudinal = read_pitch(pitch, len(stack.tiers))
        if room < SIDE_ROOM:
            raise Refused(NO_ROOM, SIDE_ROOM)
    except Refused as refused:
        return Due(refused.number, refused.second)
    data = pack_side(reported(stack, longitudinal))
    return Due(0, len(data), data)
