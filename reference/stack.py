"""One stack in fractions: loads, springs and forces as document 01 writes them, with 02's turned boxes (P1), bottom hooks (P4)
and fleet standard (P10).
"""

from dataclasses import dataclass
from fractions import Fraction
from itertools import accumulate
from math import isqrt, lcm

from sheets.answer import End, LashForces
from sheets.sheet import BOTTOM, CLOSED, CROSS, DOOR, ROUTE_PERCENT, SIDE

GRAVITY = 981  # hundredths of m/s²
WIND_PRESSURE = 1080  # N/m²
SQUARE_METRE = 1_000_000  # mm²
BOX_LENGTH = {20: 6058, 40: 12192}  # mm, by feet
SHARE_TO_TOP = {1: 45, 2: 50}  # by rule number, percent of F to the box's own top; the centre's height in the box
RACKING_STIFFNESS = {DOOR: 3730, CLOSED: 15690}  # K of a box at its door end and its closed end, N/mm
POST_SPACING = 2259  # mm


# Loads on one end: whole numbers of a part of a newton so small that every product of 01's factors is one


UNIT = 4_000_000_000  # parts in a newton
THOUSAND = 1000  # accelerations are in thousandths of g
PERCENT = 100


def route_factor(route):
    """In thousandths."""
    return ROUTE_PERCENT[route] * THOUSAND // PERCENT


def transverse(tier, factor):
    """F = 0.5 × W × A_T × route factor, or another in its place, in thousandths; W = mass × 9.81."""
    return UNIT * tier.mass * GRAVITY * tier.a_t * factor // (2 * PERCENT * THOUSAND * THOUSAND)


def vertical(tier, thousandths):
    """F_V = 0.5 × W × A_Vmax or A_Vmin."""
    return UNIT * tier.mass * GRAVITY * thousandths // (2 * PERCENT * THOUSAND)


def wind(tier):
    """P = 0.5 × 1,080 N/m² × length × height if exposed, else 0."""
    return UNIT * WIND_PRESSURE * BOX_LENGTH[tier.size] * tier.height * tier.exposed // (2 * SQUARE_METRE)


@dataclass(frozen=True)
class Loads:
    """What an end bears, the same at both."""

    racking: tuple  # Q of tiers 1 to n
    moment: tuple  # of F and P above levels 0 to n, in parts of N·mm
    greatest: tuple  # V above levels 0 to n, by A_Vmax
    least: tuple  # and by A_Vmin


def loads(sheet, factor=None):
    """By the sheet's route, or by a factor in thousandths in place of the route's."""
    tiers, share = sheet.tiers, SHARE_TO_TOP[sheet.head.rule]
    factor = route_factor(sheet.head.route) if factor is None else factor
    f, p = [transverse(tier, factor) for tier in tiers], [wind(tier) for tier in tiers]
    levels = range(len(tiers) + 1)
    return Loads(
        tuple(racking_load(f, p, index, share) for index in range(len(tiers))),
        tuple(load_moment(tiers, f, p, level, share) for level in levels),
        tuple(sum(vertical(tier, tier.a_vmax) for tier in tiers[level:]) for level in levels),
        tuple(sum(vertical(tier, tier.a_vmin) for tier in tiers[level:]) for level in levels),
    )


def racking_load(f, p, index, share):
    """Q of a tier: its share of F (0.45, by rule 2 0.5) and 0.5 P of its own, F + P of every tier above."""
    return share * f[index] // PERCENT + p[index] // 2 + sum(f[index + 1 :]) + sum(p[index + 1 :])


def load_moment(tiers, f, p, level, share):
    """F at its share (45%, by rule 2 half) and P at half of the height of its tier, about a level below."""
    total, bottom = 0, 0
    for index in range(level, len(tiers)):
        height = tiers[index].height
        total += f[index] * (PERCENT * bottom + share * height) // PERCENT + p[index] * (2 * bottom + height) // 2
        bottom += height
    return total


# Springs


def lash_length(lash):
    """L: the least whole millimetre with L² >= LX² + LY² + LZ²."""
    square = lash.lx**2 + lash.ly**2 + lash.lz**2
    root = isqrt(square)
    return root if root * root == square else root + 1


def lash_forces(lash, shift):
    """T = modulus × area × LY × D / L², athwart T × LY / L, vertical T × LZ / L."""
    length = lash_length(lash)
    tension = Fraction(lash.modulus * lash.area * lash.ly, length**2) * shift
    return LashForces(tension, tension * Fraction(lash.ly, length), tension * Fraction(lash.lz, length))


def spring(tier, end):
    """K of a tier: a turned box shows its closed end at the door end of the sheet, and the other way round."""
    other = CLOSED if end == DOOR else DOOR
    return RACKING_STIFFNESS[other if tier.turned else end]


def equations(sheet, end, racking_loads):
    """One row a tier: the factors of D of levels 1 to n, then the right side.

    K × (D of level i − D of level i−1) + athwart parts of lashes at level i or above = Q of tier i
    """
    count = len(sheet.tiers)
    athwart = [(lash.level, lash_forces(lash, 1).athwart) for lash in sheet.lashes(end)]
    rows = []
    for number in range(1, count + 1):
        row = [Fraction(0)] * (count + 1)
        stiffness = Fraction(spring(sheet.tiers[number - 1], end))
        row[number - 1] = stiffness
        if number > 1:
            row[number - 2] = -stiffness
        for level, part in athwart:
            if level >= number:
                row[level - 1] += part
        row[count] = Fraction(racking_loads[number - 1], UNIT)
        rows.append(row)
    return rows


def solve(rows):
    """The unknowns of a square system of equations, by Gaussian elimination."""
    rows = [list(row) for row in rows]
    size = len(rows)
    for column in range(size):
        pivot = next(index for index in range(column, size) if rows[index][column])
        rows[column], rows[pivot] = rows[pivot], rows[column]
        for index in range(column + 1, size):
            subtract_row(rows[index], rows[column], column)
    unknowns = [Fraction(0)] * size
    for index in reversed(range(size)):
        known = sum(rows[index][j] * unknowns[j] for j in range(index + 1, size) if rows[index][j])
        unknowns[index] = (rows[index][size] - known) / rows[index][index]
    return unknowns


def subtract_row(row, pivot_row, column):
    """Takes the multiple of the pivot's row away that makes the column zero."""
    if row[column]:
        factor = row[column] / pivot_row[column]
        for j in range(column, len(row)):
            if pivot_row[j]:
                row[j] -= factor * pivot_row[j]


def shifts(sheet, end, racking_loads):
    """D of levels 0 to n."""
    return [Fraction(0)] + solve(equations(sheet, end, racking_loads))


# Posts and locks: whole numbers over one denominator, which are quicker to add than fractions


@dataclass(frozen=True)
class Hooked:
    """The parts of an end's lashes, over a denominator."""

    lashes: tuple
    athwart: list
    vertical: list
    bottom: int


def hooked(lashes, forces):
    bottom = lcm(*(part.denominator for each in forces for part in (each.athwart, each.vertical)))
    athwart, vertical_ = ([int(getattr(each, name) * bottom) for each in forces] for name in ("athwart", "vertical"))
    return Hooked(lashes, athwart, vertical_, bottom)


def level_heights(sheet):
    return [0, *accumulate(tier.height for tier in sheet.tiers)]


def moment(heights, load_moments, held, level):
    """M about a level: that of the loads above, less athwart parts × heights of the hooks above; over UNIT × held.bottom."""
    parts = zip(held.lashes, held.athwart)
    pulled = sum(part * (heights[lash.level] - heights[level]) for lash, part in parts if lash.level > level)
    return load_moments[level] * held.bottom - pulled * UNIT


def in_compression(lash, level):
    """The lashes at this level or above."""
    return lash.level >= level


def in_tension(lash, level):
    """The lashes above this level, and those hooked to a bottom corner at it; not the top hooks at it."""
    return lash.level > level or (lash.level == level and lash.hook == BOTTOM)


def vertical_parts(held, kind, counts, level):
    """The vertical parts of the lashes of one kind that count at a level, over held.bottom."""
    parts = zip(held.lashes, held.vertical)
    return sum(part for lash, part in parts if lash.kind == kind and counts(lash, level))


def post_sums(held, v, m, counts, level):
    """V/2 + M/2259 + vertical parts of cross lashes, V/2 − M/2259 + vertical parts of side lashes; and their denominator."""
    half_v = v * held.bottom * POST_SPACING
    cross, side = (2 * UNIT * POST_SPACING * vertical_parts(held, kind, counts, level) for kind in (CROSS, SIDE))
    return half_v + 2 * m + cross, half_v - 2 * m + side, 2 * UNIT * held.bottom * POST_SPACING


def compression(held, v, m, level):
    """The greatest of 0 and the two sums, by A_Vmax."""
    lee, windward, bottom = post_sums(held, v, m, in_compression, level)
    return Fraction(max(0, lee, windward), bottom)


def tension(held, v, m, level):
    """How far the lower of the two sums lies below 0, by A_Vmin."""
    lee, windward, bottom = post_sums(held, v, m, in_tension, level)
    return Fraction(max(0, -min(lee, windward)), bottom)


def exact_end(sheet, end, borne=None):
    """Every exact force of one end."""
    borne = borne or loads(sheet)
    count, heights = len(sheet.tiers), level_heights(sheet)
    shift = shifts(sheet, end, borne.racking)
    lashes = tuple(lash_forces(lash, shift[lash.level]) for lash in sheet.lashes(end))
    held = hooked(sheet.lashes(end), lashes)
    m = [moment(heights, borne.moment, held, level) for level in range(count + 1)]
    return End(
        tuple(spring(tier, end) * (shift[i] - shift[i - 1]) for i, tier in enumerate(sheet.tiers, 1)),
        tuple(compression(held, borne.greatest[level], m[level], level) for level in range(count + 1)),
        tuple(tension(held, borne.least[level], m[level], level) for level in range(count)),
        lashes,
    )


def exact(sheet, factor=None):
    """Both ends, door first; by the sheet's route, or by a factor in thousandths in its place."""
    borne = loads(sheet, factor)
    return exact_end(sheet, DOOR, borne), exact_end(sheet, CLOSED, borne)
