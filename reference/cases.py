#!/usr/bin/env python3
"""Prints named sheets and what must come out of each: document 01's list and its plausible slips, and 02's turned boxes (P1),
lash lengths (P2), safe loads (P3), bottom hooks (P4), fleet standard (P10), one finding for one pull (P11) and a heavier box (P14).

A case is a block of lines, ended by an empty one:

    case NAME
    why TEXT
    room BYTES                     the answer buffer's length
    sheet HEX                      nothing after the word for an empty sheet
    refused NUMBER SECOND          or, for a sheet that is taken, `taken` and
    END FORCE WHERE exact FRACTION reported LEAST to MOST
    finding END KIND INDEX         a finding that stands in every right answer
    open END KIND INDEX            one that hangs on the last 100 N
    verdict 0|1|open

END is 0 (door) or 1 (closed). WHERE is the tier, level or lash. A reported force r is right exactly
if exact <= r < exact + 100 in size; LEAST and MOST are the first and last such whole number, negative
for a racking to windward. `either` after MOST: the racking may also have the other sign.
"""

import sys
from dataclasses import dataclass, replace
from math import ceil
from pathlib import Path

sys.path.insert(0, str(Path(__file__).resolve().parent.parent))

from reference.judge import MARGIN, figures
from reference.script import finish
from reference.stack import exact
from sheets.limits import checks, named
from sheets.sheet import (
    ANSWER_ROOM, BOTTOM, CROSS, SIDE, TOP, Head, Lash, Refused, Sheet, Tier, pack, parse,
)

HEAD = Head(1, 0, 1, 0, 500_000)
BOX_B = Tier(40, 0, 2591, 20_000, 500, 1_500, 800)
ROD_S = Lash(1, TOP, CROSS, 1, 0, 1950, 2600, 500, 130_000, 490_000)


@dataclass(frozen=True)
class Case:
    name: str
    why: str
    data: bytes
    room: int = ANSWER_ROOM


def stack(tiers, door=(), closed=(), **head):
    return pack(Sheet(replace(HEAD, **head), tuple(tiers), tuple(door), tuple(closed)))


def box(**changes):
    return replace(BOX_B, **changes)


def rod(tier=1, hook=TOP, kind=CROSS, **changes):
    return replace(ROD_S, tier=tier, hook=hook, kind=kind, **changes)


def rods(count):
    """Rods on the lowest places in sheet order."""
    places = [(t, h, k) for t in range(1, 4) for h in (TOP, BOTTOM) for k in (CROSS, SIDE)]
    return [rod(*place) for place in places if place[:2] != (1, BOTTOM)][:count]


B = BOX_B
EIGHT_HIGH = [box(mass=m, wind=1) for m in (24_000, 22_000, 20_000, 16_000, 12_000, 9_000, 6_000, 4_000)]
PULLED_BACK = [
    box(mass=m, a_t=800, a_vmax=1_000, a_vmin=1_000)
    for m in (10_000, 10_000, 10_000, 20_000, 30_480, 2_000)
]
FLAT = {"ly": 4_000, "lz": 3_000}
OVERLOADED = [box(mass=30_480, a_t=900, a_vmax=2_000, a_vmin=0)] * 9

RUN_BY_A_PROGRAM = [
    Case("empty", "an empty sheet", b""),
    Case("tiers-10", "ten tiers are taken", stack([B] * 10)),
    Case("tiers-11", "eleven are not", stack([B] * 11)),
    Case("mass-30480", "the heaviest box", stack([box(mass=30_480)])),
    Case("mass-30481", "one kilogram more", stack([box(mass=30_481)])),
    Case("a-vmin-1000", "the greatest A_Vmin", stack([box(a_vmin=1_000)])),
    Case("a-vmin-1001", "one thousandth more", stack([box(a_vmin=1_001)])),
    Case("lashes-8", "eight lashes at each end", stack([B] * 3, rods(8), rods(8))),
    Case("lashes-9-door", "nine at the door end", stack([B] * 3, rods(9))),
    Case("lashes-9-closed", "nine at the closed end", stack([B] * 3, rods(1), rods(9))),
    Case("room-833", "an answer buffer one byte short", stack([B]), 833),
    Case("room-834", "one that is long enough", stack([B]), 834),
    Case("same-twice", "the same tier, hook and kind twice", stack([B], [rod(), rod()])),
    Case("cross-then-side", "a cross, then a side lash on one hook", stack([B], [rod(), rod(kind=SIDE)])),
]

FIGURES = [
    Case("figure-a-c", "(a) and (c): B alone", stack([B])),
    Case("figure-b", "(b): two B", stack([B, B])),
    Case("figure-d", "(d): B with S at level 1", stack([B], [rod()])),
    Case("figure-e", "(e): S at level 2 pulls a light box back", stack([B, box(mass=2_000)], [rod(2)])),
    Case("eight-high", "wind, four rods an end", stack(EIGHT_HIGH, rods(4), rods(4))),
]

SLIPS = [
    Case("slip-nearest", "rounded to nearest, its racking falls below", stack([box(mass=20_005)])),
    Case(
        "slip-windward",
        "the one finding is a racking to windward",
        stack(
            PULLED_BACK,
            [rod(6, area=300, **FLAT), rod(6, kind=SIDE, area=300, **FLAT)],
            [rod(4, **FLAT), rod(5, **FLAT)],
        ),
    ),
    Case("slip-cross-post", "a cross lash presses the lee post", stack([B, B], [rod()], [rod()])),
    Case(
        "slip-side-post",
        "a side lash presses the windward post",
        stack([B, B], [rod(kind=SIDE)], [rod(kind=SIDE)]),
    ),
    Case(
        "slip-own-top-hook",
        "a level's top hook does not count in its tension",
        stack([B, box(a_vmin=0)], [rod(kind=SIDE)], [rod(kind=SIDE)]),
    ),
    Case("slip-route-vertical", "the route does not touch A_Vmax", stack([B, B], route=7)),
    Case(
        "slip-route-tension", "nor A_Vmin", stack([box(a_t=1_000), box(a_t=1_000, a_vmin=100)], route=7)
    ),
    Case("slip-route-wind", "nor the wind", stack([box(wind=1), box(wind=1)], route=7)),
    Case(
        "slip-copied-tier",
        "each tier has its own racking",
        stack([box(mass=m) for m in (9_000, 20_000, 3_000)]),
    ),
    Case(
        "slip-every-kind",
        "a finding of every kind but the lock's, whose limit is the higher",
        stack(OVERLOADED, [rod(), rod(2, ly=700, lz=5_000)], [rod(area=1_000), rod(2, BOTTOM, **FLAT)]),
    ),
]

ORDER = [
    Case("order-early-12", "12 of an early lash before 1 of a later one", stack([B], [rod()] * 3)[:-20]),
    Case("order-10-11", "a lash with tier 0 and LY 0", stack([B], [rod(0, ly=0)])),
    Case("order-11-12", "a lash with tier 0 after another", stack([B], [rod(), rod(0)])),
    Case("order-7-8", "a height that its size does not have", stack([B, box(size=20, height=2_896)])),
    Case("order-8", "one that it has, but not tier 1's size", stack([B, box(size=20, height=2_438)])),
    Case("order-9-1", "nine lashes counted and none there", stack([B])[:-2] + b"\x09"),
    Case("order-3-4-5", "every fault of a head", stack([B], route=13, zero=1, lock_material=3)),
    Case("order-2-13", "a spare byte and a short buffer", stack([B]) + b"\0", 833),
    Case("order-11-bottom", "the bottom corner of tier 1", stack([B], [rod(1, BOTTOM)])),
    Case("order-12-anew", "the closed end's order starts anew", stack([B, B], [rod(2)], [rod()])),
    Case("longest", "the longest sheet, 451 bytes", stack([B] * 10, rods(8), rods(8))),
    Case("longest-and-one", "a byte more", stack([B] * 10, rods(8), rods(8)) + b"\0"),
]

PULLED_UP = box(a_t=1_000, a_vmin=0)
KILONEWTONS = [
    Case("kn-lash", "24,600 N are 24 kN: its pull of 24,233 N is a finding", stack([B], [rod(breaking=41_082)])),
    Case("kn-lock", "50,900 N are 50 kN", stack([PULLED_UP], lock_material=0, lock_breaking=101_800)),
    Case("kn-reached", "41,750 N are 25 kN at factor 1.67", stack([B], [rod(breaking=41_750)])),
    Case("kn-one-newton-less", "41,749 N are 24 kN", stack([B], [rod(breaking=41_749)])),
    Case("kn-none", "1,669 N are less than one", stack([box(mass=500)], [rod(breaking=1_669)])),
    Case(
        "kn-no-lock",
        "1,999 N at factor 2 are less than one",
        stack([replace(PULLED_UP, mass=200)], lock_material=0, lock_breaking=1_999),
    ),
    Case(
        "kn-table-2-3",
        "the limits of CR Table 2-3 stay",
        stack([box(a_t=1_200, a_vmin=0)] * 2, [rod(2)], [rod(2)]),
    ),
]

TURNED_B = box(wind=2)
TURNED = [
    Case("turned-d", "B turned with S at level 1", stack([TURNED_B], [rod()], [rod()])),
    Case("turned-mixture", "B turned below, a light box above", stack([TURNED_B, box(mass=2_000)], [rod(2)], [rod(2)])),
    Case("turned-upper", "the light box turned", stack([B, box(mass=2_000, wind=2)], [rod(2)], [rod(2)])),
    Case("turned-exposed", "wind on turned boxes", stack([box(wind=3), box(wind=3)], [rod()], [rod()])),
    Case(
        "turned-eight-high",
        "every other box turned",
        stack([replace(tier, wind=1 + 2 * (i % 2)) for i, tier in enumerate(EIGHT_HIGH)], rods(4), rods(4)),
    ),
    Case("wind-3", "the greatest wind byte", stack([B, box(wind=3)])),
    Case("wind-4", "one more", stack([B, box(wind=4)])),
    Case("wind-255", "the greatest number of a byte", stack([B, box(wind=255)])),
]

# Two boxes of great transverse force, and two stiff rods an end: a millimetre of their lengths shows.
PUSHED = [box(mass=30_480, a_t=1_500)] * 2


def of_sides(lx, ly, lz):
    rods_up = [rod(tier, lx=lx, ly=ly, lz=lz, area=1_000, modulus=200_000) for tier in (1, 2)]
    return stack(PUSHED, rods_up, rods_up)


LENGTHS = [
    Case("length-shortest", "LX 0, LY 500, LZ 500: L is 708", of_sides(0, 500, 500)),
    Case("length-longest", "LX 5,000, LY 10,000, LZ 20,000: L is 22,913", of_sides(5_000, 10_000, 20_000)),
    Case("length-square", "(h): the squares add up to 3,250²", of_sides(0, 1_950, 2_600)),
    Case("length-past-square", "(h) with LX 1: L is 3,251", of_sides(1, 1_950, 2_600)),
    Case("length-before-square", "one less than 3,375²: L is 3,375", of_sides(1_068, 2_000, 2_500)),
    Case("length-lx", "LX is the longest side: L is 5,917", of_sides(5_000, 3_000, 1_000)),
    Case("length-ly", "LY is the longest side: L is 9,696", of_sides(3_000, 9_000, 2_000)),
]



def of_stiffness(tier, sides, area, modulus):
    return rod(tier, lx=sides[0], ly=sides[1], lz=sides[2], area=area, modulus=modulus)


# Lashes whose stiffness in 2^-22 N/mm the check finds by divisions, since a quotient of doubles, less a half and to the nearest whole
# number, is not the quotient rounded down: of an odd one without remainder it is one too small (lengths of 2,560, 7,680, 2,560 and
# 17,408 mm), so too with a fraction under 0.000003, and with one over 0.9999998 one too great. tests/test_stiffness.py holds them to that.
STIFFNESSES = [
    Case(
        "stiffness-whole",
        "stiffnesses that are odd whole numbers of 2^-22 N/mm",
        stack(
            PUSHED,
            [of_stiffness(1, (191, 1_050, 2_326), 490, 97_100), of_stiffness(2, (260, 1_917, 7_432), 380, 176_600)],
            [of_stiffness(1, (628, 2_026, 1_433), 1_000, 97_495), of_stiffness(2, (2_999, 2_533, 16_959), 544, 85_848)],
        ),
    ),
    Case(
        "stiffness-near-whole",
        "just above a whole number, and at the closed end just below",
        stack(
            PUSHED,
            [of_stiffness(1, (817, 5_095, 1_606), 964, 188_956), of_stiffness(2, (1_698, 7_631, 7_596), 660, 177_934)],
            [of_stiffness(1, (127, 802, 1_000), 380, 97_100)],
        ),
    ),
]

# Six boxes, the upper five light and in the wind, and a side lash at level 1.
IN_THE_WIND = [
    box(mass=m, wind=w, a_t=250, a_vmax=1_200, a_vmin=950)
    for m, w in ((28_000, 0), (9_000, 1), (8_000, 1), (6_000, 1), (4_000, 1), (3_000, 1))
]
OUTWARD = {"kind": SIDE, "ly": 1_500, "lz": 2_500, "area": 707, "modulus": 97_000}
# Three high boxes, the upper one heavy.
TOP_HEAVY = [box(height=2_896, mass=m, a_t=1_000, a_vmin=100) for m in (2_000, 2_000, 28_000)]
STIFF = {"kind": SIDE, "material": 0, "area": 1_000, "modulus": 200_000}
LIFTING = box(a_vmin=0)
PULLING_BACK = [rod(2, kind=SIDE), rod(2, BOTTOM, area=50)]
ON_BOTTOMS = [rod(t, BOTTOM, k, area=50) for t in range(2, 6) for k in (CROSS, SIDE)]

HOOKED = [
    Case("hooked-nowhere", "corners and locks bear too much at the deck, corners at level 1 too", stack(IN_THE_WIND)),
    Case(
        "hooked-top",
        "a side lash on the lower box does not relieve level 1",
        stack(IN_THE_WIND, [rod(1, TOP, **OUTWARD)], [rod(1, TOP, **OUTWARD)]),
    ),
    Case(
        "hooked-bottom",
        "the same lash on the upper box does, and the stack is accepted",
        stack(IN_THE_WIND, [rod(2, BOTTOM, **OUTWARD)], [rod(2, BOTTOM, **OUTWARD)]),
    ),
    Case(
        "hooked-side",
        "a level's bottom hook counts in its tension",
        stack([B, LIFTING], [rod(2, BOTTOM, SIDE)], [rod(2, BOTTOM, SIDE)]),
    ),
    Case(
        "hooked-cross",
        "so does that of a cross lash, where the lee post lifts",
        stack([B, box(mass=2_000, a_vmin=0)], PULLING_BACK, PULLING_BACK),
    ),
    Case(
        "hooked-under",
        "it does not count in the tension one level up",
        stack([B, LIFTING, LIFTING], [rod(2, BOTTOM, SIDE, area=50)], [rod(2, BOTTOM, SIDE, area=50)]),
    ),
    Case("hooked-heavy-top", "a side lash on the lowest box", stack(TOP_HEAVY, [rod(1, TOP, **STIFF)], [rod(1, TOP, **STIFF)])),
    Case("hooked-heavy-bottom", "on the box above it", stack(TOP_HEAVY, [rod(2, BOTTOM, **STIFF)], [rod(2, BOTTOM, **STIFF)])),
    Case("hooked-each-level", "bottom hooks at levels 1 to 4", stack([LIFTING] * 5, ON_BOTTOMS, ON_BOTTOMS)),
]

FLEET = [
    Case("fleet-a-c", "(a) and (c) by rule 2: B alone", stack([B], rule=2)),
    Case("fleet-b", "(b) by rule 2: two B", stack([B, B], rule=2)),
    Case("fleet-d", "(d) by rule 2: B with S at level 1", stack([B], [rod()], [rod()], rule=2)),
    Case("fleet-e", "(e) by rule 2: a light box pulled back", stack([B, box(mass=2_000)], [rod(2)], rule=2)),
    Case("fleet-wind", "the wind stays half and half", stack([box(wind=1), box(wind=1)], rule=2)),
    Case("fleet-eight-high", "wind, four rods an end, by rule 2", stack(EIGHT_HIGH, rods(4), rods(4), rule=2)),
    Case(
        "fleet-turned",
        "by rule 2, every other box turned, on a route",
        stack([replace(tier, wind=2 * (i % 2)) for i, tier in enumerate(EIGHT_HIGH)], rods(4), rods(4), rule=2, route=7),
    ),
    Case("rule-0", "no rule has number 0", stack([B], rule=0)),
    Case("rule-3", "nor 3", stack([B], rule=3)),
    Case("rule-255", "nor the greatest number of a byte", stack([B], rule=255)),
]

# Five light boxes in the wind pull at the deck alone beyond 200,000 N: by more than 251,000 N, or by less than 249,000 N.
LIFTED = [box(mass=4_000, wind=1, a_t=300, a_vmax=1_200, a_vmin=900)] * 5
LIFTED_LESS = [box(mass=5_000, wind=1, a_t=120, a_vmax=1_200, a_vmin=900)] * 5


def on_locks(tiers, breaking):
    """A stack on locks of ordinary steel, factor 2."""
    return stack(tiers, lock_material=0, lock_breaking=breaking)


PULLS = [
    Case("pull-lock-lower", "over corner and lock, of 249,000 N: the lock is named", on_locks(LIFTED, 499_999)),
    Case("pull-equal", "over both of 250,000 N: the corner is named", on_locks(LIFTED, 500_000)),
    Case("pull-equal-most", "the last breaking load of that safe load", on_locks(LIFTED, 501_999)),
    Case("pull-corner-lower", "over corner and lock, of 251,000 N: the corner is named", on_locks(LIFTED, 502_000)),
    Case("pull-corner-alone", "over the corner alone", on_locks(LIFTED, 600_000)),
    Case("pull-lock-alone", "over the lock alone", on_locks(LIFTED_LESS, 400_000)),
    Case("pull-neither", "over neither", on_locks(LIFTED_LESS, 500_000)),
]

# B over a light box and over a heavier one, with S at level 2 of the closed end alone.
OVER_LIGHT, OVER_HEAVY = (stack([box(mass=mass), B], closed=[rod(2)]) for mass in (2_000, 10_000))
HEAVIER = [
    Case("heavier-before", "B over 2,000 kg, held by S at the closed end", OVER_LIGHT),
    Case("heavier-after", "over 10,000 kg: racking of tier 2 there and tension at the door end are lower", OVER_HEAVY),
]

CASES = RUN_BY_A_PROGRAM + FIGURES + SLIPS + ORDER + KILONEWTONS + TURNED + LENGTHS + STIFFNESSES + HOOKED + FLEET + PULLS + HEAVIER


def reported_range(kind, force):
    """The first and last whole number that may be reported, and whether its sign is open."""
    least = ceil(abs(force))
    most = least + MARGIN - 1
    if kind == "racking" and force < 0:
        return -most, -least, -force < MARGIN
    return least, most, kind == "racking" and force < MARGIN


def force_lines(ends):
    for index, end in enumerate(ends):
        for kind, where, force in figures(end):
            least, most, either = reported_range(kind, force)
            place = where.split()[1]
            text = f"{index} {kind.replace(' ', '-')} {place} exact {force} reported {least} to {most}"
            yield text + (" either" if either else "")


def stands(check):
    """Whether every right answer has a finding there; None where it hangs on the last 100 N."""
    if check.size > check.limit:
        return True
    return None if ceil(check.size) + MARGIN - 1 > check.limit else False


def may_be_named(sheet, ends):
    """The limits that a right answer may name. What exceeds the higher of two limits exceeds the lower, whatever the last 100 N are."""
    return named([check for check in checks(sheet, ends) if stands(check) is not False])


def finding_lines(sheet, ends):
    """Findings that stand whatever the last 100 N are, those that hang on them, and the verdict."""
    seen = set()
    for check in may_be_named(sheet, ends):
        seen.add(stands(check))
        yield f"{'finding' if stands(check) else 'open'} {check.end} {check.kind} {check.index}"
    yield f"verdict {1 if True in seen else 'open' if None in seen else 0}"


def case_lines(case):
    yield from (f"case {case.name}", f"why {case.why}", f"room {case.room}", f"sheet {case.data.hex()}")
    try:
        sheet = parse(case.data, case.room)
    except Refused as refused:
        yield f"refused {refused}"
        return
    ends = exact(sheet)
    yield "taken"
    yield from force_lines(ends)
    yield from finding_lines(sheet, ends)


def main():
    for case in CASES:
        print("\n".join(case_lines(case)), end="\n\n")


if __name__ == "__main__":
    finish(main)
