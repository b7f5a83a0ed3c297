"""Shows that the comparison passes a right check and catches each wrong one.

The check tried here is in floating point and takes another road than the fractions: refusals as a
table of rows, shifts from the top down, moments from the rackings. Each slip changes one thing of it.
"""

import contextlib
import math
import struct
import subprocess
import sys
import tempfile
import unittest
from fractions import Fraction
from pathlib import Path
from typing import NamedTuple

from reference.cases import CASES, FLEET, HOOKED, KILONEWTONS, LENGTHS as LENGTH_CASES, PULLS, SLIPS, TURNED
from reference.faults import EDGES
from reference.judge import KEPT, MARGIN, expected, figure_fault, judge
from reference.making import KINDS, make
from reference.samples import BOTTOM_HOOKS, LENGTHS, PULLS_ABOUT, bottom_hooks, kinds_of_sides, length_kinds, pulls_about
from reference.stack import exact
from sheets.answer import read_answer
from sheets.limits import HIGHER_STRENGTH
from sheets.sheet import ANSWER_ROOM, CLOSED, CROSS, DOOR, SIDE, Refused, parse

ROOT = Path(__file__).resolve().parent.parent


def seeds(kind, turns):
    return [turn * len(KINDS) + list(KINDS).index(kind) for turn in turns]


# Some of every kind, then all edges.
SEEDS = [*range(1, 151), *seeds("edge", range(25, len(EDGES)))]
NEAR_SEEDS = seeds("near a limit", range(40))
LENGTH_SEEDS = seeds("by length", range(60))


def number(data, place, size):
    return int.from_bytes(data[place : place + size], "little")


def within(data, place, sizes_and_limits):
    """Whether the fields from a place on lie within their limits."""
    for size, least, greatest in sizes_and_limits:
        if not least <= number(data, place, size) <= greatest:
            return False
        place += size
    return True


class Rod(NamedTuple):
    """A lash, as the floating point has it."""

    tier: int
    hook: int
    level: int
    kind: int
    stiffness: float
    along: float  # L / LY
    upward: float  # LZ / LY
    breaking: int
    material: int


class StandIn:
    """The check in floating point, with a method or a value for each thing that a slip changes."""

    # Refusals

    most_bytes = 452
    tests = staticmethod(list)
    rules = (1, 2)
    heights = {20: (2438, 2591), 40: (2591, 2896)}
    greatest_wind = 3
    greatest_mass = 30_480
    greatest_a_vmin = 1_000
    most_tiers = 10
    most_lashes = 8
    anew_at_closed_end = True
    refusal_text = "{} {}\n"

    def short(self, data, place):
        return 1, len(data)

    def in_order(self, lash, before):
        return lash > before

    def bad_tier(self, data, place):
        size, wind = data[place], data[place + 1]
        height, _, _, a_vmax, a_vmin = struct.unpack_from("<5H", data, place + 2)
        limits = ((2, 1, self.greatest_mass), (2, 0, 1500), (2, 0, 3000), (2, 0, self.greatest_a_vmin))
        fits = size in self.heights and height in self.heights[size] and wind <= self.greatest_wind
        return not (fits and within(data, place + 4, limits) and a_vmin <= a_vmax)

    def bad_lash(self, data, place):
        codes = ((1, 0, 1), (1, 0, 1), (1, 0, 3))
        sides = ((2, 0, 5000), (2, 500, 10000), (2, 500, 20000))
        gear = ((2, 50, 1000), (4, 10000, 200000), (4, 1, 2000000))
        return not within(data, place + 1, codes + sides + gear)

    def head_tests(self, data):
        lock = data[2] > 2 or not 1 <= number(data, 4, 4) <= 2_000_000
        return [(3, 0, data[0] not in self.rules or data[3] != 0), (4, 1, data[1] > 12), (5, 2, lock)]

    def tier_tests(self, data, place):
        return [(7, place, self.bad_tier(data, place)), (8, place, data[place] != data[9])]

    def lash_tests(self, data, place, before):
        tier, hook = data[place], data[place + 1]
        late = before is None or self.in_order(data[place : place + 3], before)
        nowhere = not 1 <= tier <= data[8] or (tier, hook) == (1, 1)
        return [(10, place, self.bad_lash(data, place)), (11, place, nowhere), (12, place, not late)]

    def items(self, data):
        """(place, size, its tests) in reading order; a test is number, second number, fault."""
        yield 0, 8, lambda: self.head_tests(data)
        yield 8, 1, lambda: [(6, 8, not 1 <= data[8] <= self.most_tiers)]
        place, before = 9, None
        for _ in range(data[8]):
            yield place, 12, lambda: self.tier_tests(data, place)
            place += 12
        for _ in range(2):
            yield place, 1, lambda: [(9, place, data[place] > self.most_lashes)]
            count, place = data[place], place + 1
            before = None if self.anew_at_closed_end else before
            for _ in range(count):
                yield place, 20, lambda: self.lash_tests(data, place, before)
                before, place = data[place : place + 3], place + 20
        yield place, 0, lambda: [(2, place, len(data) > place)]

    def refusal(self, data):
        for place, size, tests in self.items(data):
            if place + size > len(data):
                return self.short(data, place)
            for number_, second, fault in self.tests(tests()):
                if fault:
                    return number_, second
        return None

    # Forces

    shares = {1: 0.45, 2: 0.5}  # by rule: of F on its own top
    centres = {1: 0.45, 2: 0.5}  # and the height of F as a part of the box's
    wind_shares = {1: 0.5, 2: 0.5}  # the same of the wind
    wind_centres = {1: 0.5, 2: 0.5}
    spacing = 2259
    springs = (3730, 15690)
    turned_ends = (0, 1)  # where a turned box shows its other spring
    posts = (0, 1)  # the kind of lash on the lee post and on the windward post
    route_on_vertical = False
    route_on_wind = False
    percents = (100, 87, 96, 95, 94, 100, 95, 73, 86, 90, 90, 73, 87)

    def exposed(self, wind):
        return wind & 1

    def turned(self, wind):
        return wind >> 1

    def end_springs(self, data, end):
        """K of each tier at an end."""
        turned = [end in self.turned_ends and self.turned(data[10 + 12 * tier]) for tier in range(data[8])]
        return [self.springs[end ^ 1 if each else end] for each in turned]

    def level(self, tier, hook):
        return tier - hook

    def length(self, lx, ly, lz):
        return math.ceil(math.sqrt(lx * lx + ly * ly + lz * lz))

    # How often a lash's vertical part counts at a level. In tension a top hook of tier i counts below level i, a bottom hook
    # of it, which lies at level i-1, there and below: both where the tier's number is above the level's.

    def counts_in_compression(self, lash, level):
        return lash.level >= level

    def counts_in_tension(self, lash, level):
        return lash.tier > level

    def by_rule(self, table, data):
        return table.get(data[0], 0.5)

    def shared(self, data, height, pushed, pressed):
        """What F and P put on the box's top and on its bottom, and what of their moment about its bottom is not the top's."""
        forces = ((pushed, self.shares, self.centres), (pressed, self.wind_shares, self.wind_centres))
        top = sum(force * self.by_rule(shares, data) for force, shares, _ in forces)
        moment = sum(force * height * self.by_rule(centres, data) for force, _, centres in forces)
        return top, pushed + pressed - top, moment - top * height

    def loads(self, data):
        """(height, load on its top, on its bottom, moment that is not the top's, A_Vmax part, A_Vmin part) of each tier."""
        factor = self.percents[data[1]] / 100
        found = []
        for tier in range(data[8]):
            size, wind, height, mass, *a = struct.unpack_from("<BBHHHHH", data, 9 + 12 * tier)
            half_weight = mass * 9.81 / 2
            pressed = self.exposed(wind) * 1080e-6 / 2 * {20: 6058, 40: 12192}[size] * height
            pressed *= factor if self.route_on_wind else 1
            half_up = half_weight / 1000 * (factor if self.route_on_vertical else 1)
            pushed = half_weight * a[0] / 1000 * factor
            found.append((height, *self.shared(data, height, pushed, pressed), half_up * a[1], half_up * a[2]))
        return found

    def lashes(self, data):
        """The lashes of each end."""
        place, ends = 9 + 12 * data[8], []
        for _ in range(2):
            count, place, found = data[place], place + 1, []
            for _ in range(count):
                tier, hook, kind, material, lx, ly, lz, area, modulus, breaking = struct.unpack_from(
                    "<BBBBHHHHII", data, place
                )
                length = self.length(lx, ly, lz)
                stiffness = modulus * area * ly**2 / length**3
                level = self.level(tier, hook)
                found.append(Rod(tier, hook, level, kind, stiffness, length / ly, lz / ly, breaking, material))
                place += 20
            ends.append(found)
        return ends

    def shifts(self, loads, lashes, springs):
        """Shifts of levels 0 to n: each level's stiffness and load handed down, then upward again."""
        count = len(loads)
        own = [sum(lash.stiffness for lash in lashes if lash.level == level) for level in range(count + 1)]
        pull = [0.0] * (count + 1)
        for level in range(1, count + 1):
            _, top, bottom, *_ = loads[level - 1]
            pull[level] += top
            pull[level - 1] += bottom
        for level in range(count, 0, -1):
            part = springs[level - 1] / (springs[level - 1] + own[level])
            own[level - 1] += part * own[level]
            pull[level - 1] += part * pull[level]
        shift = [0.0]
        for level, spring in enumerate(springs, 1):
            shift.append((pull[level] + spring * shift[-1]) / (spring + own[level]))
        return shift

    def racking(self, shift, springs):
        return [spring * (b - a) for spring, a, b in zip(springs, shift, shift[1:])]

    def post(self, level, loads, racking, lashes, parts, field, counted):
        """The lee and the windward sum at a level."""
        half_v = sum(load[field] for load in loads[level:]) / 2
        pair = sum(load[0] * r + load[3] for load, r in zip(loads[level:], racking[level:])) / self.spacing
        lee, windward = (
            sum(v * counted(lash, level) for lash, v in zip(lashes, parts) if lash.kind == kind)
            for kind in self.posts
        )
        return half_v + pair + lee, half_v - pair + windward

    def end(self, loads, lashes, springs):
        """Racking, compression, tension and lash forces of one end."""
        count = len(loads)
        shift = self.shifts(loads, lashes, springs)
        racking = self.racking(shift, springs)
        athwart = [lash.stiffness * shift[lash.level] for lash in lashes]
        parts = [a * lash.upward for a, lash in zip(athwart, lashes)]
        given = (loads, racking, lashes, parts)
        pressed = [max(0, *self.post(j, *given, 4, self.counts_in_compression)) for j in range(count + 1)]
        pulled = [max(0, -min(self.post(j, *given, 5, self.counts_in_tension))) for j in range(count)]
        forces = [(a * lash.along, a, v) for a, lash, v in zip(athwart, lashes, parts)]
        return racking, pressed, pulled, forces

    # Answer

    pad = 0.5
    rounded = staticmethod(math.ceil)
    limits = {1: 150_000, 2: 848_000, 3: 250_000, 6: 300_000, 7: 150_000}
    racking_size = staticmethod(abs)
    more = {}  # newtons more on a kind's limit
    first_compression = 1
    first_lash = 0
    strong = (1,)  # materials of factor 1.67
    little = "<"
    tail = b""
    verdict_of = staticmethod(bool)
    listed = staticmethod(list)

    def exceeds(self, size, limit):
        return size > limit

    def figure(self, force):
        size = self.rounded(abs(force) + self.pad)
        return size if force >= 0 else -size

    def safe(self, breaking, material):
        return breaking * 100 // 167 if material in self.strong else breaking // 2

    def whole_kilonewtons(self, load):
        return load - load % 1_000

    safe_lock = safe_lash = whole_kilonewtons

    def named_of_both(self, corner, lock):
        """The kinds named at a level where corner and lock are both exceeded."""
        return (4,) if lock < corner else (3,)

    def findings(self, data, lashes, ends):
        lock = self.safe_lock(self.safe(number(data, 4, 4), data[2]))
        for end, (racking, pressed, pulled, forces) in enumerate(ends):
            sizes = {kind: [] for kind in range(1, 8)}
            sizes[1] = [(i, self.racking_size(r), self.limits[1]) for i, r in enumerate(racking, 1)]
            sizes[2] = [(i, c, self.limits[2]) for i, c in enumerate(pressed)][self.first_compression :]
            sizes[3] = [(i, t, self.limits[3]) for i, t in enumerate(pulled)]
            sizes[4] = [(i, t, lock) for i, t in enumerate(pulled)]
            pairs = zip(forces, lashes[end])
            for i, ((tension, athwart, vertical), lash) in enumerate(pairs, self.first_lash):
                sizes[5].append((i, tension, self.safe_lash(self.safe(lash.breaking, lash.material))))
                sizes[6].append((i, vertical, self.limits[6]))
                sizes[7].append((i, athwart, self.limits[7]))
            over = [
                (kind, index)
                for kind, rows in sizes.items()
                for index, size, limit in rows
                if self.exceeds(size, limit + self.more.get(kind, 0))
            ]
            kinds = self.named_of_both(self.limits[3] + self.more.get(3, 0), lock + self.more.get(4, 0))
            for kind, index in over:
                if kind not in (3, 4) or (7 - kind, index) not in over or kind in kinds:
                    yield end, kind, index

    def __call__(self, data):
        data = data[: self.most_bytes]
        refusal = self.refusal(data)
        if refusal:
            return self.refusal_text.format(*refusal).encode()
        loads, lashes = self.loads(data), self.lashes(data)
        ends = []
        for end, own in enumerate(lashes):
            *lists, forces = self.end(loads, own, self.end_springs(data, end))
            figures = [[self.figure(force) for force in forces_] for forces_ in lists]
            ends.append((*figures, [tuple(self.figure(force) for force in row) for row in forces]))
        findings = self.listed(self.findings(data, lashes, ends))
        return self.encoded(ends, findings)

    def encoded(self, ends, findings):
        data = bytes([self.verdict_of(findings)])
        for racking, pressed, pulled, forces in ends:
            for figures, code in ((racking, "i"), (pressed, "I"), (pulled, "I")):
                data += struct.pack(f"{self.little}B{len(figures)}{code}", len(figures), *figures)
            data += bytes([len(forces)])
            data += b"".join(struct.pack(f"{self.little}3I", *row) for row in forces)
        return data + bytes([len(findings)]) + b"".join(map(bytes, findings)) + self.tail


def nearest(force):
    return math.floor(force + 0.5)


def copied_upward(self, shift, springs):
    return [springs[0] * shift[1]] * (len(shift) - 1)


def only_bottom_hooks_of(kind):
    """In tension, of a level's bottom hooks those of one kind of lash alone."""
    return lambda self, rod, level: rod.level > level or (rod.tier > level and rod.kind == kind)


def bottom_hooks_twice(counts):
    """A level's bottom hooks counted once more."""
    return lambda self, rod, level: counts(self, rod, level) + (rod.level == level and rod.hook)


@staticmethod
def by_kind(findings):
    return sorted(findings, key=lambda found: found[1:])


def gear(whole):
    """A slip in how the safe working loads of locks and lashes are rounded."""
    return {"safe_lock": staticmethod(whole), "safe_lash": staticmethod(whole)}


def newtons(load):
    return load


def two_limits(names):
    """A slip in which of the corner's and the lock's limit is named."""
    return {"named_of_both": lambda self, corner, lock: names(corner, lock)}


BY_45, BY_HALF, EXCHANGED = {1: 0.45, 2: 0.45}, {1: 0.5, 2: 0.5}, {1: 0.5, 2: 0.45}

# A slip: what it changes, and how the fault that it makes begins.
SLIPS_CAUGHT = {
    "rounded to nearest": ({"rounded": staticmethod(nearest), "pad": 0}, "below"),
    "rounded down": ({"rounded": staticmethod(math.floor), "pad": 0}, "below"),
    "every figure 100 N up": ({"pad": 100}, "100 N or more"),
    "finding to leeward only": ({"racking_size": lambda s, r: r}, "findings"),
    "racking without its sign": ({"figure": lambda s, f: abs(StandIn.figure(s, f))}, "wrong sign"),
    "vertical part on the wrong post": ({"posts": (1, 0)}, ""),
    "both kinds on the lee post": ({"posts": (0, 9)}, ""),
    "own top hooks in tension": ({"counts_in_tension": lambda s, rod, level: rod.level >= level}, "below"),
    "own lashes not in compression": ({"counts_in_compression": lambda s, rod, level: rod.level > level}, "below"),
    "own bottom hooks not in tension": ({"counts_in_tension": lambda s, rod, level: rod.level > level}, "100 N or more"),
    "only side bottom hooks in tension": ({"counts_in_tension": only_bottom_hooks_of(1)}, "100 N or more"),
    "only cross bottom hooks in tension": ({"counts_in_tension": only_bottom_hooks_of(0)}, "100 N or more"),
    "bottom hook one level too high": ({"counts_in_tension": lambda s, rod, level: rod.tier + rod.hook > level}, "below"),
    "bottom hooks twice in tension": ({"counts_in_tension": bottom_hooks_twice(StandIn.counts_in_tension)}, "below"),
    "bottom hooks twice in compression": ({"counts_in_compression": bottom_hooks_twice(StandIn.counts_in_compression)}, ""),
    "own bottom hooks not in compression": ({"counts_in_compression": lambda s, rod, level: rod.level - rod.hook >= level}, "below"),
    "route on A_Vmax": ({"route_on_vertical": True}, ""),
    "route on wind": ({"route_on_wind": True}, "below"),
    "lowest tier copied upward": ({"racking": copied_upward}, ""),
    "door spring at both ends": ({"springs": (3730, 3730)}, ""),
    "ends exchanged": ({"springs": (15690, 3730)}, ""),
    "turned boxes as the others": ({"turned_ends": ()}, ""),
    "turned at the door end only": ({"turned_ends": (0,)}, ""),
    "turned at the closed end only": ({"turned_ends": (1,)}, ""),
    "turn read from the wrong bit": ({"turned": lambda s, wind: wind & 1}, ""),
    "wind lost on a turned box": ({"exposed": lambda s, wind: wind == 1}, "below"),
    "wind twice on a turned box": ({"exposed": lambda s, wind: wind}, "100 N or more"),
    "7 from wind 3 on": ({"greatest_wind": 2}, "refusal"),
    "7 from wind 5 on": ({"greatest_wind": 4}, "refusal"),
    "centre at half height": ({"shares": BY_HALF, "centres": BY_HALF}, ""),
    "rule 2 as rule 1": ({"shares": BY_45, "centres": BY_45}, ""),
    "rules exchanged": ({"shares": EXCHANGED, "centres": EXCHANGED}, ""),
    "share of rule 2 in Q but not in M": ({"centres": BY_45}, ""),
    "share of rule 2 in M but not in Q": ({"shares": BY_45}, ""),
    "share of the wind by the rule": ({"wind_shares": StandIn.shares, "wind_centres": StandIn.centres}, ""),
    "wind by rule 2 as F by rule 1": ({"wind_shares": {1: 0.5, 2: 0.45}, "wind_centres": {1: 0.5, 2: 0.45}}, ""),
    "share of the wind by the rule, not its height": ({"wind_shares": StandIn.shares}, ""),
    "height of the wind by the rule, not its share": ({"wind_centres": StandIn.centres}, ""),
    "rule 3 taken": ({"rules": (1, 2, 3)}, "refusal"),
    "rule 0 taken": ({"rules": (0, 1, 2)}, "refusal"),
    "rule 2 refused": ({"rules": (1,)}, "refusal"),
    "rule 1 refused": ({"rules": (2,)}, "refusal"),
    "any rule but 0 taken": ({"rules": range(1, 256)}, "refusal"),
    "spacing of the width": ({"spacing": 2438}, "below"),
    "length rounded down": ({"length": lambda s, *sides: math.isqrt(sum(x * x for x in sides))}, ""),
    "length one long": ({"length": lambda s, *sides: StandIn.length(s, *sides) + 1}, ""),
    "length one short": ({"length": lambda s, *sides: StandIn.length(s, *sides) - 1}, ""),
    "a square's length one long": ({"length": lambda s, *sides: math.isqrt(sum(x * x for x in sides)) + 1}, ""),
    "short LX left out": ({"length": lambda s, x, y, z: StandIn.length(s, x if x > 400 else 0, y, z)}, ""),
    "bottom hook one level up": ({"level": lambda s, tier, hook: tier}, ""),
    "percent of route 2": ({"percents": (100, 87, 95, 95, 94, 100, 95, 73, 86, 90, 90, 73, 87)}, "below"),
    "limit itself a finding": ({"exceeds": lambda s, size, limit: size >= limit}, "findings"),
    "level 0 in the findings": ({"first_compression": 0}, "findings"),
    "lashes counted from 1": ({"first_lash": 1}, "findings"),
    "factor 1.67 for wire": ({"strong": (1, 2)}, "findings"),
    "factor 2 throughout": ({"strong": ()}, "findings"),
    "safe loads in newtons": (gear(newtons), "findings"),
    "only lashes in kilonewtons": ({"safe_lock": staticmethod(newtons)}, "findings"),
    "only the lock in kilonewtons": ({"safe_lash": staticmethod(newtons)}, "findings"),
    "safe loads rounded up": (gear(lambda load: -(-load // 1_000) * 1_000), "findings"),
    "safe loads to the nearest": (gear(lambda load: (load + 500) // 1_000 * 1_000), "findings"),
    "a kilonewton at least": (gear(lambda load: max(1_000, load - load % 1_000)), "findings"),
    "Table 2-3 by the factor": ({"limits": {k: v // 2_000 * 1_000 for k, v in StandIn.limits.items()}}, "findings"),
    "the higher limit named": (two_limits(lambda corner, lock: (4,) if lock > corner else (3,)), "findings"),
    "the lock named when equal": (two_limits(lambda corner, lock: (4,) if lock <= corner else (3,)), "findings"),
    "both limits named": (two_limits(lambda corner, lock: (3, 4)), "findings"),
    "neither limit named": (two_limits(lambda corner, lock: ()), "findings"),
    "the corner always named": (two_limits(lambda corner, lock: (3,)), "findings"),
    "the lock always named": (two_limits(lambda corner, lock: (4,)), "findings"),
    "findings by kind, then end": ({"listed": by_kind}, "findings"),
    "no findings": ({"listed": lambda s, found: []}, "findings"),
    "every stack flagged": ({"verdict_of": lambda s, found: 1}, "verdict"),
    "verdict turned": ({"verdict_of": lambda s, found: not found}, "verdict"),
    "byte order": ({"little": ">"}, ""),
    "a line end after the answer": ({"tail": b"\n"}, "layout"),
    "a fixed answer": ({"encoded": lambda s, ends, found: bytes(11)}, "layout"),
    "refusal without a line end": ({"refusal_text": "{} {}"}, "refusal"),
    "refusal numbers exchanged": ({"refusal_text": "{1} {0}\n"}, "refusal"),
    "1 with the place": ({"short": lambda s, data, place: (1, place)}, "refusal"),
    "tests in falling order": ({"tests": lambda s, found: found[::-1]}, "refusal"),
    "equal lashes in order": ({"in_order": lambda s, a, b: a >= b}, "refusal"),
    "kind left out of the order": ({"in_order": lambda s, a, b: a[:2] > b[:2]}, "refusal"),
    "order goes on at the closed end": ({"anew_at_closed_end": False}, "refusal"),
    "eleven tiers": ({"most_tiers": 11}, "refusal"),
    "nine lashes": ({"most_lashes": 9}, ""),
    "mass 30,481": ({"greatest_mass": 30_481}, "refusal"),
    "A_Vmin 1,001": ({"greatest_a_vmin": 1_001}, "refusal"),
    "heights of both sizes": ({"heights": {20: (2438, 2591, 2896), 40: (2438, 2591, 2896)}}, ""),
    "only 451 bytes read": ({"most_bytes": 451}, "refusal"),
    "every sheet turned back": ({"refusal": lambda s, data: (13, 834)}, ""),
}

# Which of document 01's plausible slips each named case shows.
SHOWN_BY = {
    "slip-nearest": "rounded to nearest",
    "slip-windward": "finding to leeward only",
    "slip-cross-post": "vertical part on the wrong post",
    "slip-side-post": "vertical part on the wrong post",
    "slip-own-top-hook": "own top hooks in tension",
    "slip-route-vertical": "route on A_Vmax",
    "slip-route-tension": "route on A_Vmax",
    "slip-route-wind": "route on wind",
    "slip-copied-tier": "lowest tier copied upward",
    "slip-every-kind": "no findings",
}

# And which slips of 02's safe loads in whole kilonewtons,
KILONEWTONS_SHOW = {
    "kn-lash": ("safe loads in newtons", "only the lock in kilonewtons", "safe loads to the nearest"),
    "kn-lock": ("safe loads in newtons", "only lashes in kilonewtons", "safe loads rounded up"),
    "kn-reached": (),
    "kn-one-newton-less": ("safe loads in newtons", "safe loads rounded up"),
    "kn-none": ("a kilonewton at least",),
    "kn-no-lock": ("a kilonewton at least",),
    "kn-table-2-3": ("Table 2-3 by the factor",),
}

# of its turned boxes,
TURNED_SHOWS = {
    "turned-d": ("turned boxes as the others", "turned at the door end only", "turned at the closed end only"),
    "turned-mixture": ("turned at the door end only", "turned at the closed end only", "turn read from the wrong bit"),
    "turned-upper": ("turned at the door end only", "turned at the closed end only", "turn read from the wrong bit"),
    "turned-exposed": ("wind lost on a turned box", "wind twice on a turned box"),
    "turned-eight-high": ("turned at the door end only", "wind lost on a turned box"),
    "wind-3": ("7 from wind 3 on",),
    "wind-4": ("7 from wind 5 on",),
    "wind-255": (),
}

# of its lash lengths,
BY_A_MILLIMETRE = ("length one long", "length one short")
LENGTHS_SHOW = {case.name: BY_A_MILLIMETRE for case in LENGTH_CASES} | {
    "length-square": (*BY_A_MILLIMETRE, "a square's length one long"),
    "length-past-square": (*BY_A_MILLIMETRE, "length rounded down"),
    "length-before-square": (*BY_A_MILLIMETRE, "length rounded down"),
}

# of its bottom hooks,
HOOKED_SHOWS = {
    "hooked-nowhere": (),
    "hooked-top": ("own top hooks in tension",),
    "hooked-bottom": ("own bottom hooks not in tension", "only cross bottom hooks in tension", "bottom hook one level too high"),
    "hooked-side": ("own bottom hooks not in tension", "only cross bottom hooks in tension"),
    "hooked-cross": ("own bottom hooks not in tension", "only side bottom hooks in tension"),
    "hooked-under": ("bottom hook one level too high", "bottom hooks twice in tension"),
    "hooked-heavy-top": ("own top hooks in tension",),
    "hooked-heavy-bottom": ("own bottom hooks not in tension", "only cross bottom hooks in tension"),
    "hooked-each-level": (
        "own bottom hooks not in tension", "bottom hooks twice in tension", "bottom hooks twice in compression",
        "own bottom hooks not in compression",
    ),
}

# of its fleet standard
IN_Q_OR_M = ("share of rule 2 in Q but not in M", "share of rule 2 in M but not in Q")
FLEET_SHOWS = {
    "fleet-a-c": ("rule 2 as rule 1", *IN_Q_OR_M, "rule 2 refused"),
    "fleet-b": ("rule 2 as rule 1", *IN_Q_OR_M),
    "fleet-d": ("rule 2 as rule 1", *IN_Q_OR_M),
    "fleet-e": ("rule 2 as rule 1", *IN_Q_OR_M, "racking without its sign"),
    "fleet-wind": ("wind by rule 2 as F by rule 1",),
    "fleet-eight-high": ("rule 2 as rule 1", *IN_Q_OR_M, "wind by rule 2 as F by rule 1"),
    "fleet-turned": ("rule 2 as rule 1", *IN_Q_OR_M, "turned at the door end only", "route on A_Vmax"),
    "rule-0": ("rule 0 taken",),
    "rule-3": ("rule 3 taken", "any rule but 0 taken"),
    "rule-255": ("any rule but 0 taken",),
}

# and of its one finding for one pull.
PULLS_SHOW = {
    "pull-lock-lower": ("the higher limit named", "both limits named", "neither limit named", "the corner always named"),
    "pull-equal": ("the lock named when equal", "both limits named", "neither limit named", "the lock always named"),
    "pull-equal-most": ("the lock named when equal", "both limits named"),
    "pull-corner-lower": ("the higher limit named", "both limits named", "neither limit named", "the lock always named"),
    "pull-corner-alone": ("no findings",),
    "pull-lock-alone": ("no findings",),
    "pull-neither": (),
}

# All of these cases, and the slips that each shows by its name.
SHOWING = SLIPS + KILONEWTONS + TURNED + LENGTH_CASES + HOOKED + FLEET + PULLS
SHOWN = {name: (slip,) for name, slip in SHOWN_BY.items()} | (
    KILONEWTONS_SHOW | TURNED_SHOWS | LENGTHS_SHOW | HOOKED_SHOWS | FLEET_SHOWS | PULLS_SHOW
)


def slipped(name):
    return type("Slipped", (StandIn,), SLIPS_CAUGHT[name][0])()


def off_by(kind, more):
    """A check whose lengths of one kind are some millimetres off."""
    check = StandIn()
    check.length = lambda *sides: StandIn.length(check, *sides) + (more if kind in kinds_of_sides(*sides) else 0)
    return check


def trials(sheets):
    return [(data, expected(data)) for data in sheets]


NAMED = [case.data for case in CASES if case.room == ANSWER_ROOM]


class Comparison(unittest.TestCase):
    @classmethod
    def setUpClass(cls):
        cls.named = trials(NAMED)
        cls.made = trials(make(seed).data for seed in SEEDS)
        cls.near = trials(make(seed).data for seed in NEAR_SEEDS)
        cls.by_length = trials(make(seed).data for seed in LENGTH_SEEDS)

    def test_a_right_check_passes(self):
        for pad, margin in ((0.001, KEPT), (7.9, KEPT), (98.9, MARGIN)):
            check = StandIn()
            check.pad = pad
            for data, due in self.named + self.made + self.near + self.by_length:
                self.assertEqual(judge(due, check(data), margin).faults, [], data.hex())

    def test_what_is_kept_is_asked_for(self):
        """Figures within the 100 N demanded, and past the 9 N kept."""
        check = StandIn()
        check.pad = 9
        fault = self.first_fault(check, self.named, KEPT)
        self.assertTrue(fault.startswith("9 N or more above the exact force"), fault)
        self.assertIsNone(self.first_fault(check, self.named))

    def first_fault(self, check, trials, margin=MARGIN):
        for data, due in trials:
            faults = judge(due, check(data), margin).faults
            if faults:
                return faults[0]
        return None

    def test_each_slip_is_caught(self):
        for name, (_, begins) in SLIPS_CAUGHT.items():
            with self.subTest(name):
                fault = self.first_fault(slipped(name), self.made + self.named)
                self.assertIsNotNone(fault)
                self.assertTrue(fault.startswith(begins), fault)

    def test_named_cases_show_their_slips(self):
        self.assertEqual({case.name for case in SHOWING}, set(SHOWN))
        for case in SHOWING:
            due = expected(case.data)
            self.assertEqual(judge(due, StandIn()(case.data)).faults, [])
            for slip in SHOWN[case.name]:
                with self.subTest(case.name, slip=slip):
                    self.assertTrue(judge(due, slipped(slip)(case.data)).faults)

    def test_a_length_one_millimetre_off_is_caught(self):
        """Of each kind of length, in stacks that have such lashes."""
        for kind in LENGTHS:
            for more in (-1, 1):
                with self.subTest(kind=kind, more=more):
                    self.assertIsNotNone(self.first_fault(off_by(kind, more), self.by_length))

    def test_a_limit_one_newton_off_is_caught(self):
        """Stacks near a limit, with pads that lead their figures over it newton by newton."""
        for kind in range(1, 8):
            for more in (-1, 1):
                with self.subTest(kind=kind, more=more):
                    self.assertIsNotNone(self.fault_over_pads({"more": {kind: more}}))

    def fault_over_pads(self, changes):
        check = type("Slipped", (StandIn,), changes)()
        for pad in range(30):
            check.pad = pad + 0.5
            fault = self.first_fault(check, self.near)
            if fault:
                return fault
        return None


class Drawn(unittest.TestCase):
    """What the sheets by seed have among them."""

    # Of the last two most are refused.
    SHEETS = {
        "realistic": 400, "extreme": 400, "near a limit": 700, "by length": 400, "edge": 4 * len(EDGES), "damaged": 1_500,
    }

    @classmethod
    def setUpClass(cls):
        cls.made = {kind: [make(seed).data for seed in seeds(kind, range(cls.SHEETS[kind]))] for kind in KINDS}
        cls.lashed = cls.made["realistic"] + cls.made["extreme"]

    def taken(self, kind):
        """The decoded sheets of a kind that are not refused."""
        for data in self.made[kind]:
            with contextlib.suppress(Refused):
                yield parse(data)

    def refused(self, kind):
        """(bytes, number) of those that are."""
        for data in self.made[kind]:
            try:
                parse(data)
            except Refused as refused:
                yield data, refused.number

    def test_gear_of_no_safe_load(self):
        sheets = list(self.taken("near a limit"))
        lashes = [lash for sheet in sheets for end in (DOOR, CLOSED) for lash in sheet.lashes(end)]
        least = {HIGHER_STRENGTH: 1_670}  # of a whole kilonewton; 2,000 for all else
        self.assertTrue(any(sheet.head.lock_breaking < least.get(sheet.head.lock_material, 2_000) for sheet in sheets))
        for material in range(4):
            with self.subTest(material=material):
                drawn = [lash.breaking for lash in lashes if lash.material == material]
                self.assertTrue(any(breaking < least.get(material, 2_000) for breaking in drawn))

    def test_lengths_of_every_kind(self):
        self.assertEqual({kind for sheet in self.taken("by length") for kind in length_kinds(sheet)}, set(LENGTHS))

    def test_bottom_hooks_at_every_level(self):
        self.assertEqual({place for data in self.lashed for place in bottom_hooks(parse(data))}, BOTTOM_HOOKS)

    def test_each_relieves_a_level_somewhere(self):
        """Without lashes above M is not below zero, so that the lee post, where a cross lash pulls, does not lift."""
        found = {place for data in self.lashed for place in self.relieved(data)}
        self.assertEqual(found, {place for place in BOTTOM_HOOKS if place[1:] != (CROSS, False)})

    def relieved(self, data):
        """(level, kind, whether lashes are hooked above) where the tension differs if that kind's bottom hooks are left out."""
        right, sheet = read_answer(StandIn()(data)), parse(data)
        for kind, slip in ((CROSS, "only side bottom hooks in tension"), (SIDE, "only cross bottom hooks in tension")):
            for end, (due, wrong) in enumerate(zip(right.ends, read_answer(slipped(slip)(data)).ends)):
                highest = max((lash.level for lash in sheet.lashes(end)), default=0)
                pairs = enumerate(zip(due.tension, wrong.tension))
                yield from ((level, kind, level < highest) for level, pair in pairs if len(set(pair)) == 2)

    def test_pulls_about_two_limits(self):
        """Locks of a safe load below, at and above a corner's limit, with tensions just below and just above either limit."""
        found = {place for sheet in self.taken("near a limit") for place in pulls_about(sheet, exact(sheet))}
        self.assertEqual(found, PULLS_ABOUT)

    def test_both_rules_in_every_kind_of_sheet(self):
        for kind in KINDS:
            with self.subTest(kind):
                rules = [sheet.head.rule for sheet in self.taken(kind)]
                self.assertGreater(len(rules), 200)
                self.assertTrue(0.4 < rules.count(2) / len(rules) < 0.6, f"{rules.count(2)} of {len(rules)}")

    def test_rule_numbers_that_are_none(self):
        numbers = {data[0] for data, number in self.refused("edge") if number == 3}
        self.assertEqual(numbers, {0, 1, 2, 3, 255})  # 1 and 2 by the zero byte

    def test_mixtures_by_either_rule(self):
        for kind in KINDS:
            mixed = {sheet.head.rule for sheet in self.taken(kind) if len({tier.turned for tier in sheet.tiers}) == 2}
            self.assertEqual(mixed, {1, 2}, kind)


class Bounds(unittest.TestCase):
    def test_a_figure_beside_its_exact_force(self):
        below, above, sign = "below the exact force", "100 N or more above the exact force", "wrong sign"
        for kind, force, reported, due in (
            ("tension", "0", 0, None), ("tension", "0", 99, None), ("tension", "0", 100, above),
            ("tension", "7.5", 7, below), ("tension", "7.5", 8, None), ("tension", "7.5", 107, None),
            ("tension", "7.5", 108, above), ("tension", "8", 8, None), ("tension", "8", 108, above),
            ("racking", "99.5", 100, None), ("racking", "99.5", -100, None), ("racking", "99.5", -99, below),
            ("racking", "100", 100, None), ("racking", "100", -100, sign), ("racking", "-100", 100, sign),
            ("racking", "-100", -199, None), ("racking", "-100", -200, above), ("racking", "0", -99, None),
        ):
            self.assertEqual(figure_fault(kind, Fraction(force), reported, MARGIN), due, (kind, force, reported))

    def test_a_figure_within_what_is_kept(self):
        above, sign = "9 N or more above the exact force", "wrong sign"
        for kind, force, reported, due in (
            ("tension", "0", 8, None), ("tension", "0", 9, above), ("tension", "7.5", 16, None),
            ("tension", "7.5", 17, above), ("tension", "7.5", 107, above), ("tension", "7.5", 108, f"100{above[1:]}"),
            ("racking", "8.5", -9, None), ("racking", "9", -9, sign), ("racking", "-9", 9, sign), ("racking", "-9", -17, None),
        ):
            self.assertEqual(figure_fault(kind, Fraction(force), reported, KEPT), due, (kind, force, reported))


class Script(unittest.TestCase):
    """reference/compare on programs that look their outputs up in a table."""

    def program(self, folder, outputs):
        table = Path(folder, "table")
        table.write_text("".join(f"-{data.hex()} {output.hex()}\n" for data, output in outputs.items()))
        program = Path(folder, "program")
        program.write_text(
            f"#!{sys.executable} -IS\nimport sys\n"
            f"table = dict(line.split() for line in open({str(table)!r}))\n"
            "sys.stdout.buffer.write(bytes.fromhex(table['-' + sys.stdin.buffer.read().hex()]))\n"
        )
        program.chmod(0o755)
        return program

    def compare(self, program, *words):
        command = [sys.executable, ROOT / "reference/compare", "--program", program, *words]
        done = subprocess.run(command, capture_output=True, text=True)
        return done.returncode, done.stdout, done.stderr

    def test_right_and_wrong(self):
        check = StandIn()
        sheets = NAMED + [make(seed).data for seed in range(12, 18)]
        outputs = {data: check(data) for data in sheets}
        words = ("--count", "6", "--seed", "12")
        with tempfile.TemporaryDirectory() as folder:
            status, text, errors = self.compare(self.program(folder, outputs), *words)
            self.assertEqual((status, errors), (0, ""))
            self.assertIn("1 realistic, 1 extreme, 1 near a limit, 1 by length, 1 edge, 1 damaged", text)
            self.assertIn("no faults", text)
            sheet = make(12).data
            outputs[sheet] += b"x"
            status, text, errors = self.compare(self.program(folder, outputs), *words)
            self.assertEqual((status, errors), (1, ""))
            self.assertIn("FAULT: seed 12, realistic\n  layout: 1 bytes after the answer", text)
            self.assertIn(f"sheet  {sheet.hex()}", text)
            self.assertIn("1 sheets with faults", text)

    def test_killed_and_missing(self):
        with tempfile.TemporaryDirectory() as folder:
            program = Path(folder, "program")
            program.write_text("#!/bin/sh\nkill -ABRT $$\n")
            program.chmod(0o755)
            status, text, _ = self.compare(program, "--count", "0")
            self.assertEqual(status, 1)
            self.assertIn("program: ended by signal 6", text)
        status, text, errors = self.compare("/no/such/program")
        self.assertEqual((status, text), (2, ""))
        self.assertIn("/no/such/program: no program to run", errors)


if __name__ == "__main__":
    unittest.main()
