"""A heavier box in the same stack, from document 02, P14: two sheets that differ only in masses, none lower in the second, and what is
not lower then: shifts and lash forces, exact by the fractions and reported within the margin. Racking and corner tension may be.
"""

from dataclasses import dataclass, replace
from random import Random

from reference.forecast import factor
from reference.judge import END_NAMES, KEPT, MARGIN
from reference.making import KINDS, make
from reference.preview import with_mass
from reference.stack import lash_forces, loads, shifts
from sheets.sheet import CLOSED, DOOR, TIER_LIMITS, parse

LEAST, MOST = TIER_LIMITS["mass"]
LEGAL = {kind: KINDS[kind] for kind in ("realistic", "extreme", "near a limit", "by length")}
FORECAST = 3  # of so many pairs one is asked by a forecast too


# Pairs


def one_kilogram(chance, masses):
    """One tier by one kilogram."""
    return one(chance, masses, lambda mass: min(mass + 1, MOST))


def one_tier(chance, masses):
    """One tier by any amount."""
    return one(chance, masses, lambda mass: chance.randint(mass, MOST))


def one(chance, masses, raised):
    tier = chance.randrange(len(masses))
    return [raised(mass) if index == tier else mass for index, mass in enumerate(masses)]


def some_tiers(chance, masses):
    return [chance.choice((mass, chance.randint(mass, MOST))) for mass in masses]


def slightly(chance, masses):
    """Every tier by some kilograms, so that forces hardly grow."""
    return [min(mass + chance.randint(0, 3), MOST) for mass in masses]


def to_the_most(chance, masses):
    return [MOST for _ in masses]


RAISES = {
    "one tier by 1 kg": one_kilogram,
    "one tier": one_tier,
    "some tiers": some_tiers,
    "all tiers by 0 to 3 kg": slightly,
    "all tiers to 30,480 kg": to_the_most,
}


@dataclass(frozen=True)
class Pair:
    """Two sheets' bytes; a forecast's wave height, breadth and hours, or none."""

    seed: int
    kind: str
    raised: str
    first: bytes
    second: bytes
    forecast: tuple = None

    def __str__(self):
        by = f", forecast {self.forecast}" if self.forecast else ""
        return f"seed {self.seed}, {self.kind}, {self.raised}{by}: sheets {self.first.hex()} and {self.second.hex()}"


def with_masses(data, masses):
    for tier, mass in enumerate(masses, 1):
        data = with_mass(data, tier, mass)
    return data


def drawn(seed):
    """A legal sheet by its seed and the same with masses raised; a share of them on route 0, with a forecast."""
    chance, made = Random(-seed - 1), make(seed, LEGAL)
    first, forecast = made.data, None
    if seed % FORECAST == 0:
        first = first[:1] + b"\0" + first[2:]
        forecast = (chance.randint(0, 700), chance.randint(1, 5_000), chance.randint(0, 71))
    raised = list(RAISES)[seed // len(LEGAL) % len(RAISES)]
    masses = RAISES[raised](chance, [tier.mass for tier in parse(first).tiers])
    return Pair(seed, made.kind, raised, first, with_masses(first, masses), forecast)


def heavier(first, second):
    """Whether two sheets differ only in masses, none lower in the second."""
    if len(first.tiers) != len(second.tiers):
        return False
    pairs = list(zip(first.tiers, second.tiers))
    same = replace(first, tiers=tuple(replace(a, mass=b.mass) for a, b in pairs)) == second
    return same and all(a.mass <= b.mass for a, b in pairs)


# What is not lower


NAMES = ("tension", "athwart", "vertical")


def lash_values(lashes):
    return [tuple(getattr(lash, name) for name in NAMES) for lash in lashes]


def exact_end(sheet, end, racking_loads):
    """Shifts of levels 0 to n, and tension, athwart and vertical part of each lash."""
    shift = shifts(sheet, end, racking_loads)
    return shift, lash_values(lash_forces(lash, shift[lash.level]) for lash in sheet.lashes(end))


def exact_faults(first, second, thousandths=None):
    """Each shift and each lash force that is lower in the second of two sheets; by the route, or by a factor in its place."""
    borne = [loads(sheet, thousandths).racking for sheet in (first, second)]
    for end, name in ((DOOR, END_NAMES[DOOR]), (CLOSED, END_NAMES[CLOSED])):
        (before, pulls), (after, later) = (exact_end(sheet, end, q) for sheet, q in zip((first, second), borne))
        for level, (old, new) in enumerate(zip(before, after, strict=True)):
            if new < old:
                yield f"exact: {name} end, shift of level {level} falls from {float(old):.6f} to {float(new):.6f} mm"
        for lash, (olds, news) in enumerate(zip(pulls, later, strict=True)):
            for part, old, new in zip(NAMES, olds, news):
                if new < old:
                    yield f"exact: {name} end, {part} of lash {lash} falls from {float(old):.6f} to {float(new):.6f} N"


def falls(first, second):
    """(end, lash, part, fall) of each reported lash force of two answers; below zero where it rises."""
    for end, (before, after) in enumerate(zip(first.ends, second.ends, strict=True)):
        for lash, (olds, news) in enumerate(zip(lash_values(before.lashes), lash_values(after.lashes), strict=True)):
            yield from ((end, lash, part, old - new) for part, old, new in zip(NAMES, olds, news))


def lashes_missing(sheet, answer):
    """Ends of an answer that have another number of lashes than the sheet."""
    for end, name in enumerate(END_NAMES):
        if len(answer.ends[end].lashes) != len(sheet.lashes(end)):
            yield f"answer: {name} end has {len(answer.ends[end].lashes)} lashes, the sheet {len(sheet.lashes(end))}"


def reported_faults(first, second, margin=KEPT):
    """Each reported lash force that is lower by a margin or more in the second of two answers."""
    for end, lash, part, fall in falls(first, second):
        for most in (MARGIN, margin):
            if fall >= most:
                yield f"reported: {END_NAMES[end]} end, {part} of lash {lash} falls by {fall} N, {most} or more"
                break


def faults(pair, check, forecast, margin=KEPT):
    """Of a pair: by the route, and by its forecast. `check` and `forecast` give the answers to a sheet's bytes."""
    first, second = parse(pair.first), parse(pair.second)
    if not heavier(first, second):
        yield "the sheets do not differ only in masses, or one is lower"
    yield from by_factor(first, second, None, check(pair.first), check(pair.second), margin)
    if pair.forecast:
        answers = (forecast(data, *pair.forecast) for data in (pair.first, pair.second))
        yield from by_factor(first, second, factor(*pair.forecast[:2]), *answers, margin)


def by_factor(first, second, thousandths, before, after, margin):
    """Two sheets and their answers, by the route or by a factor in its place."""
    yield from exact_faults(first, second, thousandths)
    missing = [*lashes_missing(first, before), *lashes_missing(second, after)]
    yield from missing or reported_faults(before, after, margin)
