"""Chains of springs in fractions, for the program cases_springs: the exact shifts of their levels, and how far the solver's may lie from
them by its promise. No stack sheet is known whose candidate fails the solver's test, so that these are the runs of its elimination."""

import random
from dataclasses import dataclass
from fractions import Fraction
from itertools import accumulate
from math import ceil, floor

from reference.stack import solve

SOFT, STIFF = 3_730, 15_690  # N/mm, the springs of a tier's two ends
STIFFNESS, LOAD, SHIFT = 2**22, 2**28, 2**28  # units in 1 N/mm, 1 N and 1 mm
MOST_HELD, MOST_LOADED = 620_000 * STIFFNESS, 2**18 * LOAD
ERROR = Fraction(5, 100)  # N, of a tier's racking, and of what all lashes hold


@dataclass(frozen=True)
class Chain:
    """Of each tier its spring; of the level over it the stiffness of its lashes and its load, in the program's units."""

    springs: tuple
    lashes: tuple
    loads: tuple


def exact(chain):
    """The shifts of levels 1 to n, in mm: each level is in balance between the tiers under and over it, its lashes and its load."""
    springs = [*chain.springs, 0]
    rows = []
    for i, (held, load) in enumerate(zip(chain.lashes, chain.loads)):
        row = [Fraction(0)] * (len(chain.springs) + 1)
        row[i] = springs[i] + springs[i + 1] + Fraction(held, STIFFNESS)
        if i:
            row[i - 1] = Fraction(-springs[i])
        if springs[i + 1]:
            row[i + 1] = Fraction(-springs[i + 1])
        row[-1] = Fraction(load, LOAD)
        rows.append(row)
    return solve(rows)


def bounds(chain):
    """The least and the most, in the program's units, that the promise allows of each level's shift: the rackings of the tiers under it may
    be off, each by so much, and what its own lashes hold."""
    due = []
    for shift, under, held in zip(exact(chain), accumulate(ERROR / spring for spring in chain.springs), chain.lashes):
        off = min(under, ERROR * STIFFNESS / held) if held else under
        due.append((max(0, ceil((shift - off) * SHIFT)), floor((shift + off) * SHIFT)))
    return due


def question(chain):
    """The bytes of a chain."""
    due = bounds(chain)
    numbers = *chain.springs, *chain.lashes, *chain.loads, *(least for least, _ in due), *(most for _, most in due)
    return bytes([len(chain.springs)]) + b"".join(number.to_bytes(8, "little") for number in numbers)


def solvable(chain):
    """Whether the numbers are in the solver's ranges."""
    return (
        all(SOFT <= spring <= STIFF for spring in chain.springs)
        and all(held <= MOST_HELD for held in chain.lashes)
        and all(load <= MOST_LOADED for load in chain.loads)
    )


def line(chain):
    """What the program must write of it."""
    return "eliminated inside, solved inside\n" if solvable(chain) else "not solvable\n"


def even(count, spring, held, load):
    return Chain((spring,) * count, (held,) * count, (load,) * count)


def drawn(chance, count):
    """A chain at random: springs of either end, some levels without lashes, few or many units."""
    held = [chance.choice((0, 0, 1, 7_200 * STIFFNESS, chance.randint(0, MOST_HELD), MOST_HELD)) for _ in range(count)]
    usual = [chance.randint(0, 20_000) * LOAD + 7 for _ in range(count)]
    loads = [chance.choice((0, 1, load, chance.randint(0, MOST_LOADED), MOST_LOADED)) for load in usual]
    springs = [chance.choice((SOFT, STIFF, chance.randint(SOFT, STIFF))) for _ in range(count)]
    return Chain(tuple(springs), tuple(held), tuple(loads))


def chains():
    """Document 01's (d) and (e), every count with nothing, with all that is allowed and with lashes at its uppermost level alone, numbers
    one outside their ranges, and draws."""
    rod = 7_200 * STIFFNESS
    papers = (
        Chain((SOFT,), (rod,), (220_725 * LOAD // 10,)),  # D = 22,072.5 / 10,930 mm
        Chain((SOFT, SOFT), (0, rod), (2_477_025 * LOAD // 100, 220_725 * LOAD // 100)),  # D of level 2 = 29,184.75 / 18,130 mm
    )
    every = [
        chain
        for count in range(11)
        for spring in (SOFT, STIFF)
        for chain in (
            even(count, spring, 0, MOST_LOADED),
            even(count, spring, MOST_HELD, MOST_LOADED),
            even(count, spring, 0, 0),
            Chain((spring,) * count, ((0,) * count + (MOST_HELD,))[1:] if count else (), (MOST_LOADED,) * count),
        )
    ]
    outside = even(1, SOFT - 1, 0, 1), even(1, STIFF + 1, 0, 1), even(2, SOFT, MOST_HELD + 1, 1), even(3, SOFT, 0, MOST_LOADED + 1)
    chance = random.Random(1)
    return (*papers, *every, *outside, *(drawn(chance, chance.randint(1, 10)) for _ in range(100)))


CHAINS = chains()
