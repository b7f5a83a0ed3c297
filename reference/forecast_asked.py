"""Calls with a forecast: every factor at, below and above its step on a stack that shows each thousandth, edges, and stacks by seed."""

import random
from dataclasses import dataclass
from itertools import product
from math import gcd, isqrt

from reference.cases import box, stack
from reference.forecast import LEAST_FACTOR, MOST_FACTOR
from reference.making import make
from sheets.sheet import ANSWER_ROOM

GREATEST = 2**16 - 1  # wave height or breadth
LONGEST = 2**32 - 1  # hours
FACTORS = range(LEAST_FACTOR, MOST_FACTOR + 1)

# One heavy box, of which a thousandth of the factor is 101 N of racking by rule 1 and 112 N by rule 2, beyond every margin.
SHOWING = tuple(stack([box(mass=30_480, a_t=1_500)], rule=rule) for rule in (1, 2))

EDGE_WAVES = (0, 1, 2, 199, 200, 201, 300, 600, 601, 2**15, GREATEST - 1, GREATEST)
EDGE_BREADTHS = (0, 1, 2, 3, 2_499, 2_500, 2_501, 3_220, GREATEST - 1, GREATEST)
EDGE_HOURS = (0, 1, 71, 72, 73, 2**16 + 71, 2**31, LONGEST)
EDGE_ROOMS = (0, 833, 834, 835)


@dataclass(frozen=True)
class Asked:
    kind: str
    data: bytes
    wave_height: int
    breadth: int
    hours: int = 71
    room: int = ANSWER_ROOM

    @property
    def forecast(self):
        return self.wave_height, self.breadth, self.hours

    def __str__(self):
        return f"{self.kind}: H {self.wave_height}, B {self.breadth}, {self.hours} hours, room {self.room}, sheet {self.data.hex()}"


# The request's own figures, for the program cases_forecast: wave heights and breadths, then what is refused, in its order.
ROUTED, FAULTY = stack([box()], route=7), stack([box()], rule=3)
FIGURES = tuple(
    Asked("figure", SHOWING[0], *pair)
    for pair in ((300, 2_500), (200, 2_500), (201, 2_500), (600, 2_500), (601, 2_500), (300, 3_220), (0, 1), (4, 1), (5, 1))
) + (
    Asked("figure", SHOWING[1], 300, 2_500),
    Asked("figure", SHOWING[0], GREATEST, 1, 0),
    Asked("figure", SHOWING[0], GREATEST, GREATEST, 0),
    Asked("figure", FAULTY, 300, 0, 72, 833),
    Asked("figure", ROUTED, 300, 0, 72, 833),
    Asked("figure", ROUTED, 300, 2_500),
    Asked("figure", SHOWING[0], 300, 0, 71, 833),
    Asked("figure", SHOWING[0], 300, 2_500, 72, 833),
    Asked("figure", SHOWING[0], 300, 2_500, LONGEST),
    Asked("figure", SHOWING[0], 300, 2_500, 71, 833),
)


def steps(chance):
    """For each factor a breadth at which a whole wave height reaches it exactly, and that height with its neighbours; then any
    breadth with the last height that the factor is enough for, and the next."""
    for thousandths in FACTORS:
        above = thousandths - 400
        least = 50 // gcd(above, 50)  # the root of B: of its multiples above × root / 50 is a whole height
        root = least * chance.randint(1, 255 // least)
        heights = [above * root // 50 + more for more in (-1, 0, 1)]
        pairs = [(height, root * root) for height in heights]
        breadth = chance.choice((chance.randint(1, GREATEST), chance.randint(1, 300)))
        last = isqrt(above * above * breadth // 2_500)
        pairs += [(last, breadth), (last + 1, breadth)]
        for wave_height, breadth in pairs:
            yield Asked("step", chance.choice(SHOWING), min(wave_height, GREATEST), breadth)


def edges():
    """Numbers at and past their limits, together; sheets of another route and faulty ones, with everything else wrong too."""
    for wave_height, breadth in product(EDGE_WAVES, EDGE_BREADTHS):
        yield Asked("edge", SHOWING[wave_height % 2], wave_height, breadth)
    for data, breadth, hours, room in product((*SHOWING, ROUTED, FAULTY), (0, 1, 2_500), EDGE_HOURS, EDGE_ROOMS):
        yield Asked("edge", data, 300, breadth, hours, room)


def drawn(seed):
    """A sheet by its seed, mostly put on route 0, with a forecast that is mostly taken."""
    chance, data = random.Random(-seed - 1), make(seed).data
    if chance.random() < 0.85:
        data = data[:1] + bytes(len(data[1:2])) + data[2:]
    breadth = chance.choice((0, 1, GREATEST, *(chance.randint(1, GREATEST) for _ in range(12))))
    about = isqrt(chance.randint(0, 700) ** 2 * breadth // 2_500)
    hours = chance.choice((*range(12), 71, 71, 71, 72, chance.choice(EDGE_HOURS)))
    room = ANSWER_ROOM if chance.random() < 0.9 else chance.choice((0, 833, 835, 1_000))
    return Asked("by seed", data, min(about, GREATEST), breadth, hours, room)
