"""Questions on twenties in forty-foot guides: every acceleration, table and tier count near its permitted mass; edges; draws by seed."""

import random
from dataclasses import dataclass
from itertools import product

from reference.twenties import LEAST_ACCELERATION, LEAST_TIERS, MOST_ACCELERATION, MOST_MASS, MOST_TIERS, TABLES, permitted

GREATEST = 2**32 - 1  # that the call for C can be given
ACCELERATIONS = range(LEAST_ACCELERATION, MOST_ACCELERATION + 1)
TIERS = range(LEAST_TIERS, MOST_TIERS + 1)

EDGE_TABLES = (0, 1, 2, 3, 255, 256, 2**31, GREATEST)
EDGE_ACCELERATIONS = (0, 1, 349, 350, 351, 359, 360, 361, 400, 401, 649, 650, 651, 660, 2**16 + 350, 2**31, GREATEST)
EDGE_COUNTS = (*range(14), 16, 100, 259, 1000)
EDGE_MASSES = (0, 1, 2, MOST_MASS - 1, MOST_MASS, MOST_MASS + 1, 2**16 + 1, 2**24, 2**31, GREATEST)


@dataclass(frozen=True)
class Question:
    kind: str
    table: int
    acceleration: int
    masses: tuple

    def __str__(self):
        return f"{self.kind}: table {self.table}, acceleration {self.acceleration}, masses {' '.join(map(str, self.masses))}"


# The request's own figures, for the program cases_twenties: (table, acceleration, masses).
FIGURES = (
    # each table on a row and between rows, at the permitted mass and a kilogram above: 24.9, 28.8 t × 3
    *((0, acceleration, (30_480, 24_900, 24_900, last)) for acceleration in (411, 412, 420) for last in (24_900, 24_901)),
    *((1, acceleration, (1, 28_800, 28_800, last)) for acceleration in (411, 412, 420) for last in (28_800, 28_801)),
    # the misprint, 14.9 for 16.4, between what is printed at 0.39 g and at 0.41 g: 15.4, 14.9, 14.9, 14.7 t × 6
    *((0, acceleration, (20_000,) * 2 + (14_000,) * 5) for acceleration in (390, 391, 399, 400, 401, 410, 411)),
    *((0, 400, (9_000,) + (14_900,) * 5 + (last,)) for last in (14_900, 14_901, 16_400)),
    # first and last rows and tier counts
    *((table, acceleration, (8_000,) * tiers) for table in (0, 1) for acceleration in (350, 650) for tiers in (3, 11)),
    (0, 350, (30_480,) * 3),
    (1, 650, (30_480,) * 11),
    # 22, then 23
    (2, 350, (0, 1, 1)), (GREATEST, 350, (1, 1, 1)), (0, 349, (1, 1, 1)), (0, 651, (1, 1, 0)), (1, GREATEST, (1, 1, 1)),
    (1, 350, ()), (1, 350, (1, 1)), (1, 350, (1,) * 12), (1, 350, (0,) * 13),
    (1, 350, (0, 1, 1)), (1, 350, (1, 1, 0)), (0, 650, (30_481, 1, 1)), (0, 650, (1, 30_481, 1)), (0, 650, (1, 1, GREATEST)),
)


def spread(total, boxes, chance):
    """Legal masses of so many boxes with this total, about even."""
    masses = []
    for left in range(boxes, 0, -1):
        least, most = max(1, total - (left - 1) * MOST_MASS), min(MOST_MASS, total - (left - 1))
        even = total // left
        mass = min(max(chance.randint(even - 500, even + 500), least), most)
        masses.append(mass if left > 1 else total)
        total -= mass
    return tuple(masses)


def near_permitted(chance):
    """A kilogram below, at and a kilogram above the permitted mass; where no legal boxes weigh so much, as much as they can."""
    for table, acceleration, tiers in product(range(len(TABLES)), ACCELERATIONS, TIERS):
        boxes, most = tiers - 1, permitted(table, acceleration, tiers)
        totals = {min(most + more, boxes * MOST_MASS) for more in (-1, 0, 1)}
        for total in sorted(totals):
            lowest = chance.choice((1, MOST_MASS, chance.randint(1, MOST_MASS)))
            yield Question("near permitted", table, acceleration, (lowest, *spread(total, boxes, chance)))


def edges():
    """Tables, accelerations and counts at and past their limits, together and with a mass that is none: 22 comes before 23."""
    for table, acceleration, count in product(EDGE_TABLES, EDGE_ACCELERATIONS, EDGE_COUNTS):
        for mass in (20_000, 0):
            yield Question("edge", table, acceleration, (mass,) * count)


def masses_at_edges():
    """One box at or past the limits, in each tier of each stack."""
    for table, tiers, mass in product(range(len(TABLES)), TIERS, EDGE_MASSES):
        for place in range(tiers):
            yield Question("mass", table, 495, (10_000,) * place + (mass,) + (10_000,) * (tiers - place - 1))


def drawn(chance, count):
    """At random, about the limits; of each four one with numbers of any size."""
    for number in range(count):
        wild = number % 4 == 0
        masses = tuple(chance.randint(0 if wild else 1, GREATEST if wild else MOST_MASS + 20) for _ in range(chance.randint(2, 12)))
        acceleration = chance.randint(0, GREATEST) if wild else chance.randint(345, 655)
        yield Question("drawn", chance.randint(0, 2) if wild else chance.randint(0, 1), acceleration, masses)


def questions(seed=1, count=20_000):
    chance = random.Random(seed)
    yield from near_permitted(chance)
    yield from edges()
    yield from masses_at_edges()
    yield from drawn(chance, count)
