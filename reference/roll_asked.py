"""Conditions to work accelerations out of: the request's own figures, each fault of 18 alone and together, edges, joints of k_3, exact
thousandths, each number of 19, and draws by seed."""

import random
from dataclasses import replace
from math import cos, radians, sin

from reference.roll import FARTHEST, Condition

GREATEST, LEAST_SIGNED, MOST_SIGNED = 2**32 - 1, -(2**31), 2**31 - 1

# A ship of 300 m at 25 degrees in 20 s, amidships.
USUAL = Condition(4226, 9063, 2012, 2500, 2000, 300_000, 15_000, 150_000, 20_000, 30_000)
UPRIGHT = Condition(0, 10_000, 0, 0, 1000, 200_000, 0, 100_000, 0, 0)

# The request's own figures, for the program cases_roll.
FIGURES = (
    USUAL,  # 573.34587, 1176.27256, 1001.02256
    replace(USUAL, x=60_000),  # 0.2 L and 0.7 L, where k_3 is 0 by both formulas
    replace(USUAL, x=210_000),
    replace(USUAL, x=0),
    replace(USUAL, x=300_000),
    replace(USUAL, x=0, y=-20_000),
    replace(USUAL, x=300_000, y=-20_000, z=-30_000),
    UPRIGHT,
    replace(UPRIGHT, heave=10_000, x=200_000),
    replace(UPRIGHT, angle=1, period=10_000, y=1),  # 7.01e-8 thousandths up and down
    Condition(10_000, 0, 5000, 9000, 10_000, 500_000, 0, 250_000, 0, 0),  # 1.5 g exactly
    Condition(10_000, 0, 5001, 9000, 10_000, 500_000, 0, 250_000, 0, 0),
    Condition(10_000, 0, 0, 9000, 2000, 200_000, 0, 100_000, 1, 0),  # A_Vmin below zero
    Condition(5000, 8660, 0, 3000, 1000, 200_000, 0, 100_000, 500_000, 0),
    Condition(10_000, 0, 10_000, 9000, 1, 500_000, -500_000, 500_000, 500_000, 500_000),  # all three outside
    replace(USUAL, length=0),
    replace(USUAL, period=0),
    replace(USUAL, period=10_001),
    replace(USUAL, angle=9001),
    replace(USUAL, heave=10_001),
    replace(USUAL, length=500_001),
    replace(USUAL, centre=-500_001),
    replace(USUAL, y=500_001),
    replace(USUAL, z=LEAST_SIGNED),
    replace(USUAL, x=-1),
    replace(USUAL, x=300_001),
    replace(USUAL, sine=4210),
    replace(USUAL, sine=GREATEST, cosine=GREATEST),
)

# Legal and not, about every limit.
EDGES = {
    "heave": (0, 1, 9_999, 10_000, 10_001, 2**16, 2**31, GREATEST),
    "angle": (0, 1, 8_999, 9_000, 9_001, 2**16, 2**31, GREATEST),
    "period": (0, 1, 2, 9_999, 10_000, 10_001, 2**16, 2**31, GREATEST),
    "length": (0, 1, 2, 149_999, 150_000, 499_999, 500_000, 500_001, 2**31, 2**32 - 150_000, GREATEST),
    "centre": (LEAST_SIGNED, -500_001, -500_000, -1, 0, 1, 500_000, 500_001, MOST_SIGNED),
    "x": (LEAST_SIGNED, -500_001, -1, 0, 1, 59_999, 60_000, 60_001, 209_999, 210_000, 210_001, 299_999, 300_000, 300_001, MOST_SIGNED),
    "y": (LEAST_SIGNED, -500_001, -500_000, -1, 0, 1, 500_000, 500_001, MOST_SIGNED),
    "z": (LEAST_SIGNED, -500_001, -500_000, -1, 0, 1, 500_000, 500_001, MOST_SIGNED),
}
FAULTY = {"heave": 10_001, "angle": 9_001, "period": 0, "length": 0, "centre": 500_001, "x": -1, "y": -500_001, "z": 500_001, "sine": 0}


def unit(angle):
    """Sine and cosine of an angle in hundredths of a degree, to the nearest ten-thousandth."""
    return round(10_000 * sin(radians(angle / 100))), round(10_000 * cos(radians(angle / 100)))


def edges():
    for name, values in EDGES.items():
        for value in values:
            for base in (USUAL, UPRIGHT):
                yield "edge", replace(base, **{name: value})


def squares():
    """Sums of squares about both ends of what is taken, and numbers whose squares leave 32 and 64 bits."""
    nearest = ((430, 9990), (5463, 8375), (1969, 9805), (2353, 9720))  # 15,000 and 15,006 short, 14,986 and 15,009 over
    for sine, cosine in (*nearest, (0, 10_000), (10_000, 0), (0, 10_001), (10_001, 0), (7071, 7071), (7071, 7072), (7072, 7072)):
        yield "squares", replace(USUAL, sine=sine, cosine=cosine)
    for sine in range(0, 10_001, 7):
        middle = round((100_000_000 - sine * sine) ** 0.5)
        for cosine in (middle - 1, middle, middle + 1):
            if cosine >= 0:
                yield "squares", replace(USUAL, sine=sine, cosine=cosine)
    for number in (2**16, 2**16 + 4226, 2**31, GREATEST):
        for sine, cosine in ((number, 9063), (4226, number), (number, number)):
            yield "squares", replace(USUAL, sine=sine, cosine=cosine)


def together():
    """Two faults at once, and a fault beside accelerations that are outside."""
    wild = Condition(10_000, 0, 10_000, 9000, 1, 500_000, -500_000, 500_000, 500_000, 500_000)
    for first, one in FAULTY.items():
        yield "faults", replace(wild, **{first: one})
        for second, other in FAULTY.items():
            if first != second:
                yield "faults", replace(USUAL, **{first: one, second: other})


def joints():
    """x about 0.2 L and 0.7 L, and at the ends, of ships of every kind of length."""
    for length in (1, 2, 3, 4, 5, 7, 9, 10, 11, 99_999, 100_000, 123_457, 300_000, 499_999, 500_000):
        for middle in (0, length // 5, 7 * length // 10, length):
            for x in range(middle - 2, middle + 3):
                yield "joints", replace(USUAL, length=length, x=x)


def exact_thousandths():
    """Where the exact number is whole, and where the least of a part is over or short of it."""
    for tenth in range(0, 10_001, 500):
        yield "exact", replace(UPRIGHT, sine=10_000, cosine=0, heave=tenth)
        for y in (0, 1, -1, 2):
            yield "exact", replace(UPRIGHT, heave=tenth, angle=100, period=701, y=y)
            yield "exact", replace(UPRIGHT, heave=tenth, angle=9000, period=10_000, y=y)
    for whole in range(0, 1_001, 50):
        yield "exact", replace(UPRIGHT, angle=100, period=100, y=whole, z=whole)
    for tenths in range(101):  # 0.0701 × 0.1 / 7.01² × 0.701 is a ten-thousandth: sine, cosine and roll meet in whole thousandths
        yield "exact", replace(USUAL, heave=0, angle=10, period=701, y=701 * tenths, z=USUAL.centre + 701 * tenths)


def limits(chance):
    """About A_T 1.5, A_Vmax 3 and A_Vmin 0 and 1 g, by the distance that gives them."""
    for _ in range(1_500):
        angle, period = chance.randint(1, 9000), chance.randint(300, 4000)
        sine, cosine = unit(angle)
        heave, length = chance.randint(0, 10_000), chance.randint(1_000, 500_000)
        x = chance.randint(0, length)
        base = Condition(sine, cosine, heave, angle, period, length, 0, x, 0, 0)
        step = 1_000 * 701 * angle / (period * period) / 100_000  # thousandths of g a millimetre
        for sign, goal, trig, place in ((1, 1_500, sine, "z"), (1, 3_000, cosine, "y"), (-1, 0, cosine, "y"), (-1, 1_000, cosine, "y")):
            still = trig / 10 * (1 + heave / 10_000)
            at = round(sign * (goal - still) / step)
            if abs(at) <= FARTHEST:
                for off in (-1, 0, 1):
                    yield "limits", replace(base, **{place: chance.choice((1, -1)) * (at + off)})


def drawn(chance, count):
    """At random: ships as they are; numbers within the ranges; of any size."""
    for number in range(count):
        angle = chance.randint(0, 9000)
        sine, cosine = unit(angle)
        length = chance.randint(1, FARTHEST)
        places = [chance.randint(-FARTHEST, FARTHEST) for _ in range(3)]
        if number % 4 < 2:
            angle, period, heave = chance.randint(500, 4000), chance.randint(600, 4000), chance.randint(0, 4000)
            sine, cosine = unit(angle)
            length = chance.randint(60_000, 450_000)
            places = [chance.randint(2_000, 25_000), chance.randint(-30_000, 30_000), chance.randint(0, 70_000)]
        elif number % 4 == 2:
            period, heave = chance.choice((1, 2, 10, 100, chance.randint(1, 10_000))), chance.randint(0, 10_000)
        else:
            period, heave = chance.randint(0, 10_050), chance.choice((chance.randint(0, 10_050), chance.randint(0, GREATEST)))
            angle = chance.choice((angle, chance.randint(0, GREATEST)))
        centre, y, z = places
        yield "drawn", Condition(sine, cosine, heave, angle, period, length, centre, chance.randint(0, length), y, z)


def conditions(seed=1, count=20_000):
    """(kind, condition)."""
    chance = random.Random(seed)
    yield from (("figure", given) for given in FIGURES)
    yield from edges()
    yield from squares()
    yield from together()
    yield from joints()
    yield from exact_thousandths()
    yield from limits(chance)
    yield from drawn(chance, count)
