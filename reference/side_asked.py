"""Pairs of sheets for the call on side walls: the request's own figures, all orders of refusals, rackings about the limit and at whole
numbers, and sheets by seed."""

import random
from dataclasses import dataclass
from itertools import product

from reference.cases import BOX_B, box, stack
from reference.making import make
from sheets.sheet import MOST_TIERS, TIER_COUNT_PLACE
from sheets.side import MOST_LONGITUDINAL, SIDE_ROOM, pack_pitch

HEAVY = box(mass=30_480)
EDGE_LONGITUDINAL = (0, 1, 2, 1_499, 1_500, 1_501, 2**15, 2**16 - 1)
EDGE_ROOMS = (0, 1, 81, 82, 83, 90)


@dataclass(frozen=True)
class Asked:
    kind: str
    sheet: bytes
    pitch: bytes
    room: int = SIDE_ROOM

    def __str__(self):
        return f"{self.kind}: room {self.room}, sheet {self.sheet.hex()}, short sheet {self.pitch.hex()}"


def asked(kind, tiers, longitudinal, room=SIDE_ROOM, **head):
    return Asked(kind, stack(tiers, **head), pack_pitch(longitudinal), room)


def figure(tiers, longitudinal, room=SIDE_ROOM, **head):
    return asked("figure", tiers, longitudinal, room, **head)


# Its racking by rule 1 at 0.2 g is a whole number: 981 x 9 N.
WHOLE = box(mass=20_000)

# Under box B at 0.5 g, by rule number: at this A_L 124,999.93 and 124,999.65 N, reported at the limit, and with 1 kg more above it.
AT_LIMIT = {1: (23_109, 1_489), 2: (20_812, 1_488)}

FAULTY = stack([box()], rule=3)
FIGURES = (
    figure([BOX_B], [500]),
    figure([BOX_B], [500], rule=2),
    figure([BOX_B] * 3, [500, 600, 700]),
    figure([BOX_B] * 3, [500, 600, 700], rule=2, route=7),
    figure([WHOLE] * 2, [200, 200]),
    figure([WHOLE], [0]),
    figure([box(mass=1)], [1]),
    *(figure([box(mass=mass + more), BOX_B], [a_l, 500], rule=rule) for rule, (mass, a_l) in AT_LIMIT.items() for more in (0, 1)),
    figure([HEAVY] * 10, [1_500] * 10),
    figure([HEAVY] * 10, [1_500] * 10, rule=2),
    Asked("figure", FAULTY, b"", 81),
    figure([BOX_B] * 2, [1_501], 81),
    Asked("figure", stack([BOX_B]), b""),
    Asked("figure", stack([BOX_B] * 2), b"\1" + bytes(4)),
    Asked("figure", stack([BOX_B] * 2), b"\2" + bytes(3)),
    Asked("figure", stack([BOX_B] * 2), b"\2" + bytes(5)),
    figure([BOX_B] * 3, [0, 1_501, 1_502], 81),
    figure([BOX_B] * 3, [1_500, 1_500, 1_501], 0),
    figure([BOX_B] * 3, [1_500] * 3, 81),
    figure([BOX_B] * 3, [1_500] * 3, 0),
)


def orders():
    """Every fault of the sheet, of the short sheet's length, count and A_L and of the room, alone and together."""
    sheets = (stack([BOX_B] * 3), FAULTY, stack([BOX_B] * 3)[:-1], stack([BOX_B] * 3) + b"\0", b"")
    counts = (0, 2, 3, 4, 255)
    lengths = (0, 1, 6, 7, 8, 9, 255)
    peaks = ((0, 0, 0), (1_500, 1_500, 1_500), (1_501, 0, 0), (0, 1_501, 2**16 - 1), (0, 0, 1_501), (2**16 - 1,) * 3)
    for sheet, count, length, longitudinal, room in product(sheets, counts, lengths, peaks, EDGE_ROOMS):
        pitch = (bytes([count]) + pack_pitch(longitudinal)[1:] + bytes(255))[:length]
        yield Asked("order", sheet, pitch, room)


def edges():
    """One A_L at or past its limit in each tier of each stack."""
    for tiers, rule, a_l in product(range(1, MOST_TIERS + 1), (1, 2), EDGE_LONGITUDINAL):
        for tier in range(tiers):
            yield asked("edge", [HEAVY] * tiers, [700] * tier + [a_l] + [700] * (tiers - tier - 1), rule=rule)


def about_limit(chance, count):
    """Stacks whose lowest tier is reported a few newtons about the limit: from 124,996 to 125,004 N."""
    for _ in range(count):
        rule, share = chance.choice(((1, 9), (2, 10)))
        upper = [(chance.randint(1, 30_480), chance.randint(0, 1_500)) for _ in range(chance.randint(1, 4))]
        above = sum(mass * a_l for mass, a_l in upper)
        wanted = (500_000_000_000 // 981 - 20 * above) // share  # mass x A_L of the lowest
        for mass in chance.sample(range(1, 30_481), 200):
            a_l = round(wanted / mass)
            if 0 <= a_l <= MOST_LONGITUDINAL and abs(mass * a_l - wanted) < 1_800:
                tiers = [box(mass=each) for each, _ in ((mass, a_l), *upper)]
                yield asked("about the limit", tiers, [a_l, *(each for _, each in upper)], rule=rule)
                break


def whole_numbers(chance, count):
    """Rackings that are whole numbers of newtons, where rounding up adds nothing: mass x A_L multiples of 4,000,000."""
    choices = [(mass, a_l) for mass in range(2_000, 30_001, 2_000) for a_l in range(0, 1_501, 100) if mass * a_l % 4_000_000 == 0]
    for _ in range(count):
        boxes = [chance.choice(choices) for _ in range(chance.randint(1, MOST_TIERS))]
        tiers = [box(mass=mass) for mass, _ in boxes]
        yield asked("whole numbers", tiers, [a_l for _, a_l in boxes], rule=chance.choice((1, 2)))


def drawn(seed):
    """A sheet by its seed, with a short sheet that mostly goes with it."""
    chance, sheet = random.Random(-seed - 1), make(seed).data
    tiers = sheet[TIER_COUNT_PLACE] if len(sheet) > TIER_COUNT_PLACE else 1
    top = chance.choice((MOST_LONGITUDINAL,) * 18 + (MOST_LONGITUDINAL + 1, 2**16 - 1))
    least = chance.choice((0, 0, 0, 1_200))
    longitudinal = [chance.randint(least, top) for _ in range(tiers)]
    pitch = pack_pitch(longitudinal)
    fault = chance.random()
    if fault < 0.04:
        pitch = bytes([chance.randint(0, 12)]) + pitch[1:]
    elif fault < 0.08:
        pitch = (pitch + bytes(chance.randint(1, 3)))[chance.choice((0, 0, 1)) :]
    elif fault < 0.1:
        pitch = pitch[: chance.randint(0, len(pitch))]
    room = SIDE_ROOM if chance.random() < 0.9 else chance.choice((*EDGE_ROOMS, 2 + 8 * tiers))
    return Asked("by seed", sheet, pitch, room)


def pairs(seed=1, count=13_000):
    chance = random.Random(seed)
    yield from FIGURES
    yield from orders()
    yield from edges()
    yield from about_limit(chance, 2_000)
    yield from whole_numbers(chance, 1_000)
    yield from map(drawn, range(seed, seed + count))
