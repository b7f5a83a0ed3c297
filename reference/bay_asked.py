"""Bays to ask: boxes that show just more or less than a third, gaps of 0 to 4 empty rows, mixed sizes, refusals, bays by seed."""

import random
from dataclasses import dataclass
from itertools import product

from reference.cases import FLAT, box, rod, stack
from reference.faults import EDGES, damaged, host
from reference.samples import realistic_lashes, realistic_tiers, rule
from sheets.bay import MOST_ROWS, REPORT_ROOM, pack_bay
from sheets.sheet import HEIGHTS, MOST_TIERS, Head, Sheet, pack

ROOMS = (0, 9, 833, 834, REPORT_ROOM - 1, REPORT_ROOM + 1)
GAPS = range(5)
EMPTY = b""


@dataclass(frozen=True)
class Asked:
    kind: str
    data: bytes
    room: int = REPORT_ROOM

    def __str__(self):
        return f"{self.kind}: room {self.room}, bay of {len(self.data)} bytes {self.data[:2_000].hex()}"


def asked(kind, rows, room=REPORT_ROOM):
    return Asked(kind, pack_bay(rows), room)


# Rows without lashes: what the wind does to them shows in every racking.


def column(size, heights, wind=0, mass=5_000, a_t=300, **head):
    """A row of boxes of these heights."""
    return stack([box(size=size, height=height, mass=mass, a_t=a_t, wind=wind) for height in heights], **head)


def even(size, count, **more):
    return column(size, (HEIGHTS[size][0],) * count, **more)


TALL = column(40, (HEIGHTS[40][1],) * MOST_TIERS, mass=2_000)  # shelters whatever stands beside it
LOW = even(40, 1)


def above_third(own, beside):
    """Thirds of a millimetre that the top box of a column shows more than a third of itself above another column."""
    return 3 * sum(own) - own[-1] - 3 * sum(beside)


def columns(size):
    """Heights of every column of boxes of a size, up to their order below the top."""
    low, high = HEIGHTS[size]
    for count in range(1, MOST_TIERS + 1):
        for highs in range(count):
            for top in (low, high):
                yield (high,) * highs + (low,) * (count - 1 - highs) + (top,)


def closest():
    """(size, heights, size beside, heights beside): columns whose top box shows just more or just less than a third, for each box."""
    found = {}
    for size, size_beside in ((20, 20), (20, 40), (40, 40)):
        for own, beside in product(columns(size), columns(size_beside)):
            above = above_third(own, beside)
            key = (size, size_beside, own[-1], above > 0)
            if key not in found or abs(above) < abs(above_third(found[key][1], found[key][3])):
                found[key] = (size, own, size_beside, beside)
    return list(found.values())


CLOSEST = closest()


def thirds():
    """The closest columns with the other side sheltered: the neighbour to starboard, to port, at once, and behind empty rows."""
    for size, own, size_beside, beside in CLOSEST:
        for wind in range(4):
            row, other = column(size, own, wind=wind), column(size_beside, beside)
            for gap in range(3):
                between = [EMPTY] * gap
                yield asked("third", [TALL, row, *between, other])
                yield asked("third", [other, *between, row, TALL])
            yield asked("third", [other, row, other])


def gaps():
    """A row between others at every pair of gaps; then the second nearest row, higher or lower than the nearest."""
    for size, low in product(HEIGHTS, (TALL, LOW, even(20, 3))):
        row = even(size, 3)
        for left, right in product(GAPS, GAPS):
            yield asked("gap", [TALL, *[EMPTY] * left, row, *[EMPTY] * right, low])
            yield asked("gap", [TALL, row, *[EMPTY] * left, low, *[EMPTY] * right, TALL])
        for left, right in product(GAPS, (0, 2, 3)):
            yield asked("gap", [*[EMPTY] * left, row, *[EMPTY] * right])


def sizes():
    """Rows of 20 and of 40 feet beside each other, of each count of tiers from 1 to 3, turned and not, under either rule."""
    rows = [even(size, count, wind=2 * (count % 2), rule=1 + count % 2) for size, count in product(HEIGHTS, (1, 2, 3))]
    for left, middle, right in product(rows, repeat=3):
        yield asked("size", [left, middle, right])


def counts():
    """Every count of rows: all empty, one loaded, all loaded."""
    for count in range(1, MOST_ROWS + 1):
        yield asked("count", [EMPTY] * count)
        yield asked("count", [LOW] * count)
        yield asked("count", [even(20, 1 + number % 4, rule=1 + number % 2) for number in range(count)])
    for place in range(MOST_ROWS):
        rows = [EMPTY] * MOST_ROWS
        rows[place] = even(40, 2)
        yield asked("count", rows)


# Bays and rows that are turned back


def broken():
    """Refusal 16, also where rows are at fault and the buffer is short."""
    good, bad = even(40, 2), LOW + b"\0"
    for room, row in product((REPORT_ROOM, REPORT_ROOM - 1, 0), (good, bad, EMPTY)):
        whole = pack_bay([row, good])
        short = [EMPTY, b"\0", b"\0\0\0", *(whole[:at] for at in range(len(whole)))]
        spare = [whole + b"\0", whole + bytes(2), whole + bytes(700)]
        miscounted = [pack_bay([row, good], count) for count in (0, 1, 3, 24, 25, 26, 255)]
        many = [pack_bay([row] * count, count) for count in (25, 26)]
        for data in (*short, *spare, *miscounted, *many):
            yield Asked("broken", data, room)
        for off in (-1, 1):
            yield Asked("broken", with_length(whole, 1, len(row) + off), room)
            yield Asked("broken", with_length(whole, 3 + len(row), len(good) + off), room)


def with_length(data, place, length):
    return data[:place] + (length % 2**16).to_bytes(2, "little") + data[place + 2 :]


FAULTY = (
    b"\0", LOW[:-1], LOW + b"\0", even(40, 1, rule=3), even(40, 1, route=13), even(40, 1, lock_material=3), stack([box()] * 11),
    column(40, (2_591,), mass=0), stack([box(), box(size=20)]), LOW[:-1] + b"\x09", stack([box()], [rod(ly=0)]),
    stack([box()], [rod(2)]), stack([box()], [rod(), rod()]), column(40, (2_591,), wind=4), bytes(65_535),
)


def refused():
    """A faulty row in every place, alone, before and behind another one; then each in a full bay with a short buffer."""
    good = even(40, 2)
    for number, fault in enumerate(FAULTY):
        for count, place in ((1, 0), (2, 0), (2, 1), (3, 1), (24, 23), (24, number)):
            rows = [good if index % 3 else EMPTY for index in range(count)]
            rows[place] = fault
            yield asked("refused", rows)
        for other in FAULTY:
            yield asked("refused", [good, fault, EMPTY, other])
        yield asked("refused", [good, EMPTY, fault], REPORT_ROOM - 1)
    for place in range(MOST_ROWS):
        rows = [good] * MOST_ROWS
        rows[place] = FAULTY[3 + place % 10]
        yield asked("refused", rows)
        yield asked("refused", rows, REPORT_ROOM - 1)


def rooms():
    for room, rows in product((*ROOMS, REPORT_ROOM), ([EMPTY], [LOW], [LOW, EMPTY, TALL], [EMPTY] * MOST_ROWS)):
        yield asked("room", rows, room)


def edges():
    for draw in (thirds, gaps, sizes, counts, broken, refused, rooms, lambda: (each for _, each in FIGURES)):
        yield from draw()


# By seed


def lashed_row(chance, count):
    """A realistic stack of this many tiers."""
    tiers = realistic_tiers(chance, chance.choice((20, 40, 40)), count)
    door = realistic_lashes(chance, tiers)
    closed = door if chance.random() < 0.7 else realistic_lashes(chance, tiers)
    head = Head(rule(chance), chance.choice((0, chance.randint(0, 12))), chance.choice((1, 0, 2)), 0, 500_000)
    return pack(Sheet(head, tiers, door, closed))


def drawn_rows(chance):
    """Rows of much the same height or of any, with gaps of 0 to 4 between."""
    count = chance.choice((1, 2, 3, 3, 4, 5, 6, 8, 11, MOST_ROWS))
    usual, rows = chance.randint(1, 9), []
    alike, full = chance.random() < 0.7, chance.random() < 0.3
    while len(rows) < count:
        rows += [EMPTY] * (0 if full else chance.choice((0, 0, 0, 1, 2, 3, 4)))
        tiers = usual + chance.choice((-1, 0, 0, 1)) if alike else chance.randint(1, MOST_TIERS)
        rows.append(lashed_row(chance, max(1, tiers)))
    return rows[:count]


def faulty_row(chance):
    """A stack sheet that is mostly turned back; some are at an edge and are taken."""
    if chance.random() < 0.7:
        return pack(chance.choice(EDGES)[1](host(chance)))
    return damaged(chance, chance.randrange(60))[1][:2_000]


def drawn(seed):
    """A bay by its seed, mostly taken."""
    chance = random.Random(seed)
    rows = drawn_rows(chance)
    if chance.random() < 0.2:
        for _ in range(chance.choice((1, 1, 2))):
            rows[chance.randrange(len(rows))] = faulty_row(chance)
    data = pack_bay(rows)
    if chance.random() < 0.06:
        at = chance.randrange(len(data))
        data = chance.choice((data[:at], data + chance.randbytes(1), data[:at] + chance.randbytes(1) + data[at + 1 :]))
    room = REPORT_ROOM if chance.random() < 0.95 else chance.choice(ROOMS)
    return Asked("by seed", data, room)


# The request's own figures, for the program cases_bay: (name, what is asked).

# Two rods at the top of the door end pull the light box back: the greatest racking is to windward, 130,837 N against 123,308 N.
PULLED_BACK = stack(
    [box(mass=mass, a_t=a_t, a_vmax=1_000, a_vmin=1_000) for mass, a_t in ((2_000, 1_000), (10_000, 1_000), (30_480, 1_000), (2_000, 0))],
    [rod(4, area=1_000, **FLAT), rod(4, kind=1, **FLAT)],
    [rod(1, **FLAT), rod(2, **FLAT)],
)


HEAVY = {"mass": 30_480, "a_t": 1_500}  # such a row has the greatest racking of its bay, which shows its wind
RODS = [rod(2, area=1_000)]


def closest_to(size, size_beside, height, above):
    """A heavy and a light row: the closest columns of these sizes by a top box of this height that shows more than a third, or less."""
    for size_, own, beside_, heights in CLOSEST:
        if (size_, beside_, own[-1], above_third(own, heights) > 0) == (size, size_beside, height, above):
            return column(size_, own, **HEAVY), column(beside_, heights)
    raise ValueError("no such columns")


def figures():
    """What the wind reaches, the totals, then the refusals, alone and where two could be told."""
    heavy, light = even(40, 3, **HEAVY), even(40, 3)
    yield "one-row", asked("figure", [heavy])
    yield "all-empty", asked("figure", [EMPTY] * 3)
    yield "full-bay", asked("figure", [LOW] * MOST_ROWS)
    yield "side-by-side", asked("figure", [light, heavy, light])
    for gap in range(1, 5):
        yield f"gap-{gap}", asked("figure", [TALL, heavy, *[EMPTY] * gap, light])
        yield f"gap-{gap}-to-port", asked("figure", [light, *[EMPTY] * gap, heavy, TALL])
    yield "at-starboard", asked("figure", [EMPTY, TALL, heavy, EMPTY])
    yield "nearest-is-low", asked("figure", [TALL, heavy, LOW, TALL])
    yield "nearest-is-high", asked("figure", [TALL, heavy, TALL, LOW])
    yield "low-behind-two-empty", asked("figure", [TALL, heavy, EMPTY, EMPTY, LOW, TALL])
    for size, beside in ((40, 40), (20, 40), (20, 20)):
        for height, above in product(HEIGHTS[size], (False, True)):
            name = f"{size}-feet-beside-{beside}-{'above' if above else 'under'}-a-third-of-{height}"
            yield name, asked("figure", [TALL, *closest_to(size, beside, height, above)])
    yield "forty-beside-twenty", asked("figure", [TALL, heavy, even(20, 4), TALL])
    for wind in range(4):
        turned = stack([box(wind=wind, **HEAVY), *[box(wind=wind % 2, **HEAVY)] * 2], RODS, RODS)
        yield f"wind-byte-{wind}-sheltered", asked("figure", [light, turned, light])
        yield f"wind-byte-{wind}-exposed", asked("figure", [light, turned, LOW])
    yield "mixed-rules", asked("figure", [light, even(40, 3, rule=2, **HEAVY), even(20, 2, rule=2)])
    yield "to-windward", asked("figure", [PULLED_BACK, EMPTY, LOW])
    yield "not-accepted", asked("figure", [LOW, heavy, EMPTY, light])
    yield from figures_refused(light)


def figures_refused(row):
    faulty, empty = even(40, 1, route=13), [EMPTY]
    yield "no-bytes", Asked("figure", b"")
    yield "no-rows", Asked("figure", b"\0")
    yield "25-rows", Asked("figure", pack_bay([EMPTY] * 25))
    yield "past-the-end", Asked("figure", pack_bay([row, row])[:-1])
    yield "spare-byte", Asked("figure", pack_bay([row, row]) + b"\0")
    yield "16-before-a-row", Asked("figure", pack_bay([faulty]) + b"\0", REPORT_ROOM - 1)
    yield "first-row-refused", asked("figure", [faulty, row + b"\0"])
    yield "last-row-refused", asked("figure", [row, EMPTY, row, row + b"\0"])
    yield "short-row", asked("figure", [row, b"\1"])
    yield "row-24-refused", asked("figure", empty * 23 + [faulty])
    yield "row-before-room", asked("figure", [row, faulty], REPORT_ROOM - 1)
    yield "short-buffer", asked("figure", [row], REPORT_ROOM - 1)
    yield "no-buffer", asked("figure", empty, 0)


FIGURES = tuple(figures())
