"""The stack sheet: its fields, codes, limits and bytes, and when it is turned back."""

from dataclasses import dataclass
from struct import Struct

DOOR, CLOSED = 0, 1
TOP, BOTTOM = 0, 1
CROSS, SIDE = 0, 1

# The answer buffer that the longest answer needs.
ANSWER_ROOM = 834
MOST_TIERS = 10
MOST_LASHES = 8

HEAD = Struct("<BBBBI")
TIER = Struct("<BBHHHHH")
LASH = Struct("<BBBBHHHHII")

TIER_COUNT_PLACE = HEAD.size

HEIGHTS = {20: (2438, 2591), 40: (2591, 2896)}

# By route code, the share of the transverse acceleration, in percent.
ROUTE_PERCENT = (100, 87, 96, 95, 94, 100, 95, 73, 86, 90, 90, 73, 87)

# Least and greatest value of each field that has a range.
HEAD_LIMITS = {"rule": (1, 2), "route": (0, 12), "lock_material": (0, 2), "lock_breaking": (1, 2_000_000)}
TIER_LIMITS = {
    "wind": (0, 3),
    "mass": (1, 30_480),
    "a_t": (0, 1_500),
    "a_vmax": (0, 3_000),
    "a_vmin": (0, 1_000),
}
LASH_LIMITS = {
    "hook": (0, 1),
    "kind": (0, 1),
    "material": (0, 3),
    "lx": (0, 5_000),
    "ly": (500, 10_000),
    "lz": (500, 20_000),
    "area": (50, 1_000),
    "modulus": (10_000, 200_000),
    "breaking": (1, 2_000_000),
}


def wind_code(exposed, turned):
    """A tier's wind byte."""
    return int(exposed) + 2 * int(turned)


@dataclass(frozen=True)
class Head:
    rule: int  # 1 class rule, 2 fleet standard
    route: int
    lock_material: int  # 0 ordinary steel, 1 higher strength, 2 nodular iron
    zero: int
    lock_breaking: int  # N


@dataclass(frozen=True)
class Tier:
    size: int  # feet
    wind: int  # 0 sheltered, 1 exposed, and 2 more where the box stands turned
    height: int  # mm
    mass: int  # kg
    a_t: int  # A_T, A_Vmax, A_Vmin in thousandths of g
    a_vmax: int
    a_vmin: int

    @property
    def exposed(self):
        return self.wind % 2 == 1

    @property
    def turned(self):
        """Whether its closed end stands at the door end of the sheet."""
        return self.wind // 2 == 1


@dataclass(frozen=True)
class Lash:
    tier: int
    hook: int  # 0 top corner, 1 bottom corner
    kind: int  # 0 cross, 1 side
    material: int  # 0 ordinary rod, 1 higher strength rod, 2 wire, 3 chain
    lx: int  # LX, LY, LZ: fore-and-aft, athwart, upward, mm
    ly: int
    lz: int
    area: int  # mm²
    modulus: int  # N/mm²
    breaking: int  # N

    @property
    def level(self):
        """The level of its hook: a top hook of tier i and a bottom hook of tier i+1 lie at level i."""
        return self.tier if self.hook == TOP else self.tier - 1


@dataclass(frozen=True)
class Sheet:
    head: Head
    tiers: tuple
    door: tuple
    closed: tuple

    def lashes(self, end):
        return self.door if end == DOOR else self.closed


class Refused(Exception):
    """A sheet turned back, with the two numbers returned."""

    def __init__(self, number, second):
        super().__init__(f"{number} {second}")
        self.number = number
        self.second = second


class Reader:
    """Hands out a sheet's bytes in order."""

    def __init__(self, data):
        self.data = data
        self.place = 0

    def take(self, size):
        if self.place + size > len(self.data):
            raise Refused(1, len(self.data))
        self.place += size
        return self.data[self.place - size : self.place]

    def count(self):
        return self.take(1)[0]


def pack(sheet, counts=(None, None, None)):
    """A sheet's bytes. A count that is given stands in place of the section's own."""
    sections = ((sheet.tiers, TIER), (sheet.door, LASH), (sheet.closed, LASH))
    data = HEAD.pack(*values(sheet.head))
    for (entries, layout), count in zip(sections, counts):
        data += bytes([len(entries) if count is None else count])
        data += b"".join(layout.pack(*values(entry)) for entry in entries)
    return data


def values(entry):
    return tuple(getattr(entry, name) for name in entry.__dataclass_fields__)


def parse(data, room=ANSWER_ROOM):
    """The sheet that the bytes hold, or the first refusal in the order of reading."""
    reader = Reader(data)
    head = read_head(reader)
    tiers = read_tiers(reader)
    door = read_lashes(reader, len(tiers))
    closed = read_lashes(reader, len(tiers))
    if reader.place < len(data):
        raise Refused(2, reader.place)
    if room < ANSWER_ROOM:
        raise Refused(13, ANSWER_ROOM)
    return Sheet(head, tiers, door, closed)


def read_head(reader):
    head = Head(*HEAD.unpack(reader.take(HEAD.size)))
    if outside(head, HEAD_LIMITS, "rule") or head.zero != 0:
        raise Refused(3, 0)
    if outside(head, HEAD_LIMITS, "route"):
        raise Refused(4, 1)
    if outside(head, HEAD_LIMITS, "lock_material") or outside(head, HEAD_LIMITS, "lock_breaking"):
        raise Refused(5, 2)
    return head


def read_tiers(reader):
    count = reader.count()
    if not 1 <= count <= MOST_TIERS:
        raise Refused(6, TIER_COUNT_PLACE)
    tiers = []
    for _ in range(count):
        place = reader.place
        tier = Tier(*TIER.unpack(reader.take(TIER.size)))
        if tier_faults(tier):
            raise Refused(7, place)
        if tiers and tier.size != tiers[0].size:
            raise Refused(8, place)
        tiers.append(tier)
    return tuple(tiers)


def read_lashes(reader, tier_count):
    place = reader.place
    count = reader.count()
    if count > MOST_LASHES:
        raise Refused(9, place)
    lashes = []
    for _ in range(count):
        place = reader.place
        lash = Lash(*LASH.unpack(reader.take(LASH.size)))
        if lash_faults(lash):
            raise Refused(10, place)
        if lash_misplaced(lash, tier_count):
            raise Refused(11, place)
        if lashes and sheet_order(lash) <= sheet_order(lashes[-1]):
            raise Refused(12, place)
        lashes.append(lash)
    return tuple(lashes)


def tier_faults(tier):
    """The fields of a tier outside their codes or limits. The box's own size decides its heights."""
    faults = [name for name in TIER_LIMITS if outside(tier, TIER_LIMITS, name)]
    if tier.size not in HEIGHTS:
        faults.append("size")
    elif tier.height not in HEIGHTS[tier.size]:
        faults.append("height")
    if tier.a_vmin > tier.a_vmax and "a_vmin" not in faults:
        faults.append("a_vmin")
    return faults


def lash_faults(lash):
    """The fields of a lash outside their codes or limits; its tier is judged by refusal 11."""
    return [name for name in LASH_LIMITS if outside(lash, LASH_LIMITS, name)]


def lash_misplaced(lash, tier_count):
    """Refusal 11: a tier that the stack does not have, or the bottom corner of tier 1."""
    return not 1 <= lash.tier <= tier_count or lash.level == 0


def sheet_order(lash):
    return (lash.tier, lash.hook, lash.kind)


def outside(entry, limits, name):
    least, greatest = limits[name]
    return not least <= getattr(entry, name) <= greatest
