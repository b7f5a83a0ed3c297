"""The timed sheets, the same at every run, and the file that holds them."""

from dataclasses import dataclass, replace
from random import Random

from reference import samples
from sheets.bay import MOST_ROWS, pack_bay
from sheets.gear import pack_gear
from sheets.sheet import CLOSED, CROSS, DOOR, MOST_LASHES, MOST_TIERS, SIDE, TOP, Head, Sheet, pack, parse

KIND_SHEETS = 400
COLD_SHEETS = 2_000
GROWTH_SHEETS = 100
LASHED_TIERS = 4  # lashes of the growing groups reach this high
FIXED_PLACES = [(1, TOP, CROSS), (1, TOP, SIDE)]
# Sides of rods up to the longest and from the shortest that a sheet may have.
LONG_RODS = {"lx": (4_500, 5_000), "ly": (9_000, 10_000), "lz": (18_000, 20_000)}
SHORT_RODS = {"lx": (0, 50), "ly": (500, 550), "lz": (500, 550)}
# Numbers in the file from which on groups are cold, the bays' and the gears', as bench.c has them.
COLD_GROUP, BAY_GROUP, GEAR_GROUP = 64, 128, 192


@dataclass(frozen=True)
class Group:
    varies: str  # "kind", "cold", "tiers" or "lashes"
    value: object
    sheets: list  # bytes


def with_lashes(random, tier_count, door, closed):
    """A stack of forty-foot boxes with lashes at these places of its ends."""
    tiers = samples.realistic_tiers(random, 40, tier_count)
    ends = [
        tuple(samples.realistic_lash(random, tiers, 0, place, 490, 1) for place in places)
        for places in (door, closed)
    ]
    return Sheet(Head(samples.rule(random), 0, 1, 0, 500_000), tiers, *ends)


def tall(random, count):
    """A stack of this many tiers with two lashes an end."""
    return with_lashes(random, count, FIXED_PLACES, FIXED_PLACES)


def lashed(random, count):
    """A stack of ten tiers with this many lashes in all."""
    places = samples.hooks(LASHED_TIERS)
    halves = [sorted(random.sample(places, half)) for half in ((count + 1) // 2, count // 2)]
    return with_lashes(random, MOST_TIERS, *halves)


def rodded(random, sides):
    """A stack of ten tiers with eight lashes an end whose sides lie in these ranges."""
    sheet = lashed(random, 2 * MOST_LASHES)
    door, closed = (
        tuple(replace(lash, **{name: random.randint(*side) for name, side in sides.items()}) for lash in sheet.lashes(end))
        for end in (DOOR, CLOSED)
    )
    return replace(sheet, door=door, closed=closed)


def full(random):
    """A stack of ten tiers with eight lashes an end, its fields mostly at their limits."""
    sheet = samples.extreme(random)
    tiers = tuple(samples.extreme_tier(random, sheet.tiers[0].size) for _ in range(MOST_TIERS))
    places = samples.hooks(MOST_TIERS)
    ends = (tuple(samples.extreme_lash(random, place, False) for place in sorted(random.sample(places, MOST_LASHES))) for _ in "dc")
    return Sheet(sheet.head, tiers, *ends)


KINDS = {
    "realistic": samples.realistic,
    "extreme": samples.extreme,
    "long rods": lambda random: rodded(random, LONG_RODS),
    "short rods": lambda random: rodded(random, SHORT_RODS),
}


# Each sheet is seen once a round; half of the extreme ones have ten tiers and eight lashes an end.
COLD = {
    "realistic": samples.realistic,
    "extreme": lambda random: random.choice((samples.extreme, full))(random),
}


def group(varies, value, count, build):
    random = Random(f"{varies} {value}")
    sheets = [pack(build(random)) for _ in range(count)]
    for data in sheets:
        parse(data)  # raises for a sheet that would be refused
    return Group(varies, value, sheets)


def cold_groups():
    """The groups that are seen cold; their numbers in the file are from COLD_GROUP on."""
    return [group("cold", name, COLD_SHEETS, build) for name, build in COLD.items()]


def groups():
    """Every other group of sheets; its place in the list is its number in the file."""
    found = [group("kind", name, KIND_SHEETS, build) for name, build in KINDS.items()]
    for count in range(1, MOST_TIERS + 1):
        found.append(group("tiers", count, GROWTH_SHEETS, lambda random, c=count: tall(random, c)))
    for count in range(2 * MOST_LASHES + 1):
        found.append(group("lashes", count, GROWTH_SHEETS, lambda random, c=count: lashed(random, c)))
    return found


def bays(entry):
    """Full bays of a group's sheets, each sheet in one of them."""
    sheets = entry.sheets
    return [pack_bay(sheets[at : at + MOST_ROWS]) for at in range(0, len(sheets) - MOST_ROWS + 1, MOST_ROWS)]


def with_gear(sheet):
    """A stack without its lashes, with those of its door end as gear: the sheet's bytes, then the gear section's."""
    return pack(replace(sheet, door=(), closed=())) + pack_gear(sheet.door)


def lightened(sheet):
    """The stack with boxes so light, and out of the wind, that every choice of its lashes is accepted: both ends are worked for each."""
    return replace(sheet, tiers=tuple(replace(tier, mass=tier.mass // 20 + 1, wind=0) for tier in sheet.tiers))


def gears(entry):
    """The group's stacks with their gear: as they are, of which most choices are not accepted, and lightened."""
    sheets = [parse(data) for data in entry.sheets]
    return [with_gear(sheet) for sheet in sheets], [with_gear(lightened(sheet)) for sheet in sheets]


def write(path, found, cold, bays, gears):
    """For each sheet, then each bay, then each stack with its gear: its group's number in a byte, its length in two, least byte first, and
    its bytes."""
    with open(path, "wb") as file:
        sheets = [*enumerate(entry.sheets for entry in found), *enumerate((entry.sheets for entry in cold), COLD_GROUP)]
        for number, entry in [*sheets, (BAY_GROUP, bays), *enumerate(gears, GEAR_GROUP)]:
            for data in entry:
                file.write(bytes([number]) + len(data).to_bytes(2, "little") + data)
