"""Sheets at the edge of what is taken: each field at and past its limits, and damaged bytes."""

from dataclasses import replace
from itertools import accumulate

from reference.samples import extreme, hooks, realistic
from sheets.sheet import (
    BOTTOM, CLOSED, CROSS, DOOR, HEAD, HEAD_LIMITS, HEIGHTS, LASH, LASH_LIMITS, MOST_LASHES,
    MOST_TIERS, SIDE, TIER, TIER_LIMITS, TOP, pack,
)

BYTE_FIELDS = ("rule", "route", "lock_material", "wind", "hook", "kind", "material")
LONG_FIELDS = ("lock_breaking", "modulus", "breaking")
FIRST, SECOND, LAST = 0, 1, -1


def widest(name):
    """The greatest number that a field's bytes can hold."""
    return 2 ** (8 if name in BYTE_FIELDS else 32 if name in LONG_FIELDS else 16) - 1


def limit_values(limits):
    """(field, value): each field's limits, one past each, and its widest value."""
    for name, (least, greatest) in limits.items():
        for value in sorted({max(least - 1, 0), least, greatest, greatest + 1, widest(name)}):
            yield name, value


# Edits of a sheet


def edit(entries, index, **changes):
    """The entries with one of them changed."""
    entries = list(entries)
    entries[index] = replace(entries[index], **changes)
    return tuple(entries)


def edit_head(sheet, **changes):
    return replace(sheet, head=replace(sheet.head, **changes))


def edit_tier(sheet, index, **changes):
    return replace(sheet, tiers=edit(sheet.tiers, index, **changes))


def edit_lash(sheet, end, index, **changes):
    name = "door" if end == DOOR else "closed"
    return replace(sheet, **{name: edit(sheet.lashes(end), index, **changes)})


def lashed(sheet, end, places):
    """The sheet with lashes at these places (tier, hook, kind) of an end, alike in all else."""
    model = sheet.lashes(end)[0]
    lashes = tuple(replace(model, tier=t, hook=h, kind=k) for t, h, k in places)
    return replace(sheet, **{"door" if end == DOOR else "closed": lashes})


# Edges. Each is a name and a function from a sheet (three tiers or more, two lashes an end or more).


def head_edges():
    for name, value in [*limit_values(HEAD_LIMITS), ("zero", 1), ("zero", 255)]:
        yield f"head {name} {value}", lambda s, n=name, v=value: edit_head(s, **{n: v})


def tier_edges(index):
    for name, value in limit_values(TIER_LIMITS):
        yield f"tier {name} {value}", lambda s, n=name, v=value: edit_tier(s, index, **{n: v})
    for wind in (1, 2):
        yield f"tier wind {wind}", lambda s, v=wind: edit_tier(s, index, wind=v)
    for size in (0, 20, 21, 39, 40, 41, 255):
        yield f"tier size {size}", lambda s, v=size: edit_tier(s, index, size=v)
    heights = sorted({h + d for pair in HEIGHTS.values() for h in pair for d in (-1, 0, 1)})
    for size, height in [(size, h) for size in HEIGHTS for h in heights]:
        yield f"{size} feet, {height}", lambda s, a=size, b=height: edit_tier(s, index, size=a, height=b)
    for a_vmax, a_vmin in [(0, 0), (0, 1), (999, 999), (998, 999), (1000, 1000), (999, 1000), (1001, 1001)]:
        yield f"A_Vmax {a_vmax}, A_Vmin {a_vmin}", lambda s, a=a_vmax, b=a_vmin: edit_tier(
            s, index, a_vmax=a, a_vmin=b
        )


def lash_edges(end, index):
    for name, value in limit_values(LASH_LIMITS):
        yield f"lash {name} {value}", lambda s, n=name, v=value: edit_lash(s, end, index, **{n: v})
    for past in (0, 1, 2):
        yield f"lash tier count + {past}", lambda s, p=past: edit_lash(s, end, LAST, tier=len(s.tiers) + p)
    yield "lash tier 0", lambda s: edit_lash(s, end, index, tier=0)
    yield "lash tier 255", lambda s: edit_lash(s, end, index, tier=255)
    yield "bottom of tier 1", lambda s: edit_lash(s, end, index, tier=1, hook=BOTTOM)


def order_edges(end):
    """Pairs of places in and out of sheet order."""
    for first, second in (
        ((2, TOP, CROSS), (2, TOP, CROSS)),
        ((2, TOP, CROSS), (2, TOP, SIDE)),
        ((2, TOP, SIDE), (2, TOP, CROSS)),
        ((2, TOP, SIDE), (2, BOTTOM, CROSS)),
        ((2, BOTTOM, CROSS), (2, TOP, SIDE)),
        ((2, BOTTOM, SIDE), (2, BOTTOM, SIDE)),
        ((2, BOTTOM, SIDE), (3, TOP, CROSS)),
        ((2, TOP, CROSS), (1, TOP, SIDE)),
        ((1, TOP, SIDE), (2, BOTTOM, CROSS)),
    ):
        places = (first, second)
        yield f"lashes {first} {second}", lambda s, p=places: lashed(s, end, p)


def count_edges():
    for count in (1, 2, MOST_TIERS, MOST_TIERS + 1):
        yield f"{count} tiers", lambda s, c=count: tall(s, c)
    for end in (DOOR, CLOSED):
        for count in (0, 1, MOST_LASHES, MOST_LASHES + 1):
            places = hooks(3)[:count]
            yield f"{count} lashes", lambda s, e=end, p=places: lashed(s, e, p)


def tall(sheet, count):
    """The sheet with this many tiers and its lashes on the lowest tier."""
    bare = replace(sheet, tiers=(sheet.tiers[0],) * count)
    for end in (DOOR, CLOSED):
        bare = lashed(bare, end, [(1, TOP, CROSS), (1, TOP, SIDE)])
    return bare


def order_of_tests():
    """Two faults in one item, where the lower number comes first."""
    yield "3 before 4", lambda s: edit_head(s, zero=1, route=13)
    for rule in (0, 3):
        yield "3 before 4", lambda s, r=rule: edit_head(s, rule=r, route=13)
        yield "3 before 5", lambda s, r=rule: edit_head(s, rule=r, lock_material=3)
    for rule in (1, 2):
        yield "4 before 5", lambda s, r=rule: edit_head(s, rule=r, route=13, lock_breaking=0)
    other = {20: 40, 40: 20}
    for name, value in (("mass", 0), ("wind", 4), ("a_t", 1_501), ("height", 2_895)):
        yield "7 before 8", lambda s, n=name, v=value: edit_tier(
            s, LAST, **{"size": other[s.tiers[0].size], "height": 2_591, n: v}
        )
    for size, height in ((20, 2_438), (40, 2_896), (20, 2_896), (40, 2_438)):
        yield f"8 by size {size}, {height}", lambda s, a=size, b=height: edit_tier(
            edit_tier(s, FIRST, size=other[a], height=2_591), SECOND, size=a, height=b
        )
    for end in (DOOR, CLOSED):
        yield "10 before 11", lambda s, e=end: edit_lash(s, e, FIRST, tier=0, ly=499)
        yield "10 before 12", lambda s, e=end: edit_lash(twice(s, e), e, SECOND, area=49)
        yield "11 before 12", lambda s, e=end: edit_lash(twice(s, e), e, SECOND, tier=0)
        yield "11 before 12", lambda s, e=end: edit_lash(twice(s, e), e, SECOND, tier=1, hook=BOTTOM)


def twice(sheet, end):
    return lashed(sheet, end, [(2, TOP, CROSS)] * 2)


def edges():
    found = [*head_edges(), *count_edges(), *order_of_tests()]
    for index in (FIRST, SECOND, LAST):
        found += tier_edges(index)
    for end in (DOOR, CLOSED):
        found += order_edges(end)
        for index in (FIRST, LAST):
            found += lash_edges(end, index)
    return found


EDGES = edges()


def host(random):
    """A legal stack of three tiers or more with two lashes an end or more."""
    while True:
        sheet = random.choice((realistic, extreme))(random)
        if len(sheet.tiers) >= 3 and min(len(sheet.door), len(sheet.closed)) >= 2:
            return sheet


def edge(random, turn):
    """The name and bytes of an edge; from the second round on some are cut or have spare bytes."""
    name, change = EDGES[turn % len(EDGES)]
    data = pack(change(host(random)))
    chance = random.random() if turn >= len(EDGES) else 1
    if chance < 0.1:
        return f"{name}, cut", data[: random.randint(0, len(data))]
    if chance < 0.2:
        return f"{name}, spare", data + bytes(random.randint(1, 30))
    return name, data


# Damage


def places(sheet):
    """Where each item of a sheet begins, and its end."""
    sizes = [HEAD.size, 1] + [TIER.size] * len(sheet.tiers)
    for lashes in (sheet.door, sheet.closed):
        sizes += [1] + [LASH.size] * len(lashes)
    return [0, *accumulate(sizes)]


def truncated(random, sheet, turn):
    data = pack(sheet)
    if turn % 2:
        return data[: random.randint(0, len(data) - 1)]
    return data[: max(0, random.choice(places(sheet)) - random.randint(0, 1))]


def spare(random, sheet, turn):
    """From one spare byte to more than any program needs to read, some to just fill 451 to 453 bytes."""
    data = pack(sheet)
    fill = [size - len(data) for size in (451, 452, 453) if size > len(data)]
    count = random.choice([1, 2, 20, 200, 5_000, *fill] + [70_000] * (turn % 8 == 0))
    return data + random.randbytes(count)


def flipped(random, sheet, turn):
    """One to four bytes changed, at times by a single bit."""
    data = bytearray(pack(sheet))
    for _ in range(random.choice((1, 1, 1, 2, 4))):
        place = random.randrange(len(data))
        data[place] = data[place] ^ (1 << random.randrange(8)) if turn % 2 else random.randrange(256)
    return bytes(data)


COUNTS = (*range(0, 14), 127, 128, 136, 138, 254, 255)


def miscounted(random, sheet, turn):
    """Each of the three counts at each of COUNTS in turn, then at any value."""
    counts = [None, None, None]
    value = COUNTS[turn // 3] if turn < 3 * len(COUNTS) else random.randrange(256)
    counts[turn % 3] = value
    return pack(sheet, counts)


def noise(random, sheet, turn):
    """Bytes at random, or two entries of a legal sheet exchanged."""
    if turn % 2:
        return random.randbytes(random.randint(0, 60))
    name = random.choice(("tiers", "door", "closed"))
    entries = list(getattr(sheet, name))
    random.shuffle(entries)
    return pack(replace(sheet, **{name: tuple(entries)}))


DAMAGES = (truncated, spare, flipped, miscounted, noise, flipped)


def damaged(random, turn):
    """The name and bytes of a damaged sheet."""
    damage = DAMAGES[turn % len(DAMAGES)]
    sheet = random.choice((realistic, extreme))(random)
    return damage.__name__, damage(random, sheet, turn // len(DAMAGES))
