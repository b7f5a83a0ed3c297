"""Stacks and gear to ask for arrangements of: the request's own figures, every refusal of the gear in each place, cut and longer
sections, orders of refusals, and stacks with 0 to 8 lashes by seed."""

from dataclasses import dataclass, replace
from itertools import product
from random import Random

from reference import samples
from reference.cases import BOX_B, box, rod, rods, stack
from reference.faults import edit, limit_values
from reference.making import make
from sheets.gear import LIST_ROOM, pack_gear
from sheets.sheet import BOTTOM, LASH, LASH_LIMITS, MOST_LASHES, MOST_TIERS, SIDE, Head, Sheet, pack

EDGE_ROOMS = (0, 1, 2, LIST_ROOM - 1, LIST_ROOM, LIST_ROOM + 1)
COUNT_PLACE = 0  # of the gear's count
LEAST_DRAWN_TIERS = 3


def lash_place(lash):
    """Where a lash of the gear begins, counted from 0."""
    return 1 + LASH.size * lash


@dataclass(frozen=True)
class Asked:
    kind: str
    sheet: bytes
    gear: bytes
    room: int = LIST_ROOM

    def __str__(self):
        return f"{self.kind}: room {self.room}, sheet {self.sheet.hex()}, gear {self.gear.hex()}"


# The request's own figures, for the program cases_arrangements: (name, what is asked).


FAULTY = stack([BOX_B], rule=3)
BARE = stack([BOX_B] * 3)
SWAYING = [box(a_t=650, wind=1)] * 4  # some choices hold it and others not
ROUGH = [box(a_t=600)] * 5  # of four rods one pair holds it
HOPELESS = [box(a_t=1_500)] * 10
WEAK = rod(2, breaking=20_000)  # no choice with it is accepted


def figure(name, tiers, lashes, room=LIST_ROOM, **head):
    return name, Asked("figure", stack(tiers, **head), pack_gear(lashes), room)


def bytes_figure(name, sheet, gear, room=LIST_ROOM):
    return name, Asked("figure", sheet, gear, room)


def figures():
    yield figure("order-of-4", [BOX_B] * 3, rods(4))
    yield figure("order-of-8", [BOX_B] * 3, rods(8))
    yield figure("no-gear", [BOX_B] * 3, [])
    yield figure("no-gear-not-accepted", HOPELESS, [])
    yield figure("one-lash", [BOX_B], rods(1))
    yield figure("none-accepted", HOPELESS, rods(8))
    yield figure("some-accepted", SWAYING, rods(5))
    yield figure("fleet-standard", SWAYING, rods(5), rule=2)
    yield figure("turned-in-turn", [replace(tier, wind=1 + 2 * (i % 2)) for i, tier in enumerate(SWAYING)], rods(5))
    yield figure("all-turned", [replace(tier, wind=3) for tier in SWAYING], rods(5))
    yield figure("route-7", SWAYING, rods(5), route=7)
    yield figure("rough", ROUGH, rods(4))
    yield figure("weak-lash", [BOX_B] * 3, [rod(), WEAK, rod(2, BOTTOM)])
    yield figure("weak-lock", SWAYING, rods(5), lock_breaking=250_000)
    yield figure("two-tiers", [box(mass=30_000, a_t=900)] * 2, rods(6))
    yield from refused_figures()


def refused_figures():
    """Each refusal alone, and where two could be told."""
    gear, two = pack_gear(rods(2)), pack_gear([rod(2), rod(2, kind=SIDE)])
    yield bytes_figure("own-fault-first", FAULTY, b"", 0)
    yield bytes_figure("own-spare-first", stack([BOX_B], [rod()]) + b"\0", b"", 0)
    yield bytes_figure("lash-at-the-door", stack([BOX_B] * 3, [rod()]), b"\x09", 0)
    yield bytes_figure("lash-at-the-closed-end", stack([BOX_B] * 3, closed=[rod()]), gear)
    yield bytes_figure("no-gear-section", BARE, b"", 0)
    yield bytes_figure("nine-lashes", BARE, b"\x09", 0)
    yield bytes_figure("cut-lash", BARE, gear[:-1], 257)
    yield bytes_figure("no-lash-of-two", BARE, b"\x02")
    yield bytes_figure("spare-byte", BARE, gear + b"\0", 0)
    yield bytes_figure("spare-byte-of-none", BARE, b"\0\0")
    yield bytes_figure("wrong-field", BARE, pack_gear([rod(), rod(2, area=49)]), 0)
    yield bytes_figure("wrong-field-before-place", BARE, pack_gear([rod(4, ly=499)]))
    yield bytes_figure("tier-above-the-stack", BARE, pack_gear([rod(), rod(4)]))
    yield bytes_figure("tier-of-a-taller-stack", stack([BOX_B] * 4), pack_gear([rod(), rod(4)]))
    yield bytes_figure("bottom-of-tier-1", BARE, pack_gear([rod(1, BOTTOM)]))
    yield bytes_figure("same-twice", BARE, pack_gear([rod(), rod()]))
    yield bytes_figure("order-before-cut", BARE, pack_gear([rod(2), rod(), rod(3)])[:-1])
    yield bytes_figure("order-before-spare", BARE, pack_gear([rod(2), rod()]) + b"\0")
    yield bytes_figure("short-list", BARE, gear, 257)
    yield bytes_figure("no-list", BARE, b"\0", 0)
    yield bytes_figure("longer-list", BARE, two, 260)


FIGURES = tuple(figures())


# Refusals


def damages(lashes, place, tiers):
    """(fields of a lash at this place of the gear that turn it back): codes and limits, tiers that the stack has not, order."""
    for name, value in limit_values(LASH_LIMITS):
        yield {name: value}
    for tier in (0, tiers, tiers + 1, 255):
        yield {"tier": tier}
    yield {"tier": 1, "hook": BOTTOM}
    if place:
        before = lashes[place - 1]
        yield {"tier": before.tier, "hook": before.hook, "kind": before.kind}
        yield {"tier": before.tier, "hook": before.hook, "kind": before.kind, "area": 49}
        yield {"tier": lashes[0].tier, "hook": lashes[0].hook, "kind": lashes[0].kind}
    yield {"tier": 0, "lz": 499}


def faulty_lashes():
    """Each fault of a lash in each place of gears of 1 to 8; at times a fault stands behind it too, or bytes are missing or too many."""
    for count in range(1, MOST_LASHES + 1):
        for place in range(count):
            for turn, fields in enumerate(damages(rods(count), place, 3)):
                lashes = edit(rods(count), place, **fields)
                room = EDGE_ROOMS[turn % len(EDGE_ROOMS)]
                yield Asked("faulty lash", BARE, pack_gear(lashes), room)
                if turn % 4 == 1:
                    yield Asked("faulty lash", BARE, pack_gear(lashes) + b"\0", room)
                if turn % 4 == 0 and place + 1 < count:
                    yield Asked("faulty lash", BARE, pack_gear(edit(lashes, place + 1, tier=0)), LIST_ROOM)
                    yield Asked("faulty lash", BARE, pack_gear(lashes)[: lash_place(place + 1)], LIST_ROOM)


def lengths():
    """Gears of each count cut at every length, and with spare bytes."""
    for count in range(MOST_LASHES + 1):
        gear = pack_gear(rods(count))
        for length in range(len(gear)):
            yield Asked("cut gear", BARE, gear[:length], EDGE_ROOMS[length % len(EDGE_ROOMS)])
        for more in (1, 2, 19, 20, 21, 400):
            yield Asked("spare bytes", BARE, gear + bytes([1] * more), EDGE_ROOMS[more % len(EDGE_ROOMS)])
    for count, length in product((*range(7, 14), 127, 128, 136, 255), (1, 20, 21, 161, 181, 300)):
        data = (pack_gear(rods(8), count) + bytes(300))[:length]
        yield Asked("miscounted gear", BARE, data, EDGE_ROOMS[(count + length) % len(EDGE_ROOMS)])


def orders():
    """Faults of the sheet, of the gear and of the room, alone and together; a sheet that holds a lash at either end."""
    lash = [rod()]
    sheets = (
        BARE, b"", FAULTY, BARE[:-1], BARE + b"\0", stack([BOX_B] * 3, lash), stack([BOX_B] * 3, closed=lash),
        stack([BOX_B] * 3, lash, lash), stack([BOX_B] * 3, rods(8), rods(8)), stack([BOX_B] * 3, [rod(), rod()]),
        stack([BOX_B] * 3, [rod(4)]), stack([BOX_B] * 3, lash)[:-1], stack([BOX_B] * 3, lash) + b"\0",
    )
    gears = (
        pack_gear(rods(2)), b"", b"\0", b"\0\0", b"\x09", b"\xff", pack_gear(rods(2))[:-1], pack_gear(rods(2)) + b"\0",
        pack_gear([rod(kind=2)]), pack_gear([rod(4)]), pack_gear([rod(2), rod()]), pack_gear([rod(2), rod(), rod(3)])[:-1],
        pack_gear([rod(2), rod()]) + b"\0",
    )
    for sheet, gear, room in product(sheets, gears, EDGE_ROOMS):
        yield Asked("order", sheet, gear, room)


# Stacks that are taken


def bare(sheet):
    return replace(sheet, door=(), closed=())


def any_hooks(random, tier_count, count):
    places = samples.hooks(tier_count)
    return sorted(random.sample(places, min(count, len(places))))


def realistic(random, tier_count, count):
    """A stack that often needs some of its lashes, which are rods of different strength, from the deck or a lashing bridge."""
    tiers = samples.realistic_tiers(random, random.choice((20, 40)), tier_count)
    lighter, calm = random.uniform(0.2, 1), random.random() < 0.5
    tiers = tuple(replace(tier, mass=max(1, int(tier.mass * lighter)), wind=tier.wind // 2 * 2 if calm else tier.wind) for tier in tiers)
    lashes = tuple(
        samples.realistic_lash(random, tiers, max(0, place[0] - random.choice((2, 2, 3, 4))), place, random.choice((380, 490, 531)),
                               random.choice((1, 1, 0, 2, 3)))
        for place in any_hooks(random, tier_count, count)
    )
    head = Head(samples.rule(random), random.choice((0, random.randint(0, 12))), random.randint(0, 2), 0, 500_000)
    return Sheet(head, tiers, (), ()), lashes


def extreme(random, tier_count, count):
    """Values at their limits; the lighter of them, so that some are accepted."""
    size, mass, calm = random.choice((20, 40)), random.choice((1, 500, 3_000, 30_480)), random.random() < 0.5
    tiers = (samples.extreme_tier(random, size) for _ in range(tier_count))
    tiers = tuple(replace(tier, mass=min(tier.mass, mass), wind=tier.wind // 2 * 2 if calm else tier.wind) for tier in tiers)
    lashes = tuple(samples.extreme_lash(random, place, random.random() < 0.3) for place in any_hooks(random, tier_count, count))
    head = Head(samples.rule(random), random.randint(0, 12), random.randint(0, 2), 0, random.choice((1, 100_000, 2_000_000)))
    return Sheet(head, tiers, (), ()), lashes


def near(random, turn):
    """A stack of which a choice, at one end, has a force within some newtons of its limit."""
    sheet = samples.near(random, turn)
    return bare(sheet), random.choice((sheet.door, sheet.closed))


def damaged(random, turn):
    """A sheet at fault, or with lashes, beside gear that is mostly whole."""
    sheet = make(turn).data
    gear = pack_gear(rods(random.randint(0, 8)))
    return sheet, gear if random.random() < 0.7 else gear[: random.randint(0, len(gear))]


KINDS = ("realistic", "realistic", "extreme", "near a limit", "damaged")


def drawn(seed):
    """What is asked by a number: the kinds take turns, and in each gears of 0 to 8 lashes on stacks of 3 to 10 tiers."""
    random, kind, turn = Random(f"arrangements {seed}"), KINDS[seed % len(KINDS)], seed // len(KINDS)
    room = LIST_ROOM if random.random() < 0.9 else random.choice(EDGE_ROOMS)
    if kind == "damaged":
        return Asked(kind, *damaged(random, turn), room)
    count, tiers = turn % (MOST_LASHES + 1), LEAST_DRAWN_TIERS + turn // (MOST_LASHES + 1) % (MOST_TIERS - LEAST_DRAWN_TIERS + 1)
    if kind == "near a limit":
        sheet, lashes = near(random, turn)
    else:
        sheet, lashes = (realistic if kind == "realistic" else extreme)(random, tiers, count)
    return Asked(kind, pack(sheet), pack_gear(lashes), room)


def low():
    """Stacks of one and two tiers with as many lashes as they have places for."""
    for tiers, count in ((1, 2), (2, 6)):
        for lashes in range(count + 1):
            yield Asked("low", stack([BOX_B] * tiers), pack_gear(rods(lashes)))
            yield Asked("low", stack([box(mass=30_480, a_t=1_000, wind=1)] * tiers), pack_gear(rods(lashes)))


def edges():
    """All but what is drawn by seed."""
    yield from (asked for _, asked in FIGURES)
    yield from faulty_lashes()
    yield from lengths()
    yield from orders()
    yield from low()
