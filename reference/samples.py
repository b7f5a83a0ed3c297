"""Legal stacks drawn at random: realistic ones, ones of extreme values, ones close to a limit, ones of chosen lash lengths."""

from dataclasses import replace
from fractions import Fraction
from math import isqrt

from reference.stack import exact, exact_end
from sheets.limits import (
    COMPRESSION_LIMIT, CORNER, CORNER_LIMIT, HIGHER_STRENGTH, LASH_ATHWART_LIMIT, LASH_VERTICAL_LIMIT, LOCK, RACKING_LIMIT,
    safe_working_load,
)
from sheets.sheet import (
    BOTTOM, CLOSED, CROSS, DOOR, HEAD_LIMITS, HEIGHTS, LASH_LIMITS, MOST_LASHES, MOST_TIERS, SIDE,
    TIER_LIMITS, TOP, Head, Lash, Sheet, Tier,
)


def hooks(tier_count):
    """Every place for a lash, in sheet order."""
    return [
        (tier, hook, kind)
        for tier in range(1, tier_count + 1)
        for hook in (TOP, BOTTOM)
        for kind in (CROSS, SIDE)
        if (tier, hook) != (1, BOTTOM)
    ]


def bottom_hooks(sheet):
    """(level, kind, whether a lash of its end is hooked above) of each lash hooked to a bottom corner."""
    for end in (DOOR, CLOSED):
        highest = max((lash.level for lash in sheet.lashes(end)), default=0)
        yield from ((lash.level, lash.kind, lash.level < highest) for lash in sheet.lashes(end) if lash.hook == BOTTOM)


# Where a bottom hook may lie: levels 1 to 9, cross and side, with lashes above and without.
BOTTOM_HOOKS = {(level, kind, above) for level in range(1, MOST_TIERS) for kind in (CROSS, SIDE) for above in (False, True)}


def rule(random):
    """Either rule number, as often."""
    return random.randint(*HEAD_LIMITS["rule"])


def turns(random, count):
    """For each tier 2 where its box stands turned, else 0: none, all, every other one, or any of them."""
    mixed = [random.choice((0, 2)) for _ in range(count)]
    return random.choice(([0] * count, [2] * count, [2 * (index % 2) for index in range(count)], mixed, mixed))


# Realistic


def realistic(random):
    size = random.choice((20, 40, 40))
    count = random.choice((1, 2, 3, 4, 5, 6, 7, 8, 8, 8, 9, 10))
    tiers = realistic_tiers(random, size, count)
    door = realistic_lashes(random, tiers)
    closed = door if random.random() < 0.7 else realistic_lashes(random, tiers)
    head = Head(rule(random), random.choice((0, random.randint(0, 12))), random.choice((1, 1, 0, 2)), 0, 500_000)
    return Sheet(head, tiers, door, closed)


def realistic_tiers(random, size, count):
    """Heavy boxes below, accelerations that grow upward, wind on the upper tiers or on all."""
    sheltered = random.choice((0, count, random.randint(0, count)))
    heaviest = random.choice((12_000, 20_000, 30_480))
    a_t, step = random.randint(250, 600), random.randint(0, 25)
    a_vmax, a_vmin = random.randint(1_050, 1_600), random.randint(400, 950)
    tiers = []
    for index, turn in enumerate(turns(random, count)):
        most = heaviest if random.random() < 0.1 else heaviest * (count - index) // count
        mass = random.randint(min(2_200, most), most)
        wind = turn + (1 if index >= sheltered else 0)
        height = random.choice(HEIGHTS[size])
        tiers.append(Tier(size, wind, height, mass, a_t + index * step, a_vmax, a_vmin))
    return tuple(tiers)


def realistic_lashes(random, tiers):
    """Cross lashes and some side lashes from the deck, or from a lashing bridge one to three tiers high."""
    bridge = min(random.choice((0, 0, 1, 2, 3)), len(tiers) - 1)
    within = [place for place in hooks(min(len(tiers), bridge + 3)) if place[0] > bridge]
    places = [place for place in within if place[2] == CROSS or random.random() < 0.25]
    chosen = sorted(random.sample(places, min(len(places), random.choice((0, 1, 2, 2, 4, 8)))))
    area, material = random.choice((380, 490, 531)), random.choice((1, 1, 1, 0, 2, 3))
    return tuple(realistic_lash(random, tiers, bridge, place, area, material) for place in chosen)


def realistic_lash(random, tiers, bridge, place, area, material):
    tier, hook, kind = place
    level = tier if hook == TOP else tier - 1
    lz = max(1_000, sum(box.height for box in tiers[bridge:level]) - random.randint(0, 400))
    ly = random.randint(1_900, 2_300) if kind == CROSS else random.randint(600, 1_500)
    modulus = 97_100 if lz < 4_500 else 176_600
    breaking = random.choice((490_000, 490_000, 360_000))
    return Lash(tier, hook, kind, material, random.randint(0, 450), ly, lz, area, modulus, breaking)


# Extreme


def extreme(random):
    size = random.choice((20, 40))
    count = random.choice((1, 2, 3, MOST_TIERS, MOST_TIERS, random.randint(1, MOST_TIERS)))
    tiers = tuple(extreme_tier(random, size) for _ in range(count))
    head = Head(
        rule(random), random.randint(0, 12), random.randint(0, 2), 0, corner(random, HEAD_LIMITS, "lock_breaking")
    )
    return Sheet(head, tiers, extreme_lashes(random, count), extreme_lashes(random, count))


def corner(random, limits, name):
    """Mostly one of a field's two limits."""
    least, greatest = limits[name]
    return random.choice((least, greatest, greatest, random.randint(least, greatest)))


def extreme_tier(random, size):
    a_vmax = corner(random, TIER_LIMITS, "a_vmax")
    return Tier(
        size,
        random.randint(*TIER_LIMITS["wind"]),
        random.choice(HEIGHTS[size]),
        corner(random, TIER_LIMITS, "mass"),
        corner(random, TIER_LIMITS, "a_t"),
        a_vmax,
        min(corner(random, TIER_LIMITS, "a_vmin"), a_vmax),
    )


def extreme_lashes(random, tier_count):
    """Up to eight lashes anywhere, or crowded on the highest or the lowest hooks, or on bottom hooks alone."""
    places = hooks(tier_count)
    count = min(len(places), random.choice((0, 1, 2, 4, MOST_LASHES, MOST_LASHES)))
    bottoms = [place for place in places if place[1] == BOTTOM]
    anywhere, on_bottoms = (sorted(random.sample(each, min(len(each), count))) for each in (places, bottoms))
    chosen = random.choice((anywhere, places[-count:], places[:count], on_bottoms))
    steep = random.random() < 0.3
    return tuple(extreme_lash(random, place, steep) for place in chosen[:count])


def extreme_lash(random, place, steep):
    names = [name for name in LASH_LIMITS if name not in ("hook", "kind")]
    fields = {name: corner(random, LASH_LIMITS, name) for name in names}
    if steep:
        fields.update(ly=LASH_LIMITS["ly"][0], lz=LASH_LIMITS["lz"][1])
    return Lash(*place, **fields)


# Close to a limit

KILONEWTON = 1_000
LIMITED = {
    "racking": RACKING_LIMIT,
    "compression": COMPRESSION_LIMIT,
    "tension": CORNER_LIMIT,
    "vertical": LASH_VERTICAL_LIMIT,
    "athwart": LASH_ATHWART_LIMIT,
}
GEAR = ("lock", "lash")
ATTEMPTS = 20


def near(random, turn):
    """A stack with a force within some newtons of its limit."""
    names = (*LIMITED, *GEAR, "every gear", "two limits")
    name = names[turn % len(names)]
    if name == "every gear":
        return near_gear(random)
    draw = near_two_limits if name == "two limits" else near_safe_load if name in GEAR else near_force
    for _ in range(ATTEMPTS):
        sheet = draw(random, name)
        if sheet:
            return sheet
    return extreme(random)


def aim(random):
    """How far a force is aimed above its limit: mostly below, since reports lie above the exact force."""
    return random.uniform(random.choice((-12, -12, -12, -25)), 2)


def sizes(end, name):
    """The sizes of the forces of one name that are checked; a lock's are the stack's tensions."""
    if name in ("vertical", "athwart"):
        return [getattr(forces, name) for forces in end.lashes]
    if name == "lash":
        return [forces.tension for forces in end.lashes]
    name = "tension" if name == "lock" else name
    return [abs(force) for force in getattr(end, name)[1 if name == "compression" else 0 :]]


def near_force(random, name):
    """A force close to its limit in CR Table 2-3."""
    sheet = heavy(random)
    end = random.choice((DOOR, CLOSED))
    target = LIMITED[name] + Fraction(aim(random))
    over = [index for index, size in enumerate(sizes(exact_end(sheet, end), name)) if size > target]
    return trimmed(sheet, end, name, random.choice(over), target) if over else None


def near_safe_load(random, name):
    """A pull close to a whole kilonewton, and gear whose safe working load that is."""
    sheet = heavy(random)
    end = random.choice((DOOR, CLOSED))
    found = sizes(exact_end(sheet, end), name)
    over = [index for index, size in enumerate(found) if size > 2 * KILONEWTON]
    if not over:
        return None
    index = random.choice(over)
    kilonewtons = int(found[index] // KILONEWTON)
    sheet = trimmed(sheet, end, name, index, kilonewtons * KILONEWTON + Fraction(aim(random)))
    return sheet and with_safe_load(random, sheet, end, name, index, kilonewtons)


def near_two_limits(random, name):
    """A tension close to the corner's limit or the lock's, whose safe working load is that limit or a kilonewton beside it."""
    sheet = heavy(random)
    end = random.choice((DOOR, CLOSED))
    corner_kilonewtons = CORNER_LIMIT // KILONEWTON
    kilonewtons = corner_kilonewtons + random.choice((-1, 0, 1))
    target = random.choice((kilonewtons, corner_kilonewtons)) * KILONEWTON + Fraction(random.uniform(-12, 12))
    over = [index for index, size in enumerate(sizes(exact_end(sheet, end), "lock")) if size > target]
    sheet = trimmed(sheet, end, "lock", random.choice(over), target) if over else None
    return sheet and with_safe_load(random, sheet, end, "lock", None, kilonewtons)


def pulls_about(sheet, ends):
    """(-1, 0 or 1 where the lock's safe load lies below, at or above the corner's limit, the kind of a limit, whether it is
    exceeded) of each tension within 25 N of either limit; of stacks whose two limits lie up to two kilonewtons apart."""
    lock = safe_working_load(sheet.head.lock_breaking, sheet.head.lock_material)
    if abs(lock - CORNER_LIMIT) <= 2 * KILONEWTON:
        side = (lock > CORNER_LIMIT) - (lock < CORNER_LIMIT)
        for tension in (tension for end in ends for tension in end.tension):
            for kind, limit in ((CORNER, CORNER_LIMIT), (LOCK, lock)):
                if abs(tension - limit) <= 25:
                    yield side, kind, tension > limit


PULLS_ABOUT = {(side, kind, over) for side in (-1, 0, 1) for kind in (CORNER, LOCK) for over in (False, True)}


def with_safe_load(random, sheet, end, name, index, kilonewtons):
    if name == "lock":
        breaking = breaking_of(random, kilonewtons, sheet.head.lock_material)
        return replace(sheet, head=replace(sheet.head, lock_breaking=breaking))
    lashes = list(sheet.lashes(end))
    breaking = breaking_of(random, kilonewtons, lashes[index].material)
    lashes[index] = replace(lashes[index], breaking=breaking)
    return replace(sheet, **{("door", "closed")[end]: tuple(lashes)})


def trimmed(sheet, end, name, index, target):
    """Forces without wind grow with the masses: scale them to the target, then trim one light box."""

    def force(masses):
        return sizes(exact_end(with_masses(sheet, masses), end), name)[index]

    factor = target / force([tier.mass for tier in sheet.tiers])
    masses = [max(1, int(tier.mass * factor)) for tier in sheet.tiers]
    masses[0] = 15_000
    heavier = [25_000] + masses[1:]
    before, after = force(masses), force(heavier)
    if before == after:
        return None
    masses[0] += round((target - before) * 10_000 / (after - before))
    return with_masses(sheet, masses) if 1 <= masses[0] <= 30_480 else None


def with_masses(sheet, masses):
    tiers = tuple(replace(tier, mass=mass) for tier, mass in zip(sheet.tiers, masses))
    return replace(sheet, tiers=tiers)


def heavy(random):
    """A stack of great forces without wind, whose lowest box weighs little in them."""
    size = random.choice((20, 40))
    count = random.randint(2, 8)
    a_t, a_vmax, a_vmin = random.randint(600, 1_500), random.randint(1_500, 3_000), random.randint(0, 300)
    tiers = [
        Tier(size, turn, random.choice(HEIGHTS[size]), random.randint(15_000, 30_480), a_t, a_vmax, a_vmin)
        for turn in turns(random, count)
    ]
    tiers[0] = replace(tiers[0], a_t=random.randint(20, 60), a_vmax=60, a_vmin=random.randint(0, 60))
    lashes = random.choice((realistic_lashes, lambda random, tiers: extreme_lashes(random, len(tiers))))
    head = Head(rule(random), random.randint(0, 12), random.randint(0, 2), 0, random.randint(100_000, 2_000_000))
    return Sheet(head, tuple(tiers), lashes(random, tiers), lashes(random, tiers))


def near_gear(random):
    """Safe working loads of the last whole kilonewton below each pull, of the first above it, or of none."""
    sheet = random.choice((realistic, heavy))(random)
    ends = exact(sheet)
    greatest = max(max(end.tension) for end in ends)
    lock = breaking_for(random, greatest, sheet.head.lock_material)
    lashed = [
        tuple(
            replace(lash, breaking=breaking_for(random, forces.tension, lash.material))
            for lash, forces in zip(sheet.lashes(index), end.lashes)
        )
        for index, end in enumerate(ends)
    ]
    return Sheet(replace(sheet.head, lock_breaking=lock), sheet.tiers, *lashed)


def breaking_for(random, force, material):
    below = int(force // KILONEWTON)
    return breaking_of(random, random.choice((below, below, below + 1, 0)), material)


def breaking_of(random, kilonewtons, material):
    """The least or the greatest breaking load for a safe working load, or one newton beside it."""
    unit = 1_670 if material == HIGHER_STRENGTH else 2_000
    breaking = unit * kilonewtons + random.choice((-1, 0, 1, unit - 1, unit - 1))
    least, greatest = LASH_LIMITS["breaking"]
    return min(max(breaking, least), greatest)


# Of chosen lash lengths

SIDES = ("lx", "ly", "lz")
SHORTEST, LONGEST = (tuple(LASH_LIMITS[name][end] for name in SIDES) for end in (0, 1))
# What a lash's length may be hard to find for: the sum of its sides' squares, its longest side, the ends of the ranges.
LENGTHS = (
    "a square", "one more than a square", "one less than a square", "LX longest", "LY longest", "LZ longest", "shortest", "longest",
)


def kinds_of_sides(*sides):
    """Which of LENGTHS a lash of these sides is."""
    total = sum(side * side for side in sides)
    yield from (kind for kind, more in zip(LENGTHS, (0, 1, -1)) if isqrt(total - more) ** 2 == total - more)
    yield from (f"{name.upper()} longest" for name, side in zip(SIDES, sides) if sorted(sides)[1] < side)
    yield from (kind for kind, limit in (("shortest", SHORTEST), ("longest", LONGEST)) if sides == limit)


def length_kinds(sheet):
    """Those of each lash."""
    for end in (DOOR, CLOSED):
        for lash in sheet.lashes(end):
            yield from kinds_of_sides(lash.lx, lash.ly, lash.lz)


def lengths(random):
    """A heavy stack, so that a millimetre of a lash's length shows in its pull."""
    sheet = heavy(random)
    lashes = [
        tuple(lash_of_length(random, place) for place in sorted(random.sample(hooks(len(sheet.tiers)), random.randint(1, 2))))
        for _ in (DOOR, CLOSED)
    ]
    return Sheet(sheet.head, sheet.tiers, *lashes)


def lash_of_length(random, place):
    sides = random.choice((SHORTEST, LONGEST)) if random.random() < 0.2 else drawn_sides(random)
    stiff = {name: LASH_LIMITS[name][1] for name in ("area", "modulus", "breaking")}
    return Lash(*place, random.randint(*LASH_LIMITS["material"]), *sides, **stiff)


def drawn_sides(random):
    """Sides whose squares add up to a square or one beside it, or of which a chosen one is the longest."""
    kind = random.randrange(6)
    return sides_beside_square(random, kind - 1) if kind < 3 else sides_led_by(random, SIDES[kind - 3])


def sides_beside_square(random, more):
    """LX² + LY² + LZ² = k² + more, so that k - LZ divides LX² + LY² - more."""
    least, greatest = LASH_LIMITS["lz"]
    while True:
        lx, ly = (random.randint(*LASH_LIMITS[name]) for name in ("lx", "ly"))
        product = lx * lx + ly * ly - more
        smallest = product // (3 * greatest) + 1
        for near in range(random.randint(smallest, isqrt(product)), smallest, -1):
            if product % near == 0:
                twice = product // near - near
                if twice % 2 == 0 and least <= twice // 2 <= greatest:
                    return lx, ly, twice // 2


def sides_led_by(random, longest):
    """Sides of which the one of this name is the longest."""
    most = random.randint(1_000, LASH_LIMITS[longest][1])
    drawn = {name: random.randint(LASH_LIMITS[name][0], min(most - 1, LASH_LIMITS[name][1])) for name in SIDES}
    return tuple({**drawn, longest: most}.values())
