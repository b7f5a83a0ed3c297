"""Says in words what a refusal's two numbers mean at that place of the sheet."""

from lashtool.fields import (
    ENDS, HEAD_FIELDS, LASH_FIELDS, LOCK_FIELDS, TIER_FIELDS, field, lash_place,
)
from lashtool.forecast import with_route
from sheets.sheet import (
    HEAD, HEAD_LIMITS, HEIGHTS, LASH, MOST_LASHES, MOST_TIERS, TIER, TIER_LIMITS, Head, Lash, Refused, Tier,
    lash_faults, outside, parse, sheet_order, tier_faults,
)

WITH_ROUTE = 20  # of the check by a forecast


def items(data):
    """(place, size, name) of each item in reading order, as far as the counts can be read."""
    yield 0, HEAD.size, "the head"
    yield HEAD.size, 1, "the tier count"
    place = HEAD.size + 1
    for number in range(count_at(data, HEAD.size)):
        yield place, TIER.size, f"tier {number + 1}"
        place += TIER.size
    for end in ENDS:
        yield place, 1, f"the {end} end's lash count"
        count = count_at(data, place)
        place += 1
        for number in range(1, count + 1):
            yield place, LASH.size, f"{end} end, lash {number}"
            place += LASH.size


def count_at(data, place):
    return data[place] if place < len(data) else 0


def explain(data, number, second):
    """The meaning of a refusal, naming the place and the field."""
    try:
        sheet = parse(data)
        if number == WITH_ROUTE and sheet.head.route:
            return with_route(sheet.head.route)
    except Refused as due:
        if (due.number, due.second) == (number, second):
            return EXPLANATIONS[number](data, second)
    return "what this means for these bytes is not known here"


def item_at(data, place):
    return next(item for item in items(data) if item[0] == place)


def bytes_of(place, size):
    return f"bytes {place} to {place + size - 1}" if size > 1 else f"byte {place}"


def too_short(data, second):
    place, size, name = next(item for item in items(data) if item[0] + item[1] > len(data))
    return f"the sheet has {second} bytes, too few for {name} ({bytes_of(place, size)})"


def spare_bytes(data, second):
    return f"bytes follow the last entry: {len(data) - second} from byte {second} on"


def head_of(data):
    return Head(*HEAD.unpack_from(data))


def wrong_rule(data, second):
    head = head_of(data)
    if outside(head, HEAD_LIMITS, "rule"):
        return f"the head: rule {head.rule} is not known; it has to be {field(HEAD_FIELDS, 'rule').allowed()}"
    return f"the head: byte 3 is {head.zero}; it has to be 0"


def wrong_route(data, second):
    return f"the head: {out_of_range(head_of(data), HEAD_FIELDS, 'route')}"


def wrong_lock(data, second):
    head = head_of(data)
    names = [name for name in ("lock_material", "lock_breaking") if outside(head, HEAD_LIMITS, name)]
    return "the head: " + ", ".join(f"lock {out_of_range(head, LOCK_FIELDS, name)}" for name in names)


def wrong_tier_count(data, second):
    return f"the tier count (byte {second}) is {data[second]}; a stack has 1 to {MOST_TIERS} tiers"


def out_of_range(entry, fields, attribute):
    known = field(fields, attribute)
    value = getattr(entry, attribute)
    if known.words:
        return f"{known.name} has {known.shown(value)}; codes are 0 to {len(known.words) - 1}"
    return f"{known.name} {value:,} is outside {known.allowed()}"


def entry_explained(layout, kind, sentence):
    """An explanation that names the tier or lash at a place and says what is wrong with it."""

    def explanation(data, second):
        place, size, name = item_at(data, second)
        entry = kind(*layout.unpack_from(data, second))
        return f"{name} ({bytes_of(place, size)}): {sentence(data, entry, place)}"

    return explanation


def tier_fields(data, tier, place):
    return ", ".join(tier_fault(tier, attribute) for attribute in tier_faults(tier))


def tier_fault(tier, attribute):
    if attribute == "size":
        return f"size {tier.size} is not 20 or 40 feet"
    if attribute == "wind":
        return f"wind has code {tier.wind}; codes are 0 to {TIER_LIMITS['wind'][1]}"
    if attribute == "height":
        low, high = HEIGHTS[tier.size]
        return f"height {tier.height:,} is not {low:,} or {high:,} mm, the heights at {tier.size} feet"
    if attribute == "a_vmin" and tier.a_vmin <= field(TIER_FIELDS, "a_vmin").limits[1]:
        return f"A_Vmin {tier.a_vmin:,} is above A_Vmax {tier.a_vmax:,}"
    return out_of_range(tier, TIER_FIELDS, attribute)


def other_size(data, tier, place):
    first = Tier(*TIER.unpack_from(data, HEAD.size + 1))
    return f"size {tier.size} feet differs from tier 1, which has {first.size}"


def too_many_lashes(data, second):
    _, _, name = item_at(data, second)
    return f"{name} (byte {second}) is {data[second]}; at most {MOST_LASHES} are allowed"


def lash_fields(data, lash, place):
    return ", ".join(out_of_range(lash, LASH_FIELDS, attribute) for attribute in lash_faults(lash))


def misplaced(data, lash, place):
    if 1 <= lash.tier <= data[HEAD.size]:
        return "it is hooked to the bottom corner of tier 1, which stands on the deck"
    return f"tier {lash.tier} is not in this stack of {data[HEAD.size]} tiers"


def out_of_order(data, lash, place):
    before = Lash(*LASH.unpack_from(data, place - LASH.size))
    if sheet_order(before) == sheet_order(lash):
        return f"{lash_place(lash)} is given twice, here and right before"
    due = "lashes go by tier, then hook (top first), then kind (cross first)"
    return f"{lash_place(lash)} comes after {lash_place(before)}; {due}"


EXPLANATIONS = {
    1: too_short,
    2: spare_bytes,
    3: wrong_rule,
    4: wrong_route,
    5: wrong_lock,
    6: wrong_tier_count,
    7: entry_explained(TIER, Tier, tier_fields),
    8: entry_explained(TIER, Tier, other_size),
    9: too_many_lashes,
    10: entry_explained(LASH, Lash, lash_fields),
    11: entry_explained(LASH, Lash, misplaced),
    12: entry_explained(LASH, Lash, out_of_order),
}
