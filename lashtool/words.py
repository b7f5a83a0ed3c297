"""A stack, its figures, findings and warnings in words."""

from lashtool.fields import ENDS, FLEET_STANDARD, LOCK_FIELDS, ROUTES, RULES, lash_place, word
from lashtool.figures import KEPT
from lashtool.geometry import RACKING_STIFFNESS, far_feet, level_height
from sheets.limits import (
    COMPRESSION, CORNER, LASH_ATHWART, LASH_TENSION, LASH_VERTICAL, LOCK, RACKING, safe_working_load,
)
from sheets.sheet import ROUTE_PERCENT

KIND_WORDS = {
    RACKING: "racking",
    COMPRESSION: "compression",
    CORNER: "corner tension",
    LOCK: "lock tension",
    LASH_TENSION: "lash tension",
    LASH_VERTICAL: "lash vertical part",
    LASH_ATHWART: "lash athwart part",
}
PLACE_WORDS = {
    **dict.fromkeys((RACKING,), "tier"),
    **dict.fromkeys((COMPRESSION, CORNER, LOCK), "level"),
    **dict.fromkeys((LASH_TENSION, LASH_VERTICAL, LASH_ATHWART), "lash"),
}
PAD_WORDS = (
    f"< {KEPT}: every figure is proved to be at least the exact force in size and less than {KEPT} N above it; "
    "so small a figure may stand for no force at all."
)
ONE_PULL_WORDS = (
    "Corner and lock tension are one pull against two limits: where it is over both, the finding names the lower limit, and the "
    "corner if they are equal."
)
FLEET_WORDS = (
    "Rule 2 is the fleet standard, one operator's own book, and not the class rule: a box's centre lies at half its height, and its "
    "transverse force F is shared half and half between its top and its bottom. The class rule takes 45% of the height, and "
    "45% of F on the top. All else is the same."
)


FORECAST_WORDS = (
    "By forecast (CR 5.2.4(d)): the wave height is the greatest significant one forecast for the whole voyage and 12 hours more, swell "
    "included. It is taken as given, and so is the rest of what CR asks of such a voyage: the ship's notation, the report's source and "
    "age, watching the weather, refuges."
)


def counted(number, noun):
    return f"{number} {noun}" if number == 1 else f"{number} {noun}s"


def ends_words(ends):
    return "both" if len(ends) == len(ENDS) else ENDS[ends[0]]


# The stack


def stack_words(sheet):
    mass = sum(tier.mass for tier in sheet.tiers)
    height = level_height(sheet, len(sheet.tiers))
    tiers = counted(len(sheet.tiers), "tier")
    return f"{tiers} of {sheet.tiers[0].size} feet, {mass:,} kg, {height:,} mm high"


def rule_words(head):
    return f"rule {head.rule} ({RULES[head.rule]})"


def rule_notes(head):
    """What a rule other than the class rule takes otherwise, in words."""
    return [FLEET_WORDS] if head.rule == FLEET_STANDARD else []


def route_words(head, forecast=None):
    """The rule, and what A_T is multiplied by: the route's factor, or the forecast's in its place."""
    route = f"route {head.route}, {ROUTES[head.route]}: A_T x {ROUTE_PERCENT[head.route] / 100:.2f}"
    return f"{rule_words(head)}; {forecast or route}"


def lock_safe_load(head):
    return safe_working_load(head.lock_breaking, head.lock_material)


def lock_words(head):
    material = word(LOCK_FIELDS, head, "lock_material")
    return f"locks: {material}, breaking load {head.lock_breaking:,} N, safe working load {lock_safe_load(head):,} N"


def stiffness_words(sheet):
    door, closed = RACKING_STIFFNESS
    turned = "; the other way round where a box stands turned" if any(tier.turned for tier in sheet.tiers) else ""
    return f"racking stiffness of each box: door end {door:,} N/mm, closed end {closed:,} N/mm{turned}"


def assumed_words(outcome):
    return f"not given and taken as: {'; '.join(outcome.assumed)}" if outcome.assumed else ""


def not_checked(outcome):
    """What no report covers. Accelerations that were worked out from roll are not given, and the roll is."""
    motion = "the ship's motion but for the roll described" if outcome.motion else "the ship's motion (accelerations are given)"
    return (
        f"Not covered: {motion}, side walls under pitching (--side asks for them), cell guides, buttresses, blocks of joined "
        "stacks, vertical lashings, mixed lengths. No class society has certified this program."
    )


def motion_words(outcome):
    """What was worked out from the ship's roll, and from what."""
    if not outcome.motion:
        return ""
    motion, by_names = outcome.motion, {}
    for each in motion.worked:
        by_names.setdefault(each.names, []).append(str(each.tier))
    tiers = "; ".join(
        f"{', '.join(names)} of {'tiers' if numbers[1:] else 'tier'} {', '.join(numbers)}" for names, numbers in by_names.items()
    )
    heights = ", ".join(f"{each.z:,}" for each in motion.worked)
    place = f"x {motion.position['x']:,} mm, y {motion.position['y']:,} mm, centres at z {heights} mm"
    return f"worked out from roll by CR 5.2.4(a): {tiers}; {motion.ship.words()}; {place}"


# What the check says


def verdict_words(outcome):
    if outcome.accepted:
        return "ACCEPTED"
    return f"NOT ACCEPTED: {counted(len(outcome.answer.findings), 'finding')}"


def place_words(outcome, figure):
    """Tier, level or lash of a figure, without its end."""
    if PLACE_WORDS[figure.kind] != "lash":
        return f"{PLACE_WORDS[figure.kind]} {figure.index}"
    lash = outcome.lash(figure.end, figure.index)
    return f"lash {outcome.number(figure.end, figure.index)} ({lash_place(lash)})"


def where(outcome, figure):
    return f"{ENDS[figure.end]} end, {place_words(outcome, figure)}"


def force_words(figure):
    return f"{figure.force_text} N{way_words(figure)}"


def way_words(figure):
    """Which way a racking points, where that is known."""
    if figure.kind != RACKING or figure.force_text.startswith("<"):
        return ""
    return " to windward" if figure.force < 0 else " to leeward"


def limit_words(figure):
    safe = figure.kind in (LOCK, LASH_TENSION)
    return f"the safe working load of {figure.limit:,} N" if safe else f"{figure.limit:,} N"


def finding_words(outcome, figure):
    force = f"{KIND_WORDS[figure.kind]} {force_words(figure)}"
    return f"{where(outcome, figure)}: {force} exceeds {limit_words(figure)}"


def worst_words(outcome):
    figure = outcome.worst()
    force = f"{KIND_WORDS[figure.kind]}{way_words(figure)} {figure.force_text} N"
    return f"{figure.used_text} at the {where(outcome, figure)}: {force} of {figure.limit:,} N"


def warnings(outcome):
    """What the check allows and a person should look at, a sentence each."""
    return [
        f"lash {row.number} ({lash_place(row.lash)}, {ends_words(row.ends)} end{'s' if len(row.ends) > 1 else ''}): {fault}"
        for row in outcome.listed()
        for fault in far_feet(outcome.sheet, row.lash)
    ]
