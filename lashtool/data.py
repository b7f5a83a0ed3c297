"""The report as plain data for JSON."""

from lashtool.fields import ENDS, LASH_FIELDS, LOCK_FIELDS, ROUTES, RULES, SHIP_FIELDS, TIER_FIELDS, lash_place, word
from lashtool.figures import KEPT
from lashtool.geometry import RACKING_STIFFNESS, foot_height, foot_out, lash_length, level_height
from lashtool.words import (
    KIND_WORDS, PLACE_WORDS, finding_words, lock_safe_load, warnings, worst_words,
)
from sheets.limits import (
    COMPRESSION, CORNER, LASH_ATHWART, LASH_TENSION, LASH_VERTICAL, LOCK, RACKING, safe_working_load,
)
from sheets.sheet import ROUTE_PERCENT


def as_data(outcome):
    return {
        "title": outcome.title,
        "accepted": outcome.accepted,
        "worst_use": {**placed_data(outcome, outcome.worst()), "text": worst_words(outcome)},
        "findings": [
            {**placed_data(outcome, figure), "text": finding_words(outcome, figure)} for figure in outcome.findings()
        ],
        "warnings": warnings(outcome),
        "assumed": outcome.assumed,
        **({"worked_out": motion_data(outcome.motion)} if outcome.motion else {}),
        "stack": stack_data(outcome),
        "figures_less_than_N_above_exact": KEPT,
        "ends": [end_data(outcome, end) for end in range(len(ENDS))],
    }


def motion_data(motion):
    """The accelerations that were worked out from the ship's roll, and from what."""
    return {
        "ship": fields_data(SHIP_FIELDS, motion.ship),
        "position": dict(motion.position),
        "tiers": [{"tier": each.tier, "z": each.z, "accelerations": list(each.names)} for each in motion.worked],
    }


# What was checked


def stack_data(outcome):
    sheet = outcome.sheet
    head = sheet.head
    return {
        "rule": head.rule,
        "rule_name": RULES[head.rule],
        **factor_data(head, outcome.forecast),
        "lock": {
            "material": word(LOCK_FIELDS, head, "lock_material"),
            "breaking_load": head.lock_breaking,
            "safe_working_load": lock_safe_load(head),
        },
        "racking_stiffness": dict(zip(ENDS, RACKING_STIFFNESS)),
        "mass": sum(tier.mass for tier in sheet.tiers),
        "height": level_height(sheet, len(sheet.tiers)),
        "tiers": [{"tier": n, **fields_data(TIER_FIELDS, tier)} for n, tier in enumerate(sheet.tiers, 1)],
        "lashes": [lash_data(sheet, row) for row in outcome.listed()],
    }


def factor_data(head, forecast):
    """What A_T is multiplied by: the route's factor, or the forecast's in its place."""
    if forecast:
        return {"forecast": forecast.as_data()}
    return {"route": {"number": head.route, "name": ROUTES[head.route], "A_T_percent": ROUTE_PERCENT[head.route]}}


def fields_data(fields, entry):
    """An entry's values by the names of a description."""
    return {
        field.name: field.shown(getattr(entry, field.attribute)) if field.words else getattr(entry, field.attribute)
        for field in fields
    }


def lash_data(sheet, row):
    return {
        "lash": row.number,
        "ends": [ENDS[end] for end in row.ends],
        **fields_data(LASH_FIELDS, row.lash),
        "safe_working_load": safe_working_load(row.lash.breaking, row.lash.material),
        "length": lash_length(row.lash),
        "foot_above_deck": foot_height(sheet, row.lash),
        "foot_to_windward_of_stack": foot_out(row.lash),
    }


# Figures


def figure_data(figure):
    return {"force": figure.force, "limit": figure.limit, "used_percent": figure.used, "over": figure.over}


def place_data(outcome, figure):
    """Tier, level or lash, as a person counts it."""
    if PLACE_WORDS[figure.kind] == "lash":
        return {"lash": outcome.number(figure.end, figure.index)}
    return {PLACE_WORDS[figure.kind]: figure.index}


def placed_data(outcome, figure):
    return {
        "end": ENDS[figure.end],
        "kind": figure.kind,
        "name": KIND_WORDS[figure.kind],
        **place_data(outcome, figure),
        **figure_data(figure),
    }


def end_data(outcome, end):
    data = {"end": ENDS[end]}
    for kind in (RACKING, COMPRESSION, CORNER, LOCK):
        data[KIND_WORDS[kind].replace(" ", "_")] = [
            {**place_data(outcome, figure), **figure_data(figure)}
            for figure in outcome.figures.values()
            if (figure.end, figure.kind) == (end, kind)
        ]
    data["lashes"] = [lash_figures(outcome, end, index) for index in outcome.order(end)]
    return data


def lash_figures(outcome, end, index):
    parts = {"tension": LASH_TENSION, "vertical": LASH_VERTICAL, "athwart": LASH_ATHWART}
    entry = {"lash": outcome.number(end, index), "place": lash_place(outcome.lash(end, index))}
    entry.update({name: figure_data(outcome.figure(end, kind, index)) for name, kind in parts.items()})
    return entry
