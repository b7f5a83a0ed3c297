"""A commented description to start from, and the table of all fields."""

from lashtool.fields import (
    ACCELERATION_FIELDS, GEAR_FIELDS, HEAD_FIELDS, HEIGHT_FIELD, LASH_FIELDS, LOCK_FIELDS, LONGITUDINAL_FIELD, POSITION_FIELDS, ROUTES,
    SHIP_FIELDS, TIER_FIELDS, field,
)
from sheets.sheet import ROUTE_PERCENT

# A stack that is accepted: what stands in the template where there is no default, and where there is.
BOX = {"A_T": 400, "A_Vmax": 1_200, "A_Vmin": 800}
ROD = {"LY": 2_200, "LZ": 2_500, "area": 490, "modulus": 97_000}
MASSES = (24_000, 16_000, 8_000)
# What need not be given, though it has no default.
NOT_ALWAYS = {
    **dict.fromkeys(ACCELERATION_FIELDS, "worked out if there is a ship, else must be given"),
    **dict.fromkeys((*SHIP_FIELDS, *POSITION_FIELDS), "needed where accelerations are worked out"),
    HEIGHT_FIELD: "from `position.foot` and the heights",
    LONGITUDINAL_FIELD: "needed by `--side`",
}
SHIP = {"length": 300_000, "roll_angle": 2_500, "roll_period": 2_000, "a0": 2_012, "roll_centre": 15_000}
PITCH = {"A_L": 250}
PLACE = {"x": 150_000, "y": 12_000, "foot": 20_000}


def template():
    """The text of a description that checks as it stands."""
    routes = "\n".join(f"#   {number:2} {name}" for number, name in enumerate(ROUTES))
    tiers = "\n\n".join(f"[[tier]]\nmass = {mass:_}" for mass in MASSES)
    return f"""\
# A container stack for ./lash. What has a default may be left out; numbers may be written 24_000.
title = "Three tiers"

{settings(HEAD_FIELDS, {})}
# Routes:
{routes}

[lock]
{settings(LOCK_FIELDS, {})}

# What is the same in most tiers; a tier's own fields go before these.
[box]
{settings(shared(TIER_FIELDS, "mass"), BOX)}
# For the side walls, asked for by --side:
{commented(settings((LONGITUDINAL_FIELD,), PITCH))}

{from_roll()}

# The tiers, bottom first, 1 to 10.
# mass: {remark(field(TIER_FIELDS, "mass"))}
{tiers}

# What is the same for most lashes; a lash's own fields go before these. Only lashes that resist the heel to
# lee are entered, not their mirror images.
[gear]
{settings(shared(GEAR_FIELDS, "tier"), ROD)}

# The lashes, at most 8 an end; each corner takes one of a kind.
# tier: {remark(field(LASH_FIELDS, "tier"))}
[[lash]]
tier = 1
hook = "top"

[[lash]]
tier = 2
hook = "bottom"
"""


def from_roll():
    """The lines on a ship's roll, all of them comments."""
    return f"""\
# In place of A_T, A_Vmax and A_Vmin: the ship's roll and the stack's place, from which those that are not given are worked out
# (CR 5.2.4(a)). A box's centre is taken at 45% of its height by rule 1, at half by rule 2, unless the tier has z,
# {remark(HEIGHT_FIELD)}.
# [ship]
{commented(settings(SHIP_FIELDS, SHIP))}
# [position]
{commented(settings(POSITION_FIELDS, PLACE))}"""


def commented(text):
    return "\n".join(f"# {line}" for line in text.splitlines())


def shared(fields, own):
    """The fields but the one that each entry has of its own."""
    return [each for each in fields if each.name != own]


def settings(fields, values):
    return "\n".join(f"{setting(each, values):32} # {remark(each)}" for each in fields)


def setting(field, values):
    value = values.get(field.name, field.default)
    if field.words:
        return f'{field.name} = "{value if isinstance(value, str) else field.words[value]}"'
    if field.flag:
        return f"{field.name} = {field.shown(value)}"
    return f"{field.name} = {value:_}" if value >= 10_000 else f"{field.name} = {value}"


def remark(field):
    return f"{field.meaning} ({field.allowed()})"


def field_table():
    """Every field as rows of a table in Markdown."""
    yield "| field | unit | values | default | meaning |"
    yield "|---|---|---|---|---|"
    yield "| `title` | | text | none | heads the report |"
    for table, fields in (
        ("", HEAD_FIELDS), ("lock.", LOCK_FIELDS), ("tier.", (*TIER_FIELDS, LONGITUDINAL_FIELD)), ("lash.", GEAR_FIELDS),
        ("ship.", SHIP_FIELDS), ("position.", POSITION_FIELDS), ("tier.", (HEIGHT_FIELD,)),
    ):
        for each in fields:
            values = "`true` or `false`" if each.flag else each.range().replace('"', "`")
            yield f"| `{table}{each.name}` | {each.unit} | {values} | {default_words(each)} | {each.meaning} |"


def default_words(field):
    if field.default is None:
        return NOT_ALWAYS.get(field, "must be given")
    if field.words or field.flag:
        return f"`{field.shown(field.default)}`"
    return f"{field.default:,}"


def route_table():
    """The routes as rows of a table in Markdown."""
    yield "| route | name in CR | A_T times |"
    yield "|---|---|---|"
    for number, (name, percent) in enumerate(zip(ROUTES, ROUTE_PERCENT)):
        yield f"| {number} | {name} | {percent / 100:.2f} |"
