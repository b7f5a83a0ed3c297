"""The fields of a readable stack: their names, units, limits, meaning and what they are when not given."""

from dataclasses import dataclass

from sheets.sheet import HEAD_LIMITS, HEIGHTS, LASH_LIMITS, MOST_TIERS, TIER_LIMITS
from sheets.side import MOST_LONGITUDINAL


@dataclass(frozen=True)
class Field:
    name: str  # in a description
    attribute: str  # in a sheet's entry
    meaning: str
    default: object = None  # none: it has to be given
    limits: tuple = None  # least and greatest
    choices: tuple = ()  # the only numbers allowed
    words: tuple = ()  # by code
    flag: bool = False  # true or false
    unit: str = ""

    def shown(self, value):
        """A sheet's value as a person reads it."""
        if self.words:
            return self.words[value] if value < len(self.words) else f"code {value}"
        if self.flag:
            return "true" if value else "false"
        return f"{value:,} {self.unit}".rstrip()

    def range(self):
        """The values allowed, without their unit."""
        if self.words:
            return " or ".join(f'"{word}"' for word in self.words)
        if self.flag:
            return "true or false"
        if self.choices:
            return " or ".join(f"{choice:,}" for choice in self.choices)
        least, greatest = self.limits
        return f"{least:,} to {greatest:,}"

    def allowed(self):
        return f"{self.range()} {self.unit}".rstrip()


G = "thousandths of g"
ALL_HEIGHTS = tuple(sorted({height for heights in HEIGHTS.values() for height in heights}))
ENDS = ("door", "closed")
CLASS_RULE, FLEET_STANDARD = 1, 2
RULES = {CLASS_RULE: "class rule", FLEET_STANDARD: "fleet standard"}
BOTH_ENDS = len(ENDS)

HEAD_FIELDS = (
    Field("rule", "rule", "1 class rule: a box's centre at 45% of its height; 2 fleet standard: at half", CLASS_RULE,
          choices=tuple(RULES)),
    Field("route", "route", "route of CR 5.2.4(c); its factor reduces A_T", 0, HEAD_LIMITS["route"]),
)
LOCK_FIELDS = (
    Field("material", "lock_material", "of the locks: factor of safety 1.67 for higher strength, else 2", 1,
          words=("ordinary steel", "higher strength", "nodular iron")),
    Field("breaking_load", "lock_breaking", "of a lock; over the factor, in whole kN, its safe load", 500_000,
          HEAD_LIMITS["lock_breaking"], unit="N"),
)
TIER_FIELDS = (
    Field("size", "size", "nominal length, the same in every tier", 40, choices=tuple(HEIGHTS), unit="feet"),
    Field("wind", "exposed", "whether the wind reaches the box's side", 1, words=("sheltered", "exposed")),
    Field("turned", "turned", "whether the box's closed end stands at the door end of the stack", False, flag=True),
    Field("height", "height", "outer height; 2,438 only at 20 feet, 2,896 only at 40", 2591,
          choices=ALL_HEIGHTS, unit="mm"),
    Field("mass", "mass", "gross mass of the box", None, TIER_LIMITS["mass"], unit="kg"),
    Field("A_T", "a_t", "transverse acceleration, before the route's factor", None, TIER_LIMITS["a_t"], unit=G),
    Field("A_Vmax", "a_vmax", "greatest vertical acceleration, for compression", None,
          TIER_LIMITS["a_vmax"], unit=G),
    Field("A_Vmin", "a_vmin", "least vertical acceleration, for tension; not above A_Vmax", None,
          TIER_LIMITS["a_vmin"], unit=G),
)
# Beside a tier's own: no part of a stack sheet, and needed only where side walls are asked for.
LONGITUDINAL_FIELD = Field("A_L", "a_l", "longitudinal acceleration, for the side walls under pitching alone", None,
                           (0, MOST_LONGITUDINAL), unit=G)
END_FIELD = Field("end", "end", "end of the stack that the lash is at", BOTH_ENDS, words=(*ENDS, "both"))
LASH_FIELDS = (
    Field("tier", "tier", "tier that the lash is hooked to", None, (1, MOST_TIERS)),
    Field("hook", "hook", "which corner of that tier; not the bottom of tier 1. A bottom one relieves the locks under it", 0,
          words=("top", "bottom")),
    Field("kind", "kind", "cross: from the lee corner across the end; side: from the windward one outward", 0,
          words=("cross", "side")),
    Field("material", "material", "factor of safety 1.67 for higher strength rods, else 2", 1,
          words=("ordinary rod", "higher strength rod", "wire", "chain")),
    Field("LX", "lx", "from foot to hook, fore and aft", 0, LASH_LIMITS["lx"], unit="mm"),
    Field("LY", "ly", "from foot to hook, athwart", None, LASH_LIMITS["ly"], unit="mm"),
    Field("LZ", "lz", "from foot to hook, upward", None, LASH_LIMITS["lz"], unit="mm"),
    Field("area", "area", "cross-section", None, LASH_LIMITS["area"], unit="mm2"),
    Field("modulus", "modulus", "modulus of elasticity of the whole lash with its tensioner", None,
          LASH_LIMITS["modulus"], unit="N/mm2"),
    Field("breaking_load", "breaking", "of the whole lash; over the factor, in whole kN, its safe load", 490_000,
          LASH_LIMITS["breaking"], unit="N"),
)
GEAR_FIELDS = (END_FIELD, *LASH_FIELDS)

# What accelerations are worked out from where tiers do not give them (CR 5.2.4(a)).
ACCELERATION_FIELDS = tuple(each for each in TIER_FIELDS if each.attribute in ("a_t", "a_vmax", "a_vmin"))
FARTHEST = 500_000
SHIP_FIELDS = (
    Field("length", "length", "of the ship, between perpendiculars", None, (1, FARTHEST), unit="mm"),
    Field("roll_angle", "angle", "of roll, to one side", None, (0, 9_000), unit="hundredths of a degree"),
    Field("roll_period", "period", "of roll, there and back", None, (1, 10_000), unit="hundredths of a second"),
    Field("a0", "heave", "common acceleration parameter a_0 of CR 5.2.4", None, (0, 10_000), unit="ten-thousandths of g"),
    Field("roll_centre", "centre", "height of the roll centre above the baseline", None, (-FARTHEST, FARTHEST), unit="mm"),
)
POSITION_FIELDS = (
    Field("x", "x", "of the boxes' centres, forward of the aft perpendicular; at most the ship's length", None, (0, FARTHEST), unit="mm"),
    Field("y", "y", "of the boxes' centres, from the centreline, to either side", None, (-FARTHEST, FARTHEST), unit="mm"),
    Field("foot", "foot", "height of tier 1's underside above the baseline; not needed where each tier has z", None,
          (-FARTHEST, FARTHEST), unit="mm"),
)
HEIGHT_FIELD = Field("z", "z", "height of the box's centre of gravity above the baseline", None, (-FARTHEST, FARTHEST), unit="mm")

# As CR 5.2.4(c) and its Appendix 1 print them.
ROUTES = (
    "Unrestricted",
    "Asia - Europe",
    "Pacific - Atlantic",
    "North Pacific",
    "North Sea - Mediterranean",
    "North Atlantic",
    "Asia - South America (West Coast)",
    "South America (East Coast) - Africa",
    "Africa - East Asia",
    "Europe - Africa",
    "Europe - South America (Brazil)",
    "North America (East Coast) - South America (Brazil)",
    "Northeast Asia – Australia",
)

# What is often written for a field, beside its misspellings.
MEANT = {
    "weight": "mass",
    "gross": "mass",
    "length": "size",
    "corner": "hook",
    "doors": "turned",
    "reversed": "turned",
    "type": "kind",
    "strength": "breaking_load",
    "mbl": "breaking_load",
    "mbs": "breaking_load",
    "swl": "breaking_load",
    "e": "modulus",
    "youngs_modulus": "modulus",
    "standard": "rule",
    "a_l": "A_L",
    "longitudinal": "A_L",
}


def field(fields, attribute):
    return next(field for field in fields if field.attribute == attribute)


def word(fields, entry, attribute):
    """An entry's coded value as a person reads it."""
    return field(fields, attribute).shown(getattr(entry, attribute))


def lash_place(lash):
    """Where a lash is hooked and which way it runs, in words."""
    return f"tier {lash.tier} {word(LASH_FIELDS, lash, 'hook')} {word(LASH_FIELDS, lash, 'kind')}"
