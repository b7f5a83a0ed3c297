"""Preview of a move, from document 02 (P7): the copy of a sheet with a new mass in a tier, and what turns a preview back."""

from reference.judge import Expected
from reference.stack import exact
from sheets.sheet import ANSWER_ROOM, HEAD, TIER, Refused, parse

NO_TIER = 17
FIRST_TIER = HEAD.size + 1  # behind the tier count
MASS_AT = 4  # in a tier's entry: size, wind, 2 bytes of height, 2 of mass


def tier_place(tier):
    """Where a tier's entry begins; tiers are counted from 1."""
    return FIRST_TIER + TIER.size * (tier - 1)


def with_mass(data, tier, mass):
    """A copy of a sheet's bytes with the mass of a tier replaced."""
    at = tier_place(tier) + MASS_AT
    return data[:at] + mass.to_bytes(2, "little") + data[at + 2 :]


def previewed(data, tier, mass, room=ANSWER_ROOM):
    """The sheet whose check the preview gives, or the first refusal: the sheet's own, 17, then those of the copy."""
    sheet = parse(data)
    if not 1 <= tier <= len(sheet.tiers):
        raise Refused(NO_TIER, tier)
    return parse(with_mass(data, tier, mass), room)


def expected(data, tier, mass, room=ANSWER_ROOM):
    """What must come out of a preview."""
    try:
        sheet = previewed(data, tier, mass, room)
    except Refused as refused:
        return Expected(refusal=(refused.number, refused.second))
    return Expected(sheet=sheet, ends=exact(sheet))
