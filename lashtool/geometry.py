"""Where levels, corners and the feet of lashes lie, in mm, and the stiffness of a box's ends."""

from math import isqrt

from sheets.sheet import CROSS

BOX_WIDTH = 2438  # CR Table 2-1
POST_SPACING = 2259  # CR Table 2-2
RACKING_STIFFNESS = (3_730, 15_690)  # N/mm, door and closed end, CR Table 2-4

# A foot this far out is warned of; docs/DECISIONS.md says why.
DEEPEST_FOOT = 2_000  # below the deck
FARTHEST_FOOT = 2_600  # to windward of the stack's windward corner


def level_height(sheet, level):
    """Above the deck."""
    return sum(tier.height for tier in sheet.tiers[:level])


def lash_length(lash):
    """L, the least whole number not below the distance from foot to hook."""
    return isqrt(lash.lx**2 + lash.ly**2 + lash.lz**2 - 1) + 1


def foot_height(sheet, lash):
    """The foot above the deck; below zero if it lies lower."""
    return level_height(sheet, lash.level) - lash.lz


def foot_out(lash):
    """The foot to windward of the windward corner; below zero if it lies under the stack's width."""
    return lash.ly - (POST_SPACING if lash.kind == CROSS else 0)


def far_feet(sheet, lash):
    """What is odd about a lash's foot, in words."""
    if -foot_height(sheet, lash) > DEEPEST_FOOT:
        yield f"its foot lies {-foot_height(sheet, lash):,} mm below the deck (LZ {lash.lz:,} mm)"
    if foot_out(lash) > FARTHEST_FOOT:
        yield (
            f"its foot lies {foot_out(lash):,} mm to windward of the stack (LY {lash.ly:,} mm), "
            "beyond the next stack and, for a stack at the ship's side, beyond the ship"
        )
