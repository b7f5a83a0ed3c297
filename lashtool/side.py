"""Side walls under pitching (CR 5.2.7(b)): racking of each tier's side wall and shift of each level, beside the limit."""

from dataclasses import dataclass
from fractions import Fraction

from lashtool.checking import CheckFailed, written
from lashtool.colour import bar, painted
from lashtool.description import BadDescription
from lashtool.fields import FLEET_STANDARD, LONGITUDINAL_FIELD, RULES
from lashtool.figures import AMBER, CALM, NEAR, OVER
from lashtool.report import Cell, aligned, bulleted, used
from lashtool.words import counted, stack_words
from sheets.sheet import pack
from sheets.side import SIDE_LIMIT, pack_pitch, read_side

OPTION = "--side"
HELP = "ask for the side walls under pitching in place of the check: racking and shift of each tier; A_L is needed in each"
STIFFNESS = 5_790  # N/mm, CR Table 2-4
FIGURE_WORDS = (
    "Each of the two side walls bears these rackings. Racking is the least whole newton not below the exact one, the shift of a level the "
    "least whole thousandth of a millimetre: both are proved exact so, without a margin. Level i is the top of tier i."
)
USED_WORDS = "used: share of the limit, rounded up to a tenth of a percent; = calm, # from 80%, ! over the limit."
NOT_COVERED = (
    "Not covered: everything else. No lashing, wind or route enters here, and end walls, posts, locks and lashes are the check's own "
    f"question, without {OPTION}. The accelerations A_L are given. No class society has certified this program."
)


@dataclass(frozen=True)
class Wall:
    """A tier's side wall: racking beside its limit, and the shift of the level over it."""

    tier: int
    mass: int
    a_l: int  # thousandths of g
    racking: int  # N
    shift: int  # thousandths of a millimetre

    @property
    def over(self):
        return self.racking > SIDE_LIMIT

    @property
    def share(self):
        return Fraction(self.racking, SIDE_LIMIT)

    @property
    def used(self):
        """In percent, rounded up to a tenth."""
        return -(-1000 * self.racking // SIDE_LIMIT) / 10

    @property
    def used_text(self):
        return f"{self.used:,.1f}%"

    @property
    def force_text(self):
        return f"{self.racking:,}"

    @property
    def shift_text(self):
        return f"{self.shift // 1000:,}.{self.shift % 1000:03}"

    @property
    def state(self):
        if self.over:
            return OVER
        return NEAR if self.share >= AMBER else CALM


@dataclass(frozen=True)
class Sides:
    """A stack with what was found of its side walls."""

    title: str
    sheet: object
    walls: tuple
    accepted: bool

    @property
    def worst(self):
        """The first of those that use the most of the limit."""
        return max(self.walls, key=lambda wall: wall.racking)

    @property
    def exceeded(self):
        return [wall for wall in self.walls if wall.over]


def sides(told, call):
    """What the call says of a description's side walls, held to the stack and to itself."""
    for number, a_l in enumerate(told.longitudinal, 1):
        if a_l is None:
            field = LONGITUDINAL_FIELD
            raise BadDescription(f"tier {number}: {field.name} is missing ({field.allowed()}); {OPTION} needs it in each tier or in [box]")
    answer = written(call(pack(told.sheet), pack_pitch(told.longitudinal)), "side walls", read_side)
    figures = zip(told.sheet.tiers, told.longitudinal, answer.racking, answer.shift)
    walls = tuple(Wall(number, tier.mass, *rest) for number, (tier, *rest) in enumerate(figures, 1))
    if len(answer.racking) != len(told.sheet.tiers) or answer.verdict != (1 if any(wall.over for wall in walls) else 0):
        raise CheckFailed("the call for side walls wrote an answer that does not fit the stack or itself")
    return Sides(told.title, told.sheet, walls, answer.verdict == 0)


# In words


def verdict_words(found):
    if found.accepted:
        return "SIDE WALLS ACCEPTED"
    return f"SIDE WALLS NOT ACCEPTED: racking of {counted(len(found.exceeded), 'tier')} exceeds {SIDE_LIMIT:,} N"


def verdict_state(found):
    return CALM if found.accepted else OVER


def worst_words(found):
    wall = found.worst
    return f"{wall.used_text} at tier {wall.tier}: racking {wall.force_text} N of {SIDE_LIMIT:,} N"


def rule_words(head):
    share = "half" if head.rule == FLEET_STANDARD else "45%"
    return f"rule {head.rule} ({RULES[head.rule]}): {share} of a tier's longitudinal force on its own top, all of it on tiers below"


def stiffness_words():
    return f"racking stiffness of each side wall: {STIFFNESS:,} N/mm"


def rows(found):
    """Tiers from the top down, as they stand."""
    yield ("tier", "mass, kg", "A_L, g", "racking, N", "used  ", "", "level", "shift, mm")
    yield ("limit", "", "", f"{SIDE_LIMIT:,}", "", "", "", "")
    for wall in reversed(found.walls):
        acceleration = f"{wall.a_l / 1000:.3f}"
        bars = Cell(bar(wall), wall.state)
        force = Cell(wall.force_text, wall.state)
        yield (str(wall.tier), f"{wall.mass:,}", acceleration, force, used(wall), bars, str(wall.tier), wall.shift_text)


def table(found, colour=False):
    """The whole report."""
    verdict = painted(verdict_words(found), verdict_state(found), colour)
    worst = f"worst use of the limit: {painted(bar(found.worst), found.worst.state, colour)} {worst_words(found)}"
    sections = (
        [*([found.title] if found.title else []), verdict, worst],
        bulleted("CHECKED", [stack_words(found.sheet), rule_words(found.sheet.head), stiffness_words()]),
        ["EACH SIDE WALL", *aligned(rows(found), {0, 5, 6}, colour)],
        bulleted("NOTES", (FIGURE_WORDS, USED_WORDS, NOT_COVERED)),
        [verdict],
    )
    return "\n\n".join("\n".join(lines) for lines in sections)


def as_data(found):
    """For JSON."""
    return {
        "title": found.title,
        "accepted": found.accepted,
        "rule": found.sheet.head.rule,
        "racking_limit": SIDE_LIMIT,
        "worst_use": {"tier": found.worst.tier, "racking": found.worst.racking, "used_percent": found.worst.used},
        "side_walls": [
            {
                "tier": wall.tier, "mass": wall.mass, "A_L": wall.a_l, "racking": wall.racking, "used_percent": wall.used,
                "exceeded": wall.over, "level": wall.tier, "shift_thousandths_mm": wall.shift,
            }
            for wall in found.walls
        ],
    }
