"""A move tried before it is made: what a new mass in one tier would do, beside the stack as it stands."""

import re
from dataclasses import dataclass, replace

from lashtool.checking import CheckFailed, outcome
from lashtool.colour import painted
from lashtool.data import as_data as stack_data
from lashtool.data import placed_data
from lashtool.description import shown
from lashtool.fields import ENDS, TIER_FIELDS, field
from lashtool.figures import KEPT, LASH_KINDS, Result, result
from lashtool.report import Cell, aligned, bulleted, used, verdict_state
from lashtool.words import (
    KIND_WORDS, PAD_WORDS, force_words, not_checked, place_words, route_words, rule_notes, verdict_words, way_words, where, worst_words,
)
from sheets.limits import COMPRESSION, CORNER, LOCK, RACKING
from sheets.sheet import Refused, pack

FORM = "tier.N.mass=KG, as tier.4.mass=28000"
MASS = field(TIER_FIELDS, "mass")
NO_TIER, BAD_TIER = 17, 7
NOTES = (
    "A preview: what was read is not changed. Level 0 is the deck, level i the top of tier i. now, then: forces as the stack stands "
    "and with the move, of a racking to windward with a minus; used: share of the limit, rounded up to a tenth of a percent, ! over "
    "it. Figures that do not change are left out."
)
HEAVIER = (
    f"The box is heavier, so no lash force is lower, though a figure may read up to {KEPT - 1} N lower; racking, compression and tension "
    "may be lower."
)
GREATEST_TIER, GREATEST_MASS = 2**32 - 1, 2**16 - 1  # that the call can be given


class BadMove(Exception):
    """A move that cannot be previewed, named by its field."""


@dataclass(frozen=True)
class Move:
    tier: int
    mass: int

    def __str__(self):
        return f"--set tier.{self.tier}.mass"


@dataclass(frozen=True)
class Preview:
    """A stack as it stands and with the move."""

    move: Move
    before: Result
    after: Result

    @property
    def newly(self):
        return [figure for figure in self.after.findings() if place(figure) not in self.before.answer.findings]

    @property
    def no_longer(self):
        return [figure for figure in self.before.findings() if place(figure) not in self.after.answer.findings]

    @property
    def still(self):
        return [figure for figure in self.after.findings() if place(figure) in self.before.answer.findings]


def place(figure):
    """As a finding names it."""
    return figure.end, figure.kind, figure.index


# What is asked


def read_move(texts):
    """The move of a --set; only a mass can be previewed, one at a time."""
    if len(texts) > 1:
        raise BadMove(f"--set is given {len(texts)} times; a preview is of one box at a time")
    name, equals, value = (part.strip() for part in texts[0].partition("="))
    meant = re.fullmatch(r"tier\.([0-9]{1,12})\.(\w+)", name)
    if not equals or not meant:
        raise BadMove(f"--set is {shown(texts[0])}; it has to be {FORM}")
    if meant[2] != MASS.name:
        raise BadMove(f"--set {shown(name)}: only a tier's mass can be previewed; it has to be {FORM}")
    if not re.fullmatch(r"[0-9]{1,9}(_[0-9]{3}){0,3}", value):
        raise BadMove(f"--set {name} is {shown(value)}; it has to be a whole number, {MASS.allowed()}")
    return Move(int(meant[1]), int(value.replace("_", "")))


def number_due(move, sheet):
    """The first number that the call has to return for a stack that was taken."""
    least, most = MASS.limits
    if not 1 <= move.tier <= len(sheet.tiers):
        return NO_TIER
    return 0 if least <= move.mass <= most else BAD_TIER


def previewed(move, before, data, call):
    """The stack with the move, by the call's reply for the sheet's bytes; the reply is held to the stack before anything is said of it."""
    reply = call(data, min(move.tier, GREATEST_TIER), min(move.mass, GREATEST_MASS))
    due = number_due(move, before.sheet)
    if reply.number != due:
        raise CheckFailed(f"the preview was returned with {reply.number} {reply.second}; {due} is due")
    if due == NO_TIER:
        raise BadMove(f"{move}: the stack has tiers 1 to {len(before.sheet.tiers)}")
    if due == BAD_TIER:
        raise BadMove(f"{move} {move.mass:,} is outside {MASS.allowed()}")
    return Preview(move, before, with_move(move, before, reply))


def with_move(move, before, reply):
    tiers = list(before.sheet.tiers)
    tiers[move.tier - 1] = replace(tiers[move.tier - 1], mass=move.mass)
    try:
        sheet, answer = outcome(pack(replace(before.sheet, tiers=tuple(tiers))), reply)
    except Refused as refused:
        raise CheckFailed(f"the preview was refused with {refused}") from None
    return result(before.title, sheet, answer, before.assumed, before.numbers, before.motion)


# The printout


def table(preview, colour=False):
    before, after = preview.before, preview.after
    sections = [
        [*([before.title] if before.title else []), moved_words(preview), route_words(before.sheet.head)],
        sides(preview, colour),
        exceeded_lines("NEWLY EXCEEDED", preview, preview.newly),
        exceeded_lines("NO LONGER EXCEEDED", preview, preview.no_longer),
        exceeded_lines("EXCEEDED BEFORE AND AFTER", preview, preview.still),
        *(end_lines(preview, end, colour) for end in range(len(ENDS))),
        bulleted("NOTES", notes(preview)),
        [painted(f"WITH THE MOVE: {verdict_words(after)}", verdict_state(after), colour)],
    ]
    return "\n\n".join("\n".join(lines) for lines in sections if lines)


def notes(preview):
    figures = (*preview.before.figures.values(), *preview.after.figures.values())
    small = any(figure.force_text.startswith("<") for figure in figures)
    grown = [HEAVIER] if lashed(preview.before.sheet) and preview.move.mass > old_mass(preview) else []
    return [*rule_notes(preview.before.sheet.head), NOTES, *grown, *([PAD_WORDS] if small else []), not_checked(preview.before)]


def lashed(sheet):
    return bool(sheet.door or sheet.closed)


def old_mass(preview):
    return preview.before.sheet.tiers[preview.move.tier - 1].mass


def moved_words(preview):
    return f"PREVIEW of tier {preview.move.tier} with {preview.move.mass:,} kg in place of {old_mass(preview):,} kg"


def sides(preview, colour):
    """The two verdicts and the worst use of a limit on each side."""
    lines = []
    for name, side in (("as it stands", preview.before), ("with the move", preview.after)):
        lines.append(f"{name + ':':15}{painted(verdict_words(side), verdict_state(side), colour)}")
        lines.append(f"{'':15}worst use of a limit: {worst_words(side)}")
    return lines


def exceeded_lines(title, preview, figures):
    lines = []
    for figure in figures:
        now, then = (side.figure(*place(figure)) for side in (preview.before, preview.after))
        change = f"now {force_words(now)}, {now.used_text}; then {force_words(then)}, {then.used_text} of {then.limit:,} N"
        lines.append(f"  {KIND_WORDS[figure.kind]}, {where(preview.after, figure)}: {change}")
    return [title, *lines] if lines else []


def shown_figures(outcome, end):
    """An end's forces, each once: of a level's tension the figure of the limit that is used more."""
    tiers = len(outcome.sheet.tiers)
    yield from (outcome.figure(end, RACKING, tier) for tier in range(1, tiers + 1))
    yield from (outcome.figure(end, COMPRESSION, level) for level in range(tiers + 1))
    yield from (outcome.tension(end, level) for level in range(tiers))
    yield from (outcome.figure(end, kind, index) for index in outcome.order(end) for kind in LASH_KINDS)


def side_cells(figure):
    """The force, with a minus where a racking is to windward, and its share of the limit."""
    minus = "-" if figure.force < 0 and way_words(figure) else ""
    return Cell(f"{minus}{figure.force_text}", figure.state), used(figure)


def end_lines(preview, end, colour):
    rows = [("", "", "now, N", "used  ", "then, N", "used  ", "change, N")]
    for now, then in zip(shown_figures(preview.before, end), shown_figures(preview.after, end)):
        if now.force != then.force:
            kind = "tension" if now.kind in (CORNER, LOCK) else KIND_WORDS[now.kind]
            change = f"{then.force - now.force:+,}"
            rows.append((kind, place_words(preview.after, then), *side_cells(now), *side_cells(then), change))
    if len(rows) == 1:
        return [f"{ENDS[end].upper()} END", "  no figure changes"]
    return [f"{ENDS[end].upper()} END", *aligned(rows, {0, 1}, colour)]


# JSON


def as_data(preview):
    return {
        "preview": {
            "tier": preview.move.tier,
            "mass_before": old_mass(preview),
            "mass_after": preview.move.mass,
        },
        "newly_exceeded": [placed_data(preview.after, figure) for figure in preview.newly],
        "no_longer_exceeded": [placed_data(preview.before, figure) for figure in preview.no_longer],
        "exceeded_before_and_after": [placed_data(preview.after, figure) for figure in preview.still],
        "before": stack_data(preview.before),
        "after": stack_data(preview.after),
    }
