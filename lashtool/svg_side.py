"""Draws the stack from the side, to scale: the side wall of each tier with its racking and use, and the shift of each level."""

from textwrap import wrap

from lashtool.drawing import INK, PAPER, Drawing
from lashtool.figures import OVER
from lashtool.side import FIGURE_WORDS, NOT_COVERED, rule_words, stiffness_words, verdict_words, worst_words
from lashtool.svg import MARGIN, SCALE, draw_legend
from lashtool.svg_style import BARS, BOLD, BOXES, FAINT, draw_label, ink, named
from lashtool.svg_tables import LETTER, ROW
from lashtool.words import stack_words

BOX_LENGTH = {20: 6_058, 40: 12_192}  # mm, CR Table 2-1
HEAD_HEIGHT = 172
LABELS = 264
GAP = 30
BADGE_LETTER = 9.4  # the width of a letter of the verdict on average
LEAST_WIDTH = 980
SCALE_WORDS = "Percent: share of the limit used, rounded up. Lengths and heights have one scale."


def picture(found):
    """The SVG's bytes."""
    length = SCALE * BOX_LENGTH[found.sheet.tiers[0].size]
    width = max(LEAST_WIDTH, 2 * MARGIN + length + GAP + LABELS)
    drawing = Drawing(width, found.title or "Side walls of a container stack")
    draw_head(drawing, found, width)
    deck = HEAD_HEIGHT + SCALE * sum(tier.height for tier in found.sheet.tiers)
    top = deck
    for tier, wall in zip(found.sheet.tiers, found.walls):
        height = SCALE * tier.height
        top -= height
        draw_wall(drawing, wall, top, length, height)
        draw_level(drawing, wall, top, length)
    drawing.line((MARGIN - 10, deck), (MARGIN + length + 10, deck), INK, 3, "deck")
    drawing.text(MARGIN + length + GAP, deck + 4, "deck", FAINT)
    draw_legend(drawing, deck + 44)
    return drawing.bytes(draw_notes(drawing, deck + 76, width))


def draw_head(drawing, found, width):
    title = found.title or "Side walls of a container stack"
    drawing.text(MARGIN, 44, title if len(title) <= 80 else f"{title[:77]}...", **{"font-size": 22, "font-weight": "bold"})
    fill, colour, edge = (PAPER, INK, INK) if found.accepted else (BARS[OVER], PAPER, BARS[OVER])
    words = verdict_words(found)
    badge = BADGE_LETTER * len(words) + 24
    drawing.rect(MARGIN, 58, badge, 30, fill, "verdict" if found.accepted else "verdict over", rx=5, stroke=edge)
    drawing.text(MARGIN + badge / 2, 79, words, colour, "middle", **{"font-size": 15, "font-weight": "bold"})
    drawing.text(MARGIN, 108, f"Worst use of the limit: {worst_words(found)}", **{"font-size": 14, "font-weight": "bold"})
    drawing.text(MARGIN, 127, f"{stack_words(found.sheet)}; {stiffness_words()}", **{"font-size": 13})
    drawing.text(MARGIN, 144, rule_words(found.sheet.head), **{"font-size": 13})


def draw_wall(drawing, wall, top, length, height):
    """A box from the side, its number, mass and acceleration in it, its racking beside it."""
    edge = PAPER if wall.over else INK
    drawing.rect(MARGIN, top, length, height, BOXES[wall.state], named("box", wall), stroke=edge)
    middle = top + height / 2
    words = ((f"tier {wall.tier}", "tier", {}), (f"{wall.mass:,} kg", "mass", BOLD), (f"A_L {wall.a_l / 1000:.3f} g", "a_l", {}))
    for number, (text, name, more) in enumerate(words):
        drawing.text(MARGIN + 10, middle - ROW + 5 + number * ROW, text, ink(wall), "start", name, **more)
    draw_label(drawing, MARGIN + length + GAP, middle + 4, LABELS, "racking", wall)


def draw_level(drawing, wall, top, length):
    """The shift of the level over a tier."""
    left = MARGIN + length
    drawing.line((left, top), (left + GAP - 4, top), FAINT, 1)
    drawing.text(left + GAP, top + 4, f"level {wall.tier}: shift {wall.shift_text} mm", FAINT, "start", "shift")


def draw_notes(drawing, top, width):
    """The notes from this height on; the height below them."""
    for text in (FIGURE_WORDS, SCALE_WORDS, NOT_COVERED):
        for line in wrap(text, int((width - 2 * MARGIN) / LETTER)):
            drawing.text(MARGIN, top, line)
            top += ROW
    return top
