"""Draws a stack as a person at its ends sees it: boxes, lashes and forces, lee side to the right."""

from dataclasses import dataclass

from lashtool.drawing import INK, PAPER, Drawing
from lashtool.fields import ENDS, TIER_FIELDS, word
from lashtool.figures import CALM, NEAR, OVER
from lashtool.geometry import BOX_WIDTH, foot_height, foot_out
from lashtool.svg_lashes import draw_badges, draw_lashes, drawn_lashes, label_rows
from lashtool.svg_style import BARS, BOLD, BOXES, FAINT, LINE, draw_label, ink, named
from lashtool.svg_tables import draw_tables
from lashtool.words import (
    lock_words, route_words, stack_words, stiffness_words, verdict_words, way_words, worst_words,
)
from sheets.limits import COMPRESSION, RACKING

SCALE = 0.05  # pixels a millimetre, across and upward alike

MARGIN = 24
HEAD_HEIGHT = 182
LABELS_TOP = 122  # the lash labels may lie from here
LEGEND = 34
LEAST_BELOW = 44  # from the deck to the legend
LEAST_YARD = 76  # between the labels and the stack

LABELS = 252  # width of the lash labels, left in a panel
POSTS = 264  # width of the post forces, right in a panel
POSTS_GAP = 26
STACK = BOX_WIDTH * SCALE
GAP = 30
WORDS_WIDTH = 68  # of the words in a box


@dataclass(frozen=True)
class Panel:
    """Where one end's drawing lies."""

    left: float
    yard: float
    deck: float  # height on the page
    below: float  # from the deck to the end of the drawing
    heights: tuple  # of the boxes, mm
    scale: float = SCALE
    labels: float = LABELS
    labels_top: float = LABELS_TOP

    @property
    def stack_left(self):
        return self.left + LABELS + self.yard

    @property
    def stack_right(self):
        return self.stack_left + STACK

    @property
    def labels_bottom(self):
        return self.deck + self.below - 8

    def level(self, level):
        return self.deck - SCALE * sum(self.heights[:level])

    def has_words(self, point):
        """Whether a point lies where the words of a box may stand."""
        x, y = point
        tops = (self.level(number) for number in range(1, len(self.heights) + 1))
        return self.stack_left <= x <= self.stack_left + WORDS_WIDTH + 8 and any(0 <= y - top <= 4 * LINE for top in tops)


def picture(outcome):
    """The SVG's bytes."""
    sheet = outcome.sheet
    heights = tuple(tier.height for tier in sheet.tiers)
    lashes = [row.lash for row in outcome.listed()]
    yard = max([LEAST_YARD, *(SCALE * foot_out(lash) + 40 for lash in lashes)])
    below = max([LEAST_BELOW, *(20 - SCALE * foot_height(sheet, lash) for lash in lashes)])
    rows = max(label_rows(outcome, end) for end in range(len(ENDS)))
    deck = max(HEAD_HEIGHT + SCALE * sum(heights), LABELS_TOP + rows * LINE - below + 8)
    panel_width = LABELS + yard + STACK + POSTS_GAP + POSTS
    width = 2 * MARGIN + 2 * panel_width + GAP
    drawing = Drawing(width, outcome.title or "Container stack")
    draw_head(drawing, outcome, width)
    for end in range(len(ENDS)):
        panel = Panel(MARGIN + end * (panel_width + GAP), yard, deck, below, heights)
        draw_end(drawing, panel, outcome, end)
    draw_legend(drawing, deck + below + LEGEND)
    bottom = draw_tables(drawing, outcome, MARGIN, deck + below + LEGEND + 34, width - 2 * MARGIN)
    return drawing.bytes(bottom)


def draw_head(drawing, outcome, width):
    title = outcome.title or "Container stack"
    shown = title if len(title) <= 80 else f"{title[:77]}..."
    drawing.text(MARGIN, 44, shown, **{"font-size": 22, "font-weight": "bold"})
    head = outcome.sheet.head
    drawing.text(MARGIN, 68, f"Worst use of a limit: {worst_words(outcome)}", **{"font-size": 14, "font-weight": "bold"})
    drawing.text(MARGIN, 88, f"{stack_words(outcome.sheet)}; {route_words(head, outcome.forecast)}", **{"font-size": 13})
    drawing.text(MARGIN, 106, f"{lock_words(head)}; {stiffness_words(outcome.sheet)}", **{"font-size": 13})
    fill, colour = (PAPER, INK) if outcome.accepted else (BARS[OVER], PAPER)
    badge = 300
    name, edge = ("verdict", INK) if outcome.accepted else ("verdict over", BARS[OVER])
    drawing.rect(width - MARGIN - badge, 20, badge, 38, fill, name, rx=5, stroke=edge)
    words = {"font-size": 17, "font-weight": "bold"}
    drawing.text(width - MARGIN - badge / 2, 45, verdict_words(outcome), colour, "middle", **words)


def draw_legend(drawing, y):
    left = MARGIN
    for state, words in ((CALM, "under 80% of its limit"), (NEAR, "from 80%"), (OVER, "over its limit")):
        drawing.rect(left, y - 11, 26, 14, BARS[state], "legend")
        drawing.text(left + 34, y, words)
        left += 200


def draw_end(drawing, panel, outcome, end):
    draw_end_head(drawing, panel, ENDS[end])
    rackings = [outcome.figure(end, RACKING, number) for number in range(1, len(outcome.sheet.tiers) + 1)]
    for racking in rackings:
        draw_box(drawing, panel, racking)
    lashes = drawn_lashes(panel, outcome, end)
    draw_lashes(drawing, panel, lashes)
    for tier, racking in zip(outcome.sheet.tiers, rackings):
        draw_box_words(drawing, panel, tier, racking)
    draw_badges(drawing, panel, lashes)
    for level in range(len(outcome.sheet.tiers) + 1):
        draw_posts(drawing, panel, outcome, end, level)


def draw_end_head(drawing, panel, name):
    middle = (panel.stack_left + panel.stack_right) / 2
    top = HEAD_HEIGHT - 44
    drawing.text(middle, top, f"{name} end", anchor="middle", **{"font-size": 16, "font-weight": "bold"})
    drawing.text(panel.stack_left - 14, top, "windward", FAINT, "end")
    drawing.text(panel.stack_right + 14, top, "lee", FAINT)
    drawing.line((panel.stack_right + 38, top - 4), (panel.stack_right + 66, top - 4), FAINT, 2)
    drawing.arrow((panel.stack_right + 74, top - 4), 1, FAINT)
    drawing.line((panel.left + LABELS + 8, panel.deck), (panel.stack_right + 18, panel.deck), INK, 3, "deck")


def draw_box(drawing, panel, racking):
    """A box and what it racks, at the height of its middle."""
    top, bottom = panel.level(racking.index), panel.level(racking.index - 1)
    middle = (top + bottom) / 2
    edge = PAPER if racking.over else INK
    ground = BOXES[racking.state]
    drawing.rect(panel.stack_left, top, STACK, bottom - top, ground, named("box", racking), stroke=edge)
    windward = racking.force < 0 and way_words(racking)
    if way_words(racking):
        side = panel.stack_left - 11 if windward else panel.stack_right + 11
        drawing.arrow((side, middle), -1 if windward else 1, BARS[OVER] if racking.over else INK)
    words = "racking, windward" if windward else "racking"
    draw_label(drawing, panel.stack_right + POSTS_GAP, middle + 4, POSTS, words, racking)


def draw_box_words(drawing, panel, tier, racking):
    """The tier's number, its mass, its wind and whether it stands turned, in the corner that cross lashes leave free."""
    left, row = panel.stack_left + 8, panel.level(racking.index) + 18
    rows = [(f"tier {racking.index}", "tier", {}), (f"{tier.mass:,} kg", "mass", BOLD)]
    if tier.exposed:
        rows.append((word(TIER_FIELDS, tier, "exposed"), "wind", {}))
    if tier.turned:
        rows.append(("turned", "turned", {}))
    drawing.rect(left - 4, row - 13, WORDS_WIDTH, len(rows) * LINE, BOXES[racking.state], opacity=0.8)
    for number, (words, name, more) in enumerate(rows):
        drawing.text(left, row + number * LINE, words, ink(racking), "start", name, **more)


def draw_posts(drawing, panel, outcome, end, level):
    """Compression and tension at a level, right of the stack."""
    y = panel.level(level)
    left = panel.stack_right + POSTS_GAP
    drawing.line((panel.stack_right, y), (left - 4, y), FAINT, 1)
    drawing.text(left, y - 12, f"level {level}" if level else "deck", FAINT)
    figures = [("compression", outcome.figure(end, COMPRESSION, level))]
    if level < len(outcome.sheet.tiers):
        figures.append(("tension", outcome.tension(end, level)))
    for number, (words, figure) in enumerate(figures):
        draw_label(drawing, left, y + 6 + number * LINE, POSTS, words, figure)
