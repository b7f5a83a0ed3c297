"""Draws a bay as seen from behind, port on the left: its stacks to scale with their verdicts, and the boxes in the wind marked."""

from textwrap import wrap

from lashtool.bay_report import NOT_CHECKED, WIND_WORDS, racking_words, use_words, verdict_words, wind_words, worst_row
from lashtool.drawing import INK, PAPER, Drawing
from lashtool.exposure import PORT, STARBOARD
from lashtool.figures import CALM, LASH_KINDS, NEAR, OVER, greatest
from lashtool.geometry import BOX_WIDTH, level_height
from lashtool.svg_style import BARS, BOLD, BOXES, FAINT, LINE, ink, named
from lashtool.svg_tables import LETTER, ROW
from sheets.limits import COMPRESSION, CORNER, LOCK, RACKING

SCALE = 0.038  # pixels a millimetre, across and upward alike
APART = 25  # mm between stacks
BOX = BOX_WIDTH * SCALE
STEP = (BOX_WIDTH + APART) * SCALE
MARGIN = 24
SIDE = 60  # from the page's margin to the outer rows
LEAST_WIDTH = 900
HEAD_HEIGHT = 142
BELOW = 126  # from the deck to the legend
WIND = "#1b6b3a"
WIND_WIDTH = 5
WIND_MARK = "wind"
WIND_NOTE = WIND_WORDS.replace("exposed: the tiers that the wind reaches,", "The boxes that the wind reaches are", 1)
KIND_LINES = {"lash vertical part": "lash vertical", "lash athwart part": "lash athwart"}


def picture(bay):
    """The SVG's bytes."""
    heights = [level_height(row.result.sheet, len(row.result.sheet.tiers)) for row in bay.loaded]
    deck = HEAD_HEIGHT + SCALE * max(heights, default=2_591) + 10
    across = len(bay.rows) * STEP - APART * SCALE
    width = max(LEAST_WIDTH, 2 * (MARGIN + SIDE) + across)
    left = (width - across) / 2
    drawing = Drawing(width, bay.title or "Bay")
    draw_head(drawing, bay, width)
    draw_deck(drawing, left, across, deck)
    for number, row in enumerate(bay.rows, 1):
        draw_row(drawing, left + (number - 1) * STEP, deck, number, row)
    draw_legend(drawing, deck + BELOW)
    return drawing.bytes(draw_notes(drawing, bay, deck + BELOW + 30, width))


def draw_head(drawing, bay, width):
    title = bay.title or "Bay"
    drawing.text(MARGIN, 44, title if len(title) <= 60 else f"{title[:57]}...", **{"font-size": 22, "font-weight": "bold"})
    over = bool(bay.not_accepted)
    fill, colour, edge = (BARS[OVER], PAPER, BARS[OVER]) if over else (PAPER, INK, INK)
    words = verdict_words(bay)
    drawing.rect(MARGIN, 58, 18 + 9.6 * len(words), 28, fill, "verdict over" if over else "verdict", rx=5, stroke=edge)
    drawing.text(MARGIN + 9, 77, words, colour, **{"font-size": 15, "font-weight": "bold"})
    if bay.loaded:
        row, worst = worst_row(bay)
        use = f"Worst use of a limit: {worst.used_text} in row {row.number}, {use_words(row, worst)}"
        drawing.text(MARGIN, 106, use, **{"font-size": 13})
        drawing.text(MARGIN, 124, f"Greatest racking {racking_words(bay)}; total mass {bay.mass:,} kg", **{"font-size": 13})


def draw_deck(drawing, left, across, deck):
    drawing.line((left - SIDE + 8, deck), (left + across + SIDE - 8, deck), INK, 3, "deck")
    drawing.text(left - SIDE + 8, deck + 18, "port", FAINT, **BOLD)
    drawing.text(left + across + SIDE - 8, deck + 18, "starboard", FAINT, "end", **BOLD)


def draw_row(drawing, left, deck, number, row):
    middle = left + BOX / 2
    drawing.text(middle, deck + 36, f"row {number}", anchor="middle", name="row", **BOLD)
    if row is None:
        drawing.text(middle, deck + 36 + LINE, "empty", FAINT, "middle", "verdict of row")
        return
    sheet = row.result.sheet
    for tier, (box, sides) in enumerate(zip(sheet.tiers, row.sides), 1):
        top = deck - SCALE * level_height(sheet, tier)
        draw_box(drawing, left, top, box, sides, greatest(figures_at(row.result, tier)), tier)
    worst = row.result.worst()
    if not row.result.accepted:
        drawing.rect(left, deck + 42, BOX, LINE, BARS[OVER], "ground over")
    words, colour, more = ("accepted", INK, {}) if row.result.accepted else ("NOT ACCEPTED", PAPER, {"font-size": 10, **BOLD})
    drawing.text(middle, deck + 36 + LINE, words, colour, "middle", "verdict of row", **more)
    for line, text in enumerate((worst.used_text, kind_words(row, worst)), 2):
        drawing.text(middle, deck + 36 + line * LINE, text, INK, "middle", named("worst", worst), **{"font-size": 11})


def figures_at(result, tier):
    """The figures that belong to a box: its racking, the posts and locks at its foot, the lashes on it."""
    for figure in result.figures.values():
        on_lash = figure.kind in LASH_KINDS and result.lash(figure.end, figure.index).tier == tier
        at_foot = figure.kind in (COMPRESSION, CORNER, LOCK) and figure.index == tier - 1
        if on_lash or at_foot or (figure.kind, figure.index) == (RACKING, tier):
            yield figure


def kind_words(row, figure):
    kind = use_words(row, figure).split(",")[0]
    return KIND_LINES.get(kind, kind)


def draw_box(drawing, left, top, box, sides, figure, tier):
    """A box with its tier, mass and wind; the sides in the wind have a bar."""
    height = box.height * SCALE
    drawing.rect(left, top, BOX, height, BOXES[figure.state], named("box", figure), stroke=PAPER if figure.over else INK)
    for side, x in ((PORT, left), (STARBOARD, left + BOX - WIND_WIDTH)):
        if side in sides:
            drawing.rect(x, top, WIND_WIDTH, height, WIND, f"wind {side}", stroke=PAPER)
    lines = [(f"tier {tier}", "tier", {}), (f"{box.mass:,} kg", "mass", BOLD)]
    lines += [(WIND_MARK, "wind", {})] if sides else []
    lines += [("turned", "turned", {})] if box.turned else []
    for line, (words, name, more) in enumerate(lines):
        drawing.text(left + BOX / 2, top + 18 + line * LINE, words, ink(figure), "middle", name, **more)


def draw_legend(drawing, y):
    left = MARGIN
    for state, words in ((CALM, "under 80% of every limit"), (NEAR, "from 80% of one"), (OVER, "over a limit")):
        drawing.rect(left, y - 11, 26, 14, BOXES[state], "legend", stroke=INK)
        drawing.text(left + 34, y, words)
        left += 210 if state == CALM else 150
    drawing.rect(left, y - 12, WIND_WIDTH, 16, WIND, "legend")
    drawing.text(left + 14, y, "a side of a box in the wind")


def draw_notes(drawing, bay, top, width):
    """Notes from this height on; the height below them."""
    names = "; ".join(f"{row.number}: {row.row.name or row.result.title or 'a stack written in place'}" for row in bay.loaded)
    texts = [
        "Seen from behind, looking forward: port is on the left. Widths and heights have one scale. The colour of a box is that "
        "of the greatest use of a limit at it, at either end: its racking, the posts and locks at its foot, the lashes on it. Under each "
        "row its verdict and its worst use of a limit.",
        *([f"Rows: {names}."] if names else []),
        *(f"{words}.".replace("row", "Row", 1) for row in bay.loaded for words in wind_words(row)),
        *([WIND_NOTE] if bay.loaded else []),
        NOT_CHECKED,
    ]
    for text in texts:
        for line in wrap(text, int((width - 2 * MARGIN) / LETTER)):
            drawing.text(MARGIN, top, line)
            top += ROW
    return top + 4
