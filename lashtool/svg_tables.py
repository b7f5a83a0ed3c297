"""What was checked, written under the picture: tiers and lashes in two tables, and notes."""

from textwrap import wrap

from lashtool.drawing import INK
from lashtool.report import lash_rows, tier_rows
from lashtool.svg_style import BOLD, FAINT
from lashtool.words import PAD_WORDS, assumed_words, motion_words, not_checked, rule_notes, warnings

ROW = 16
LETTER = 6.2  # the width of a letter on average, which text is folded by
TIER_COLUMNS = ((0, "start"), (104, "end"), (178, "end"), (194, "start"), (302, "end"), (378, "end"), (454, "end"))
LASH_COLUMNS = (
    (0, "start"), (34, "start"), (82, "start"), (244, "end"), (294, "end"), (350, "end"), (404, "end"), (462, "end"),
    (506, "end"), (520, "start"), (696, "end"), (764, "end"),
)
LASH_TABLE = 500  # its left edge from that of the tiers


def draw_tables(drawing, outcome, left, top, width):
    """Tables and notes from this height on; the height below them."""
    bottom = draw_table(drawing, left, top, TIER_COLUMNS, tier_rows(outcome.sheet))
    if outcome.listed():
        bottom = max(bottom, draw_table(drawing, left + LASH_TABLE, top, LASH_COLUMNS, lash_rows(outcome)))
    else:
        drawing.text(left + LASH_TABLE, top, "no lashes", FAINT)
    bottom += 8
    for text, more in page_notes(outcome):
        for line in wrap(text, int(width / LETTER)):
            drawing.text(left, bottom, line, **more)
            bottom += ROW
    return bottom


def draw_table(drawing, left, top, columns, rows):
    for row in rows:
        ink = INK if row[0][:1].isdigit() else FAINT
        for (x, anchor), words in zip(columns, row):
            if words:
                drawing.text(left + x, top, words, ink, anchor, "checked")
        top += ROW
    return top


def page_notes(outcome):
    """(text, how it is written)."""
    for warning in warnings(outcome):
        yield f"Warning: {warning}", BOLD
    if outcome.motion:
        yield f"{motion_words(outcome)}.".replace("worked", "Worked", 1), {}
    if outcome.assumed:
        yield f"{assumed_words(outcome)}.".replace("not given", "Not given", 1), {}
    for note in rule_notes(outcome.sheet.head):
        yield note, {}
    yield (
        "Percent: share of the limit used, rounded up; for a lash of whichever of tension, vertical and athwart part uses "
        "most, for a tension at a level of the lower limit, corner or lock. Compression on the deck has no limit. "
        "Forces in N. Widths and heights have one scale; a lash runs from its corner to its foot; a mark above its hook: "
        "it holds the upper box, by the bottom corner.", {},
    )
    if any(figure.force_text.startswith("<") for figure in outcome.figures.values()):
        yield PAD_WORDS, {}
    yield not_checked(outcome), {}
