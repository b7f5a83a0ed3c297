"""How a figure looks in the picture: its colours by state, and a line of text over its bar."""

from lashtool.drawing import INK, PAPER
from lashtool.figures import CALM, NEAR, OVER

# Each state is darker than the one before, and what exceeds is bold on dark, so that they differ in grey as well.
FAINT = "#727c88"
TRACK = "#f3f4f6"
BARS = {CALM: "#cfdfee", NEAR: "#efb04a", OVER: "#9d1420"}
BOXES = {CALM: "#f1efe9", NEAR: "#f4cf8f", OVER: "#9d1420"}
LASHES = {CALM: ("#2f74b5", 2.5), NEAR: ("#8a5200", 3.5), OVER: ("#9d1420", 4.5)}
BOLD = {"font-weight": "bold"}
LINE = 17


def ink(figure):
    return PAPER if figure.state == OVER else INK


def stress(figure):
    return BOLD if figure.state == OVER else {}


def named(name, figure):
    """A shape's class: its name, and the figure's state unless it is calm."""
    return name if figure.state == CALM else f"{name} {figure.state}"


def draw_label(drawing, left, row, width, words, figure):
    """A force in one line over a bar of its share: its name, size and share of the limit."""
    drawing.rect(left - 4, row - 12, width, LINE - 2, TRACK, named("ground", figure))
    share = 1 if figure.state == OVER else min(1, float(figure.share))
    drawing.rect(left - 4, row - 12, width * share, LINE - 2, BARS[figure.state], named("bar", figure))
    drawing.text(left, row, words, ink(figure), **stress(figure))
    drawing.text(
        left + width - 66, row, figure.force_text, ink(figure), "end", named("figure", figure), **stress(figure)
    )
    drawing.text(left + width - 9, row, figure.used_text, ink(figure), "end", named("share", figure), **stress(figure))
