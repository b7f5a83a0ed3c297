"""The lashes in the picture: each from its corner to its foot, true to scale, with a label of what governs it."""

from dataclasses import dataclass
from math import dist

from lashtool.drawing import PAPER
from lashtool.figures import LASH_KINDS
from lashtool.geometry import BOX_WIDTH, POST_SPACING
from lashtool.svg_style import FAINT, LASHES, LINE, draw_label, named
from sheets.limits import LASH_ATHWART, LASH_TENSION, LASH_VERTICAL
from sheets.sheet import BOTTOM, CROSS

PART_WORDS = {LASH_TENSION: "tension", LASH_VERTICAL: "vertical", LASH_ATHWART: "athwart"}
CORNER_INSET = (BOX_WIDTH - POST_SPACING) / 2  # mm from a box's side to the middle of its corner
BADGE = 8  # radius
MARK = 14  # how far the mark at a bottom hook reaches into the box that the lash holds


@dataclass(frozen=True)
class DrawnLash:
    number: int
    hook: tuple
    at_bottom: bool  # hooked to a bottom corner
    foot: tuple
    figures: list  # the governing one, and the others that exceed their limits

    @property
    def governing(self):
        return self.figures[0]

    @property
    def height(self):
        """Of its label."""
        return LINE * len(self.figures)

    def along(self, part):
        """The point that lies this part of the way from hook to foot."""
        return tuple(a + part * (b - a) for a, b in zip(self.hook, self.foot))


def label_figures(outcome, end, index):
    """What a lash's label shows: the figure that uses the most of its limit, and others that exceed theirs."""
    governing = outcome.governing(end, index)
    others = [outcome.figure(end, kind, index) for kind in LASH_KINDS]
    return [governing, *(figure for figure in others if figure.over and figure is not governing)]


def label_rows(outcome, end):
    return sum(len(label_figures(outcome, end, index)) for index in outcome.order(end))


def drawn_lash(panel, outcome, end, index):
    """A cross lash leaves the lee corner, a side lash the windward one; both run down to windward."""
    lash = outcome.lash(end, index)
    corner = panel.stack_right - CORNER_INSET * panel.scale
    if lash.kind != CROSS:
        corner -= POST_SPACING * panel.scale
    hook = (corner, panel.level(lash.level))
    foot = (hook[0] - lash.ly * panel.scale, hook[1] + lash.lz * panel.scale)
    return DrawnLash(outcome.number(end, index), hook, lash.hook == BOTTOM, foot, label_figures(outcome, end, index))


def drawn_lashes(panel, outcome, end):
    return [drawn_lash(panel, outcome, end, index) for index in outcome.order(end)]


def draw_lashes(drawing, panel, lashes):
    """The lashes with their labels, which stand in the order of the feet."""
    for lash in lashes:
        draw_lash(drawing, lash)
    lashes = sorted(lashes, key=lambda lash: (-lash.foot[1], lash.foot[0]))
    blocks = [(lash.foot[1] + 4, lash.height) for lash in lashes]
    for lash, bottom in zip(lashes, spread(blocks, panel.labels_top, panel.labels_bottom)):
        draw_lash_label(drawing, panel, lash, bottom - lash.height + LINE)


def spread(blocks, top, bottom):
    """Places blocks (wanted lower edge, height), the lowest first, so that none lies on another."""
    edges = []
    for wanted, height in blocks:
        edges.append(min(wanted, bottom))
        bottom = edges[-1] - height
    for index in reversed(range(len(blocks))):
        edges[index] = max(edges[index], top + blocks[index][1])
        top = edges[index]
    return edges


def draw_lash(drawing, lash):
    colour, width = LASHES[lash.governing.state]
    drawing.line(lash.hook, lash.foot, PAPER, width + 3)
    drawing.line(lash.hook, lash.foot, colour, width, named("lash", lash.governing))
    if lash.at_bottom:
        x, y = lash.hook
        drawing.line((x, y), (x, y - MARK), colour, 4, "bottom hook")
    x, y = lash.foot
    drawing.line((x - 9, y + 3), (x + 9, y + 3), FAINT, 2, "lashing point")
    for point in (lash.hook, lash.foot):
        drawing.circle(point, 4, colour, stroke=PAPER)


def draw_badges(drawing, panel, lashes):
    """The lashes' numbers, each at that place of its lash, off the words, that lies farthest from the others."""
    taken = []
    for lash in lashes:
        places = [lash.along(part / 20) for part in range(3, 18)]
        places = [place for place in places if not panel.has_words(place)] or places
        taken.append(max(places, key=lambda place: min((dist(place, other) for other in taken), default=0)))
    for lash, (x, y) in zip(lashes, taken):
        drawing.circle((x, y), BADGE, LASHES[lash.governing.state][0], stroke=PAPER)
        drawing.text(x, y + 4, str(lash.number), PAPER, "middle", "badge", **{"font-size": 11, "font-weight": "bold"})


def draw_lash_label(drawing, panel, lash, row):
    drawing.line((panel.left + panel.labels, row - 4), lash.foot, FAINT, 1)
    for figure in lash.figures:
        words = f"lash {lash.number} {PART_WORDS[figure.kind]}"
        draw_label(drawing, panel.left + 4, row, panel.labels - 4, words, figure)
        row += LINE
