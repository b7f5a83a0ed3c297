"""A taken sheet with its answer: every reported force beside its limit, and how much of it is used."""

from dataclasses import dataclass
from fractions import Fraction

from lashtool.summary import Use, percent_words, worst_use
from sheets.limits import (
    COMPRESSION, CORNER, LASH_ATHWART, LASH_TENSION, LASH_VERTICAL, LOCK, RACKING, checks,
)

KEPT = 9  # N; what `check` is proved to keep: each figure is less than this above the exact force
AMBER = Fraction(80, 100)  # of a limit, from where a figure is marked though it is allowed
CALM, NEAR, OVER = "calm", "near", "over"
LASH_KINDS = (LASH_TENSION, LASH_VERTICAL, LASH_ATHWART)


@dataclass(frozen=True)
class Figure:
    """A reported force; the limit is none where the force is only reported."""

    end: int
    kind: int
    index: int
    force: int
    limit: int
    over: bool  # the limit is exceeded, named by a finding or not

    @property
    def use(self):
        return None if self.limit is None else Use(self.end, self.kind, self.index, abs(self.force), self.limit)

    @property
    def share(self):
        """The part of the limit used; nothing without a limit."""
        return self.use.share if self.use else Fraction(0)

    @property
    def used(self):
        """The share in percent, rounded up to a tenth; none without a limit, or if it is 0 and exceeded."""
        return self.use.percent if self.use else None

    @property
    def used_text(self):
        return percent_words(self.use) if self.use else "-"

    @property
    def force_text(self):
        """The size; a figure that may stand for no force at all shows only what is known of it."""
        size = abs(self.force)
        return f"< {KEPT}" if 0 < size < KEPT and not self.over else f"{size:,}"

    @property
    def state(self):
        if self.over:
            return OVER
        return NEAR if self.share >= AMBER else CALM


def greatest(figures):
    """The figure with the greatest share of its limit, the first of equal ones."""
    return max(figures, key=lambda figure: figure.share)


@dataclass(frozen=True)
class ListedLash:
    """A lash as a person counts it, with its places (end, index) in the answer."""

    number: int
    lash: object
    places: tuple

    @property
    def ends(self):
        return tuple(end for end, _ in self.places)


@dataclass(frozen=True)
class Result:
    """A taken sheet with its answer."""

    title: str
    sheet: object
    answer: object
    assumed: list
    numbers: tuple  # of the lashes of each end, as a person counts them
    figures: dict  # Figure by (end, kind, index)
    forecast: object = None  # whose factor stands in place of the route's
    motion: object = None  # the ship's, where accelerations were worked out from its roll

    @property
    def accepted(self):
        return self.answer.verdict == 0

    def figure(self, end, kind, index):
        return self.figures[end, kind, index]

    def findings(self):
        return [self.figures[place] for place in self.answer.findings]

    def worst(self):
        """The figure that uses the most of its limit."""
        use = worst_use(self.sheet, self.answer)
        return self.figures[use.end, use.kind, use.index]

    def lash(self, end, index):
        return self.sheet.lashes(end)[index]

    def number(self, end, index):
        return self.numbers[end][index]

    def order(self, end):
        """The indices of an end's lashes, as a person counts them."""
        return sorted(range(len(self.sheet.lashes(end))), key=lambda index: self.numbers[end][index])

    def listed(self):
        """Every lash once, one that is the same at both ends together."""
        found = {}
        for end in range(len(self.numbers)):
            for index in self.order(end):
                key = (self.number(end, index), self.lash(end, index))
                found.setdefault(key, []).append((end, index))
        rows = [ListedLash(*key, tuple(places)) for key, places in found.items()]
        return sorted(rows, key=lambda row: (row.number, row.places))

    def tension(self, end, level):
        """Of a level's two tension figures the one that uses more of its limit."""
        return greatest(self.figure(end, kind, level) for kind in (CORNER, LOCK))

    def over_both(self):
        """Whether a tension exceeds the corner's limit and the lock's, which is one finding."""
        return any(f.over and f.kind == CORNER and self.figure(f.end, LOCK, f.index).over for f in self.figures.values())

    def governing(self, end, index):
        """Of a lash's three figures the one that uses the most of its limit."""
        return greatest(self.figure(end, kind, index) for kind in LASH_KINDS)


def result(title, sheet, answer, assumed, numbers=None, motion=None, forecast=None):
    """Without numbers from a description, lashes count from 1 at each end in the sheet's order."""
    numbers = numbers or tuple(tuple(range(1, len(sheet.lashes(end)) + 1)) for end in range(2))
    return Result(title, sheet, answer, assumed, numbers, figures(sheet, answer), motion=motion, forecast=forecast)


def figures(sheet, answer):
    """Every reported force beside its limit, in the answer's order of findings."""
    checked = {(c.end, c.kind, c.index): c for c in checks(sheet, answer.ends)}
    found = {}
    for end, forces in enumerate(answer.ends):
        for kind, by_index in by_kind(forces).items():
            for index, force in by_index.items():
                place = (end, kind, index)
                check = checked.get(place)
                limit, over = (check.limit, check.size > check.limit) if check else (None, False)
                found[place] = Figure(*place, force, limit, over)
    return found


def by_kind(forces):
    """The forces of an end by kind and index."""
    return {
        RACKING: dict(enumerate(forces.racking, 1)),
        COMPRESSION: dict(enumerate(forces.compression)),
        CORNER: dict(enumerate(forces.tension)),
        LOCK: dict(enumerate(forces.tension)),
        LASH_TENSION: dict(enumerate(lash.tension for lash in forces.lashes)),
        LASH_VERTICAL: dict(enumerate(lash.vertical for lash in forces.lashes)),
        LASH_ATHWART: dict(enumerate(lash.athwart for lash in forces.lashes)),
    }
