"""How much of a limit a reported force uses, and the worst use of all."""

from dataclasses import dataclass
from fractions import Fraction
from math import inf

from sheets.limits import checks


@dataclass(frozen=True)
class Use:
    """How much of a limit a reported force uses."""

    end: int
    kind: int
    index: int
    force: int  # its size, N
    limit: int

    @property
    def share(self):
        """Above 1 exactly if the limit is exceeded."""
        if self.limit == 0:
            return inf if self.force else Fraction(0)
        return Fraction(self.force, self.limit)

    @property
    def percent(self):
        """Rounded up to a tenth; none if the limit is 0 and a force is there."""
        if self.limit == 0:
            return None if self.force else 0.0
        return -(-self.force * 1000 // self.limit) / 10


def uses(sheet, answer):
    """Every reported force that has a limit, in the answer's order."""
    return [Use(c.end, c.kind, c.index, c.size, c.limit) for c in checks(sheet, answer.ends)]


def worst_use(sheet, answer):
    """The greatest use of a limit; the first of equal ones."""
    return max(uses(sheet, answer), key=lambda use: use.share)


def percent_words(use):
    if use.percent is None:
        return "no limit left"
    return f"{use.percent:,.1f}%"
