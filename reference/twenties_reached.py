"""Which entries of the two tables questions have reached, and how: on their row or between rows, below, at or above what they permit."""

from itertools import product

from reference.twenties import LEAST_ACCELERATION, LEAST_TIERS, MOST_MASS, MOST_TIERS, TABLES, Verdict, permitted, row_taken, used

SIDES = {-1: "a kilogram below", 0: "at", 1: "a kilogram above"}


def entries():
    """(table, row in thousandths of g, tier count) of every entry."""
    for table in range(len(TABLES)):
        for row, tiers in product(used(table), range(LEAST_TIERS, MOST_TIERS + 1)):
            yield table, int(1000 * row), tiers


def heaviest(tiers):
    """What legal boxes above the lowest weigh at most."""
    return (tiers - 1) * MOST_MASS


def heavy(table, row, tiers):
    """Whether no legal boxes weigh what the entry permits."""
    return permitted(table, row, tiers) > heaviest(tiers)


def totals(table, row, tiers):
    """The totals that are to be asked of an entry: about what it permits; the heaviest, if no boxes weigh so much."""
    return [heaviest(tiers)] if heavy(table, row, tiers) else [permitted(table, row, tiers) + more for more in SIDES]


class Reached:
    def __init__(self):
        self.places = set()

    def add(self, question, due):
        if isinstance(due, Verdict):
            row = int(1000 * row_taken(question.table, question.acceleration))
            self.places.add((question.table, row, len(question.masses), question.acceleration != row, due.total))

    def missed(self):
        """(table, row, tier count, whether between rows, total) that is to be asked and was not."""
        return [
            (table, row, tiers, between, total)
            for table, row, tiers in entries()
            for between in (False, True)
            if not between or row > LEAST_ACCELERATION
            for total in totals(table, row, tiers)
            if (table, row, tiers, between, total) not in self.places
        ]

    def __str__(self):
        listed = list(entries())
        reachable = [place for place in listed if not heavy(*place)]
        words = f"{len(listed)} entries, {len(reachable)} of them {', '.join(SIDES.values())} their permitted mass"
        return f"{words}, the rest under it with the heaviest boxes; on their row, and between rows where there is one below"
