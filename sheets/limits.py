"""Permissible loads, and the findings and verdict that follow from a sheet's forces."""

from dataclasses import dataclass
from fractions import Fraction

from sheets.sheet import CLOSED, DOOR

# Kinds of finding.
RACKING, COMPRESSION, CORNER, LOCK, LASH_TENSION, LASH_VERTICAL, LASH_ATHWART = range(1, 8)

# CR Table 2-3, N.
RACKING_LIMIT = 150_000
COMPRESSION_LIMIT = 848_000
CORNER_LIMIT = 250_000
LASH_VERTICAL_LIMIT = 300_000
LASH_ATHWART_LIMIT = 150_000

HIGHER_STRENGTH = 1  # the material code, of locks and of lashes


def safe_working_load(breaking, material):
    """Breaking load / factor, rounded down to whole kilonewtons; 1.67 for higher strength steel, 2 for all else."""
    hundredths = 167 if material == HIGHER_STRENGTH else 200
    return breaking * 100 // hundredths // 1_000 * 1_000


@dataclass(frozen=True)
class Check:
    """One checked limit: a force in size beside what it may be."""

    end: int
    kind: int
    index: int
    size: Fraction
    limit: int


def checks(sheet, ends):
    """Every checked limit in the answer's order: end, kind, index."""
    head = sheet.head
    lock = safe_working_load(head.lock_breaking, head.lock_material)
    for end, forces in zip((DOOR, CLOSED), ends):
        for tier, force in enumerate(forces.racking, 1):
            yield Check(end, RACKING, tier, abs(force), RACKING_LIMIT)
        for level, force in enumerate(forces.compression):
            if level > 0:
                yield Check(end, COMPRESSION, level, force, COMPRESSION_LIMIT)
        for level, force in enumerate(forces.tension):
            yield Check(end, CORNER, level, force, CORNER_LIMIT)
        for level, force in enumerate(forces.tension):
            yield Check(end, LOCK, level, force, lock)
        yield from lash_checks(sheet.lashes(end), end, forces.lashes)


def lash_checks(lashes, end, results):
    for index, (lash, forces) in enumerate(zip(lashes, results)):
        limit = safe_working_load(lash.breaking, lash.material)
        yield Check(end, LASH_TENSION, index, forces.tension, limit)
    for index, forces in enumerate(results):
        yield Check(end, LASH_VERTICAL, index, forces.vertical, LASH_VERTICAL_LIMIT)
    for index, forces in enumerate(results):
        yield Check(end, LASH_ATHWART, index, forces.athwart, LASH_ATHWART_LIMIT)


def named(exceeded):
    """Of the limits exceeded those that are named. Corner and lock tension are one pull: where both are exceeded at a level
    only the lower limit is named, and the corner if they are equal."""
    corners, locks = ({(c.end, c.index): c.limit for c in exceeded if c.kind == kind} for kind in (CORNER, LOCK))
    for check in exceeded:
        corner, lock = (limits.get((check.end, check.index)) for limits in (corners, locks))
        both = check.kind in (CORNER, LOCK) and None not in (corner, lock)
        if not both or check.kind == (LOCK if lock < corner else CORNER):
            yield check


def findings(sheet, ends):
    """(end, kind, index) of each limit that the reported size exceeds and that is named."""
    exceeded = [check for check in checks(sheet, ends) if check.size > check.limit]
    return [(check.end, check.kind, check.index) for check in named(exceeded)]
