"""Every arrangement of the gear aboard, from document 02, P13: all choices in their order, what is refused, and which choices an exact
force turns down, which none does, and which hang on the margin."""

from dataclasses import dataclass, replace

from reference.judge import KEPT
from reference.stack import exact_end, loads
from sheets.gear import LIST_ROOM, chosen, read_gear, uses
from sheets.limits import checks
from sheets.sheet import CLOSED, DOOR, Refused, parse

HOLDS_A_LASH, NO_ROOM = 24, 13


def choices(count):
    """All 2^count: fewer lashes first; among equals, at the first lash where two differ, the one that uses it."""
    return sorted(range(2**count), key=lambda choice: (choice.bit_count(), [not uses(choice, lash) for lash in range(count)]))


def arranged(sheet, lashes, choice):
    """The sheet with the lashes of a choice at both ends."""
    used = chosen(choice, lashes)
    return replace(sheet, door=used, closed=used)


def accepted(sheet, margin=KEPT, borne=None):
    """Whether the check accepts a sheet, whose forces it reports from the exact ones up to less than the margin above them; none where
    that hangs on the margin."""
    borne = borne or loads(sheet)
    ends = [exact_end(sheet, end, borne) for end in (DOOR, CLOSED)]
    found = list(checks(sheet, ends))
    if any(check.size > check.limit for check in found):
        return False
    return True if all(check.size + margin <= check.limit for check in found) else None


@dataclass(frozen=True)
class Due:
    """What must come out: a refusal, or the list for this sheet and gear."""

    refusal: tuple = None  # (number, second number)
    sheet: object = None
    lashes: tuple = ()


def expected(data, gear, room=LIST_ROOM):
    """After the stack sheet's own tests 24, then those of the gear section, then 13."""
    try:
        sheet = parse(data)
        if sheet.door or sheet.closed:
            raise Refused(HOLDS_A_LASH, 0)
        lashes = read_gear(gear, len(sheet.tiers))
        if room < LIST_ROOM:
            raise Refused(NO_ROOM, LIST_ROOM)
    except Refused as refused:
        return Due(refusal=(refused.number, refused.second))
    return Due(sheet=sheet, lashes=lashes)


def by_fractions(due, margin=KEPT):
    """(choice, whether it is accepted, none where that hangs on the margin) of each choice in order."""
    borne = loads(due.sheet)
    for choice in choices(len(due.lashes)):
        yield choice, accepted(arranged(due.sheet, due.lashes, choice), margin, borne)
