"""Previews to ask: sheets by seed, and of each sheet every tier number with masses at and past their limits."""

from dataclasses import dataclass, replace
from random import Random

from reference.cases import HEAD, ROD_S, box
from reference.faults import edit_tier
from reference.making import KINDS as MADE
from reference.samples import extreme, realistic
from sheets.sheet import ANSWER_ROOM, TIER_LIMITS, Sheet, pack

GREATEST = 2**32 - 1  # that the call for C can be given
TIERS = (*range(12), 255, GREATEST)
LEAST, MOST = TIER_LIMITS["mass"]
WIDEST = 2**16 - 1
MASSES = (0, LEAST, MOST, MOST + 1, WIDEST)
ROOMS = (0, ANSWER_ROOM - 1, ANSWER_ROOM + 1)


@dataclass(frozen=True)
class Move:
    tier: int
    mass: int
    room: int = ANSWER_ROOM

    def __str__(self):
        return f"tier {self.tier}, mass {self.mass}, buffer of {self.room} bytes"


def masses_at_fault(random, turn):
    """A legal sheet but for masses, which previews would mend: of one tier, or of two, of which a preview mends one alone."""
    sheet = random.choice((realistic, extreme))(random)
    places = random.sample(range(len(sheet.tiers)), min(len(sheet.tiers), 1 + turn % 3 // 2))
    for place in places:
        sheet = edit_tier(sheet, place, mass=random.choice((0, MOST + 1, WIDEST)))
    return f"masses at fault in tiers {sorted(place + 1 for place in places)}", pack(sheet)


KINDS = {**{kind: MADE[kind] for kind in ("realistic", "extreme", "edge", "damaged")}, "mass at fault": masses_at_fault}


def moves(seed):
    """Every tier number with each of MASSES and a mass at random; then some with another buffer."""
    random = Random(seed)
    for tier in TIERS:
        for mass in (*MASSES, random.randint(LEAST, MOST)):
            yield Move(tier, mass)
    for room in ROOMS:
        yield Move(random.choice((1, 1, 2, 3, *TIERS)), random.choice((*MASSES, random.randint(LEAST, MOST))), room)


# The request's own figures, for the program cases_preview: (name, sheet's bytes, move).


STACK = Sheet(HEAD, (box(),) * 3, (ROD_S,), (ROD_S,))
ROUGH = Sheet(HEAD, (box(a_t=1_000),) * 3, (), ())


def figures():
    """A stack of three boxes B with rod S, its masses moved, and one without in a rough sea; then the refusals, alone and where two
    could be told."""
    data = pack(STACK)
    for tier in (1, 2, 3):
        for mass in (LEAST, 10_000, 20_000, MOST):
            yield f"tier-{tier}-mass-{mass}", data, Move(tier, mass)
    for tier, mass in ((3, 10_000), (3, 20_000), (3, MOST), (2, MOST), (1, MOST)):
        yield f"rough-sea-tier-{tier}-mass-{mass}", pack(ROUGH), Move(tier, mass)
    yield "fleet-standard", pack(replace(STACK, head=replace(HEAD, rule=2))), Move(3, MOST)
    for tier in (0, 4, 10, 11, 255, GREATEST):
        yield f"no-tier-{tier}", data, Move(tier, 10_000)
    for mass in (0, MOST + 1, WIDEST):
        yield f"mass-{mass}", data, Move(3, mass)
        yield f"no-tier-mass-{mass}", data, Move(4, mass)
    heavy = pack(edit_tier(STACK, 1, mass=MOST + 1))
    yield "mended-mass", heavy, Move(2, 20_000)
    yield "fault-before-no-tier", heavy, Move(4, 20_000)
    yield "fault-of-another-tier", heavy, Move(3, 20_000)
    yield "spare-before-mass", data + b"\0", Move(1, 0)
    yield "empty-sheet", b"", Move(1, 1)
    yield "short-buffer", data, Move(3, 10_000, ANSWER_ROOM - 1)
    yield "mass-before-short-buffer", data, Move(3, 0, ANSWER_ROOM - 1)
    yield "no-tier-before-short-buffer", data, Move(4, 1, 0)
    yield "longer-buffer", data, Move(3, 10_000, ANSWER_ROOM + 1)


FIGURES = tuple(figures())
