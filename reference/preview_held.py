"""Holds the previews of a sheet to the papers' refusals and, byte by byte, to the check of the copy."""

from reference.preview import NO_TIER, tier_place, with_mass
from sheets.sheet import ANSWER_ROOM, TIER_COUNT_PLACE, TIER_LIMITS, Refused, parse

TIER_FIELD, NO_ROOM = 7, 13


def own_refusal(data):
    """The two numbers of the first fault of a sheet, or none."""
    try:
        parse(data)
    except Refused as refused:
        return refused.number, refused.second
    return None


def refusal(own, tiers, move):
    """What turns a move back, given the sheet's own refusal and its tier count: as reference.preview has it, without a copy."""
    least, most = TIER_LIMITS["mass"]
    if own:
        return own
    if not 1 <= move.tier <= tiers:
        return NO_TIER, move.tier
    if not least <= move.mass <= most:
        return TIER_FIELD, tier_place(move.tier)
    return None if move.room >= ANSWER_ROOM else (NO_ROOM, ANSWER_ROOM)


def held(data, moves, preview, check):
    """(move, the preview's reply, what is wrong with it or none) of each move. `preview` and `check` are the calls."""
    own = own_refusal(data)
    tiers = None if own else data[TIER_COUNT_PLACE]
    for move in moves:
        reply = preview(data, move.tier, move.mass, move.room)
        yield move, reply, fault(data, own, tiers, move, reply, check)


def fault(data, own, tiers, move, reply, check):
    due = refusal(own, tiers, move)
    if due and (reply.number, reply.second) != due:
        return f"gives {reply.number} {reply.second}, {due[0]} {due[1]} is due"
    if due and reply.buffer != bytes(move.room):
        return f"refused with {due[0]} {due[1]}, and the buffer was written"
    if own or due and due[0] == NO_TIER:
        return None
    copied = check(with_mass(data, move.tier, move.mass), move.room)
    if (reply.result, reply.buffer) != (copied.result, copied.buffer):
        return f"gives {reply.output[:40].hex()}, the check of the copy {copied.output[:40].hex()}"
    return None
