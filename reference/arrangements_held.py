"""Holds the list that a call wrote to the papers' refusals, to the check of each choice and, on some choices, to the fractions."""

from reference.arrangements import accepted, arranged, choices
from reference.stack import loads
from sheets.gear import chosen, pack_list, read_list
from sheets.sheet import LASH


def with_choice(data, gear, choice):
    """A bare sheet's bytes with the lashes of a choice at both ends, taken from the gear section's bytes."""
    lashes = [gear[at : at + LASH.size] for at in range(1, len(gear), LASH.size)]
    end = b"".join(chosen(choice, lashes))
    counted = bytes([choice.bit_count()]) + end
    return data[:-2] + counted * 2


def list_due(data, gear, count, check):
    """The list by the check's verdict on each choice; `check` gives a sheet's reply."""
    found = [choice for choice in choices(count) if accepts(check(with_choice(data, gear, choice)))]
    return pack_list(found)


def accepts(reply):
    """Whether a check took its sheet and found nothing."""
    return reply.number == 0 and reply.answer[0] == 0


def fault(due, asked, reply, check):
    """What is wrong with a reply, in words, or none."""
    if due.refusal:
        if (reply.number, reply.second) != due.refusal:
            return f"gives {reply.number} {reply.second}, {due.refusal[0]} {due.refusal[1]} is due"
        return "is refused, and the buffer was written" if any(reply.buffer) else None
    if reply.number:
        return f"gives {reply.number} {reply.second} for a stack and gear that are taken"
    listed = list_due(asked.sheet, asked.gear, len(due.lashes), check)
    if reply.second != len(listed):
        return f"gives a length of {reply.second}, {len(listed)} is due"
    if reply.buffer != listed + bytes(asked.room - len(listed)):
        return f"leaves {reply.buffer.hex()}, {listed.hex()} and zeros are due"
    return None


def faults_by_fractions(due, reply, those):
    """(choice, whether it is accepted by the fractions, none where that hangs on the margin, what is wrong or none) of some choices."""
    borne, listed = loads(due.sheet), set(read_list(reply.answer))
    for choice in those:
        right = accepted(arranged(due.sheet, due.lashes, choice), borne=borne)
        wrong = right is not None and right != (choice in listed)
        words = f"choice {choice} is {'' if choice in listed else 'not '}listed, against the fractions"
        yield choice, right, words if wrong else None
