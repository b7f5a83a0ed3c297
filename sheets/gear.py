"""The gear section (a count and its lashes, as at an end of a stack sheet) and the list of accepted choices (a 2-byte count, then a byte
a choice)."""

from struct import Struct, error

from sheets.sheet import LASH, MOST_LASHES, Reader, Refused, read_lashes, values

COUNT = Struct("<H")

# The list buffer that the longest list needs: every choice of eight lashes.
LIST_ROOM = COUNT.size + 2**MOST_LASHES


def pack_gear(lashes, count=None):
    """A gear section's bytes. A count that is given stands in place of the lashes' own."""
    return bytes([len(lashes) if count is None else count]) + b"".join(LASH.pack(*values(lash)) for lash in lashes)


def read_gear(data, tier_count):
    """The lashes of a gear section for a stack of so many tiers, or its first refusal; lengths and offsets are in the section."""
    reader = Reader(data)
    lashes = read_lashes(reader, tier_count)
    if reader.place < len(data):
        raise Refused(2, reader.place)
    return lashes


def uses(choice, lash):
    """Whether a choice uses the lash at this place of the gear, from 0."""
    return choice >> lash & 1 == 1


def chosen(choice, lashes):
    """The lashes that a choice uses, in the gear's order."""
    return tuple(lash for place, lash in enumerate(lashes) if uses(choice, place))


def pack_list(choices):
    return COUNT.pack(len(choices)) + bytes(choices)


def read_list(data):
    """The choices that the bytes of a list hold. Raises ValueError for other bytes than those of one."""
    try:
        (count,) = COUNT.unpack_from(data)
    except error:
        raise ValueError(f"no list: {len(data)} bytes, too few for the count") from None
    if len(data) != COUNT.size + count:
        raise ValueError(f"no list: {len(data) - COUNT.size} choices, and a count of {count}")
    return tuple(data[COUNT.size :])
