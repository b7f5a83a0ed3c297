"""The calls of the C library (include/lash_check.h), one table for all that use them."""

import ctypes
from dataclasses import dataclass
from functools import lru_cache

from lashlib.build import shared_library
from sheets.bay import REPORT_ROOM
from sheets.gear import LIST_ROOM
from sheets.sheet import ANSWER_ROOM
from sheets.side import SIDE_ROOM

# What a call takes, in its order: bytes or 4-byte numbers that are lent for reading, a buffer that is written, or a number of C's.
READ, NUMBERS, WRITTEN = "read", "numbers", "written"
CALLS = {
    "lash_check": (READ, WRITTEN),
    "lash_preview": (READ, ctypes.c_uint32, ctypes.c_uint16, WRITTEN),
    "lash_forecast": (READ, ctypes.c_uint16, ctypes.c_uint16, ctypes.c_uint32, WRITTEN),
    "lash_side": (READ, READ, WRITTEN),
    "lash_bay": (READ, WRITTEN),
    "lash_arrangements": (READ, READ, WRITTEN),
    "lash_twenties": (ctypes.c_uint32, ctypes.c_uint32, NUMBERS),
    "lash_roll": (*(ctypes.c_uint32,) * 6, *(ctypes.c_int32,) * 4),
}
POINTER_AND_LENGTH = {
    READ: (ctypes.c_char_p, ctypes.c_size_t),
    NUMBERS: (ctypes.POINTER(ctypes.c_uint32), ctypes.c_size_t),
    WRITTEN: (ctypes.c_char_p, ctypes.c_size_t),
}


@dataclass(frozen=True)
class Reply:
    """What a call returned and what it left in its buffer."""

    result: int  # the 64 bits
    buffer: bytes = b""

    @property
    def number(self):
        """0, or why the call was refused."""
        return self.result & 255

    @property
    def second(self):
        return self.result >> 8

    @property
    def answer(self):
        """The bytes written, if the call was not refused."""
        return self.buffer[: self.second]

    @property
    def output(self):
        """What the program lashcheck writes for this."""
        return b"%d %d\n" % (self.number, self.second) if self.number else self.answer


class BayReply(Reply):
    """What the call for a bay returned, whose bits 32 to 39 are the row, and the report that it left."""

    @property
    def second(self):
        return self.result >> 8 & 0xFFFFFF

    @property
    def row(self):
        """Of a refusal, from 1; 0 where none is named."""
        return self.result >> 32


class Library:
    """The calls of a shared library."""

    def __init__(self, path, calls=CALLS):
        loaded = ctypes.CDLL(str(path))
        self.calls = {name: declared(loaded[name], kinds) for name, kinds in calls.items()}
        self.kinds = calls

    def call(self, name, *given, room=ANSWER_ROOM, reply=Reply):
        """Calls with the bytes and numbers given, in order; the buffer is none of them, only its length is, as `room`."""
        buffer, words, rest = ctypes.create_string_buffer(room), [], iter(given)
        for kind in self.kinds[name]:
            if kind == WRITTEN:
                words += (buffer, room)
            else:
                words += lent(kind, next(rest))
        return reply(self.calls[name](*words), buffer.raw)

    def check(self, sheet, room=ANSWER_ROOM):
        return self.call("lash_check", sheet, room=room)

    def preview(self, sheet, tier, mass, room=ANSWER_ROOM):
        return self.call("lash_preview", sheet, tier, mass, room=room)

    def forecast(self, sheet, wave_height, breadth, hours, room=ANSWER_ROOM):
        return self.call("lash_forecast", sheet, wave_height, breadth, hours, room=room)

    def side(self, sheet, pitch, room=SIDE_ROOM):
        return self.call("lash_side", sheet, pitch, room=room)

    def bay(self, data, room=REPORT_ROOM):
        return self.call("lash_bay", data, room=room, reply=BayReply)

    def arrangements(self, sheet, gear, room=LIST_ROOM):
        return self.call("lash_arrangements", sheet, gear, room=room)

    def twenties(self, table, acceleration, masses):
        return self.call("lash_twenties", table, acceleration, masses, room=0)

    def roll(self, *condition):
        """Sine, cosine, heave, angle, period, length, centre, x, y, z."""
        return self.call("lash_roll", *condition, room=0)


def lent(kind, value):
    """A value as the words that a call takes it by: one, or a pointer and how many there are."""
    if kind == READ:
        return value, len(value)
    if kind == NUMBERS:
        return (ctypes.c_uint32 * (len(value) or 1))(*value), len(value)  # never a null pointer
    return (value,)


def declared(function, kinds):
    """A function of the library with its types set."""
    function.restype = ctypes.c_uint64
    types = [POINTER_AND_LENGTH.get(kind, (kind,)) for kind in kinds]
    function.argtypes = [each for pair in types for each in pair]
    return function


@lru_cache(4)
def loaded(path=None):
    """A library by its path, or the proved one, built if need be."""
    return Library(path or shared_library())
