"""The bay sheet and the bay's report: the rows that bytes hold, and when the lengths turn a bay back."""

from dataclasses import dataclass
from struct import Struct

from sheets.sheet import ANSWER_ROOM, Refused

MOST_ROWS = 24
BAD_BAY, NO_ROOM = 16, 13
LENGTH = Struct("<H")  # before a row's stack sheet, and before a row's answer; 0 for an empty row
TOTALS = Struct("<BII")  # accepted rows, mass in kg, greatest racking in size in N

# The report buffer that the longest report needs.
REPORT_ROOM = TOTALS.size + MOST_ROWS * (LENGTH.size + ANSWER_ROOM)


class BayRefused(Refused):
    """A bay turned back, with the three numbers returned; the row counts from 1, and is 0 where none is named."""

    def __init__(self, number, second, row):
        super().__init__(number, second)
        self.row = row


def pack_bay(rows, count=None):
    """A bay's bytes from those of its rows, empty for an empty row. A count that is given stands in place of their number."""
    data = bytes([len(rows) if count is None else count])
    return data + b"".join(LENGTH.pack(len(row)) + row for row in rows)


def rows_of(data):
    """The bytes of each row's stack sheet, or refusal 16: a bad count, or lengths that do not end with the bay's bytes."""
    if not data or not 1 <= data[0] <= MOST_ROWS:
        raise BayRefused(BAD_BAY, 0, 0)
    rows, place = [], 1
    for _ in range(data[0]):
        if place + LENGTH.size > len(data):
            raise BayRefused(BAD_BAY, 0, 0)
        (length,) = LENGTH.unpack_from(data, place)
        place += LENGTH.size
        rows.append(data[place : place + length])
        place += length
    if place != len(data):
        raise BayRefused(BAD_BAY, 0, 0)
    return rows


@dataclass(frozen=True)
class Report:
    accepted: int  # loaded rows with verdict 0
    mass: int  # kg, of all loaded rows
    racking: int  # N, the greatest reported in size
    answers: tuple  # each row's bytes, empty for an empty row


class BadReport(Exception):
    """Bytes that are no report of a bay, with the reason."""


def read_report(data, count):
    """The report that the bytes are, of a bay of this many rows."""
    if len(data) < TOTALS.size:
        raise BadReport(f"{len(data)} bytes, too few for the totals")
    answers, place = [], TOTALS.size
    for row in range(1, count + 1):
        if place + LENGTH.size > len(data):
            raise BadReport(f"ends after {len(data)} bytes, before row {row}")
        (length,) = LENGTH.unpack_from(data, place)
        place += LENGTH.size
        if place + length > len(data):
            raise BadReport(f"ends after {len(data)} bytes, within row {row}")
        answers.append(data[place : place + length])
        place += length
    if place != len(data):
        raise BadReport(f"{len(data) - place} bytes after the last row")
    return Report(*TOTALS.unpack_from(data), tuple(answers))
