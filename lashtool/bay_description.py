"""Reads a bay's description in TOML: rows from port to starboard, each a stack's file, a stack written in place, or empty."""

from dataclasses import dataclass
from pathlib import Path

from lashtool.description import TOP_NAMES, BadDescription, check_names, described, read_title, sections_of, shown, table_of
from lashtool.fields import TIER_FIELDS, field
from lashtool.sources import LARGEST_FILE, STREAM, Source, read
from sheets.bay import MOST_ROWS
from sheets.sheet import pack

LARGEST_BAY = (MOST_ROWS + 1) * LARGEST_FILE  # also of a bay sheet's bytes
STACK, EMPTY = "stack", "empty"
FORMS = f'{STACK} = "FILE", {EMPTY} = true, or a stack of its own from [[row.tier]] on'
WIND = field(TIER_FIELDS, "exposed")


@dataclass(frozen=True)
class Row:
    number: int  # from 1 at port
    data: bytes = b""  # its stack sheet, none of an empty row
    name: str = ""  # of the stack's file, as given
    told: object = None  # the stack's description
    winds: tuple = ()  # for each tier the wind that its description gives, or none

    def __str__(self):
        return f"row {self.number} ({self.name})" if self.name else f"row {self.number}"


@dataclass(frozen=True)
class BayDescription:
    title: str
    rows: tuple


def read_bay(source, roll=None):
    """The bay that a file tells of."""
    table = table_of(read(source, LARGEST_BAY, "bay"))
    check_names("the bay", table, ("title", "row"))
    rows = table.get("row", [])
    if not isinstance(rows, list) or not all(isinstance(row, dict) for row in rows):
        raise BadDescription("row: has to be written as [[row]]")
    if not 1 <= len(rows) <= MOST_ROWS:
        raise BadDescription(f"row: a bay has 1 to {MOST_ROWS} of [[row]], not {len(rows)}")
    folder = Path() if source.name == STREAM else Path(source.name).parent
    return BayDescription(read_title(table), tuple(read_row(number, row, folder, roll) for number, row in enumerate(rows, 1)))


def read_row(number, row, folder, roll):
    where = f"row {number}"
    check_names(where, row, (STACK, EMPTY, *TOP_NAMES))
    for alone in (STACK, EMPTY):
        others = [name for name in row if name != alone]
        if alone in row and others:
            raise BadDescription(f"{where}: beside {alone} nothing else can be given, as {shown(others[0])}")
    if STACK in row:
        return named_row(number, row[STACK], folder, roll)
    if EMPTY in row:
        if row[EMPTY] is not True:
            raise BadDescription(f"{where}: {EMPTY} is {shown(row[EMPTY])}; it has to be true")
        return Row(number)
    if not row:
        raise BadDescription(f"{where}: nothing is given; it has to be {FORMS}")
    return loaded_row(number, where, "", row, roll)


def named_row(number, name, folder, roll):
    if not isinstance(name, str) or not name:
        raise BadDescription(f"row {number}: {STACK} is {shown(name)}; it has to be the name of a stack's file")
    where = f"row {number}, {name}"
    try:
        table = table_of(read(Source(str(folder / name))))
    except BadDescription as fault:
        raise BadDescription(f"{where}: {fault}") from None
    return loaded_row(number, where, name, table, roll)


def loaded_row(number, where, name, table, roll):
    try:
        told = described(table, roll)
    except BadDescription as fault:
        raise BadDescription(f"{where}: {fault}") from None
    return Row(number, pack(told.sheet), name, told, tuple(given_winds(table, told.sheet)))


def given_winds(table, sheet):
    sections = sections_of(table)
    for each, tier in zip(sections["tier"], sheet.tiers):
        yield tier.exposed if WIND.name in each or WIND.name in sections["box"] else None
