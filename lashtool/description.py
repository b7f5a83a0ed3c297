"""Reads a stack's description in TOML into a sheet."""

import tomllib
from codecs import BOM_UTF8, BOM_UTF16_BE, BOM_UTF16_LE
from dataclasses import dataclass
from difflib import get_close_matches

from lashtool.checking import library_roll
from lashtool.fields import (
    ACCELERATION_FIELDS, BOTH_ENDS, CLASS_RULE, END_FIELD, ENDS, FARTHEST, GEAR_FIELDS, HEAD_FIELDS, HEIGHT_FIELD, LASH_FIELDS,
    LOCK_FIELDS, LONGITUDINAL_FIELD, MEANT, POSITION_FIELDS, SHIP_FIELDS, TIER_FIELDS, field, lash_place,
)
from lashtool.ship import Outside, Ship, accelerations
from sheets.sheet import (
    HEIGHTS, MOST_LASHES, MOST_TIERS, Head, Lash, Sheet, Tier, sheet_order, wind_code,
)


class BadDescription(Exception):
    """A description that makes no sheet, with the field and the reason."""


@dataclass(frozen=True)
class Description:
    title: str
    sheet: Sheet
    assumed: list  # what was not given and what it was taken as, in words
    numbers: tuple  # of each end's lashes in the sheet's order: their place in the description, from 1
    motion: object = None  # of a ship whose roll accelerations were worked out from
    longitudinal: tuple = ()  # A_L of each tier; none where it is not given


TABLES = {"lock": dict, "box": dict, "gear": dict, "ship": dict, "position": dict, "tier": list, "lash": list}
TOP_NAMES = ("title", *(field.name for field in HEAD_FIELDS), *TABLES)


def describe(data, roll=None):
    """The stack that the bytes of a description tell of. `roll` works accelerations out in place of the library."""
    return described(table_of(data), roll)


def described(table, roll=None):
    """The stack that a table tells of."""
    sections = sections_of(table)
    reader = FieldReader()
    head = read_head(reader, table, sections["lock"])
    motion = read_motion(sections, head.rule, roll or library_roll())
    tiers = read_tiers(reader, sections["tier"], sections["box"], motion)
    ends = read_lashes(reader, sections["lash"], sections["gear"], len(tiers))
    door, closed = (tuple(lash for _, lash in end) for end in ends)
    numbers = tuple(tuple(number for number, _ in end) for end in ends)
    worked = motion if motion and motion.worked else None
    longitudinal = read_longitudinal(sections["tier"], sections["box"])
    return Description(read_title(table), Sheet(head, tiers, door, closed), reader.assumed(), numbers, worked, longitudinal)


def table_of(data):
    """A description as one table."""
    text = text_of(data)
    try:
        return tomllib.loads(text)
    except ValueError as error:
        raise BadDescription(f"this is no TOML: {error}") from None
    except RecursionError:
        raise BadDescription("this is no TOML: it is nested too deeply") from None


def sections_of(table):
    """The sections of a stack's table by name."""
    check_names("the stack", table, TOP_NAMES)
    return {name: section(table, name) for name in TABLES}


def read_ship(data):
    """The ship of a description, and the place that it gives for the stack."""
    sections = sections_of(table_of(data))
    if not sections["ship"]:
        raise BadDescription("there is no [ship]")
    motion = read_motion(sections, CLASS_RULE, None)
    return motion.ship, motion.position


def text_of(data):
    """A description's letters; a byte order mark of UTF-8, as some editors write it, is no part of them."""
    if data.startswith((BOM_UTF16_LE, BOM_UTF16_BE)):
        raise BadDescription("this is UTF-16; a description has to be saved as UTF-8")
    data = data.removeprefix(BOM_UTF8)
    try:
        text = data.decode()
    except UnicodeDecodeError as error:
        where = place(data[: error.start].decode())
        fault = f"byte 0x{data[error.start]:02x} in {where} is no UTF-8"
        raise BadDescription(f"{fault}; a description has to be saved as UTF-8") from None
    if "\0" in text:
        where = place(text[: text.index("\0")])
        raise BadDescription(f"a zero byte in {where}, as in UTF-16; a description has to be saved as UTF-8")
    return text


def place(before):
    """The line and column that follow a text."""
    return f"line {before.count(chr(10)) + 1}, column {len(before) - before.rfind(chr(10))}"


def section(table, name):
    """A table, or a list of tables; empty if there is none."""
    kind = TABLES[name]
    value = table.get(name, kind())
    written = f"[[{name}]]" if kind is list else f"[{name}]"
    parts = value if kind is list and isinstance(value, list) else [value]
    if not isinstance(value, kind) or not all(isinstance(part, dict) for part in parts):
        raise BadDescription(f"{name}: has to be written as {written}")
    return value


def read_title(table):
    title = table.get("title", "")
    if not isinstance(title, str):
        raise BadDescription("title: has to be text")
    return "".join(letter if letter.isprintable() else " " for letter in title).strip()


def check_names(where, table, names):
    for name in table:
        if name not in names:
            raise BadDescription(f"{where}: unknown field {shown(name)}; {hint(name, names)}")


def hint(name, names):
    """The field that was probably meant, or all that are known."""
    meant = MEANT.get(name.lower())
    close = [meant] if meant in names else get_close_matches(name, names, 1, 0.5)
    return f'did you mean "{close[0]}"?' if close else f"known are {', '.join(names)}"


def shown(value):
    """A value of the description as a message names it, on one short line."""
    try:
        text = f'"{value}"' if isinstance(value, str) else str(value)
    except ValueError:
        text = "of very many digits"
    text = "".join(letter if letter.isprintable() else "?" for letter in text)
    return text if len(text) <= 40 else f"{text[:37]}..."


class FieldReader:
    """Reads fields and keeps in mind what was not given."""

    def __init__(self):
        self.taken = {}

    def assumed(self):
        return list(self.taken)

    def values(self, what, fields, places):
        """The fields' values by attribute, each from the first place (name, table) that has it."""
        return {field.attribute: self.value(what, field, places) for field in fields}

    def value(self, what, field, places):
        for where, table in places:
            if field.name in table:
                return checked(where, field, table[field.name])
        if field.default is None:
            raise BadDescription(f"{places[0][0]}: {field.name} is missing ({field.allowed()})")
        self.taken[f"{what} {field.name} {field.shown(field.default)}".strip()] = True
        return field.default


def checked(where, field, value):
    """A given value as the sheet's number."""
    if field.words:
        if value not in field.words:
            raise BadDescription(f"{where}: {field.name} is {shown(value)}; it has to be {field.allowed()}")
        return field.words.index(value)
    if field.flag:
        if type(value) is not bool:
            raise BadDescription(f"{where}: {field.name} is {shown(value)}; it has to be {field.allowed()}")
        return value
    if type(value) is not int:
        numbers = f", {field.allowed()}" if field.choices else ""
        raise BadDescription(f"{where}: {field.name} is {shown(value)}; it has to be a whole number{numbers}")
    if field.choices:
        if value not in field.choices:
            raise BadDescription(f"{where}: {field.name} {shown(value)} has to be {field.allowed()}")
        return value
    least, greatest = field.limits
    if not least <= value <= greatest:
        raise BadDescription(f"{where}: {field.name} {shown(value)} is outside {field.allowed()}")
    return value


def names(fields):
    return tuple(field.name for field in fields)


def read_head(reader, table, lock):
    check_names("[lock]", lock, names(LOCK_FIELDS))
    values = {
        **reader.values("", HEAD_FIELDS, [("the stack", table)]),
        **reader.values("lock", LOCK_FIELDS, [("[lock]", lock)]),
    }
    return Head(zero=0, **values)


@dataclass(frozen=True)
class Worked:
    """Accelerations of a tier that were worked out, by their names, for a box whose centre is at this height."""

    tier: int
    names: tuple
    z: int


class Motion:
    """A ship's roll, the stack's place on it, and what was worked out from both."""

    def __init__(self, ship, position, rule, roll):
        self.ship, self.position = ship, position
        self.percent = 45 if rule == CLASS_RULE else 50  # of a box's height, where its centre is
        self.roll = roll
        self.worked = []

    def missing(self, places):
        """The accelerations that no place gives."""
        return [each for each in ACCELERATION_FIELDS if not any(each.name in table for _, table in places)]

    def height(self, where, table, below, height):
        """Of a box's centre above the baseline, to the whole millimetre away from the roll centre."""
        if HEIGHT_FIELD.name in table:
            return checked(where, HEIGHT_FIELD, table[HEIGHT_FIELD.name])
        foot = self.place("foot") + below
        up = 100 * foot + self.percent * height >= 100 * self.ship.centre
        z = foot + (-(-self.percent * height // 100) if up else self.percent * height // 100)
        if abs(z) > FARTHEST:
            raise BadDescription(f"{where}: its centre at {z:,} mm lies beyond {FARTHEST:,} mm")
        return z

    def place(self, name):
        due = field(POSITION_FIELDS, name)
        return FieldReader().value("", due, [("[position]", self.position)])

    def fill(self, number, fields, z):
        """The values of these fields for a box, worked out."""
        try:
            found = accelerations(self.roll, self.ship.condition(self.place("x"), self.place("y"), z))
        except Outside as fault:
            raise BadDescription(f"tier {number}: {fault}") from None
        self.worked.append(Worked(number, names(fields), z))
        return {each.attribute: found[each.attribute] for each in fields}


def read_motion(sections, rule, roll):
    """None where there is no [ship]."""
    ship, position = sections["ship"], sections["position"]
    check_names("[ship]", ship, names(SHIP_FIELDS))
    check_names("[position]", position, names(POSITION_FIELDS))
    if not ship:
        if position:
            raise BadDescription("[position]: there is no [ship] whose roll it is for")
        return None
    read = Ship(**FieldReader().values("", SHIP_FIELDS, [("[ship]", ship)]))
    for each in POSITION_FIELDS:
        if each.name in position:
            checked("[position]", each, position[each.name])
    if position.get("x", 0) > read.length:
        raise BadDescription(f"[position]: x {position['x']:,} lies beyond the ship's length, {read.length:,} mm")
    return Motion(read, position, rule, roll)


def read_tiers(reader, tables, box, motion):
    known = (*TIER_FIELDS, LONGITUDINAL_FIELD)
    check_names("[box]", box, names(known))
    if not 1 <= len(tables) <= MOST_TIERS:
        raise BadDescription(f"tier: a stack has 1 to {MOST_TIERS} of [[tier]], not {len(tables)}")
    tiers = []
    for number, table in enumerate(tables, 1):
        where, places = f"tier {number}", [(f"tier {number}", table), ("[box]", box)]
        check_names(where, table, names((*known, HEIGHT_FIELD) if motion else known))
        if HEIGHT_FIELD.name in table:
            checked(where, HEIGHT_FIELD, table[HEIGHT_FIELD.name])
        missing = motion.missing(places) if motion else []
        values = reader.values("box", [each for each in TIER_FIELDS if each not in missing], places)
        if missing:
            below = sum(tier.height for tier in tiers)
            values |= motion.fill(number, missing, motion.height(where, table, below, values["height"]))
        tier = Tier(wind=wind_code(values.pop("exposed"), values.pop("turned")), **values)
        check_box(where, tier)
        if tiers and tier.size != tiers[0].size:
            raise BadDescription(f"{where}: size {tier.size} feet differs from tier 1, which has {tiers[0].size}")
        tiers.append(tier)
    return tuple(tiers)


def read_longitudinal(tables, box):
    """A_L of each tier, none where neither it nor [box] has one."""
    found = []
    for number, table in enumerate(tables, 1):
        places = [(where, each) for where, each in ((f"tier {number}", table), ("[box]", box)) if LONGITUDINAL_FIELD.name in each]
        found.append(checked(places[0][0], LONGITUDINAL_FIELD, places[0][1][LONGITUDINAL_FIELD.name]) if places else None)
    return tuple(found)


def check_box(where, tier):
    """What a box's fields must be together."""
    if tier.height not in HEIGHTS[tier.size]:
        low, high = HEIGHTS[tier.size]
        due = f"{low:,} or {high:,} mm at {tier.size} feet"
        raise BadDescription(f"{where}: height {tier.height:,} has to be {due}")
    if tier.a_vmin > tier.a_vmax:
        raise BadDescription(f"{where}: A_Vmin {tier.a_vmin} is above A_Vmax {tier.a_vmax}")


def read_lashes(reader, tables, gear, tier_count):
    """(number, lash) of both ends, put in sheet order."""
    check_names("[gear]", gear, names(GEAR_FIELDS))
    ends = ([], [])
    for number, table in enumerate(tables, 1):
        where = f"lash {number}"
        check_names(where, table, names(GEAR_FIELDS))
        places = [(where, table), ("[gear]", gear)]
        end = reader.value("lash", END_FIELD, places)
        lash = Lash(**reader.values("lash", LASH_FIELDS, places))
        check_hook(where, lash, tier_count)
        for each in ENDS if end == BOTH_ENDS else [ENDS[end]]:
            ends[ENDS.index(each)].append((number, lash))
    for name, lashes in zip(ENDS, ends):
        if len(lashes) > MOST_LASHES:
            raise BadDescription(f"lash: the {name} end has {len(lashes)}, at most {MOST_LASHES} are allowed")
        check_places(name, lashes)
    return [sorted(lashes, key=lambda pair: sheet_order(pair[1])) for lashes in ends]


def check_hook(where, lash, tier_count):
    if lash.tier > tier_count:
        raise BadDescription(f"{where}: tier {lash.tier} is not in this stack of {tier_count} tiers")
    if lash.level == 0:
        raise BadDescription(f"{where}: hook is the bottom of tier 1, which stands on the deck")


def check_places(end, lashes):
    """Each corner takes one lash of a kind."""
    taken = {}
    for number, lash in lashes:
        first = taken.setdefault(sheet_order(lash), number)
        if first != number:
            raise BadDescription(
                f"lash {number}: given twice: {lash_place(lash)} at the {end} end is lash {first} already"
            )
