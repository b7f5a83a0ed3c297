#!/usr/bin/env python3
"""Writes what the programs cases, cases_preview, cases_twenties, cases_forecast, cases_side, cases_roll, cases_bay, cases_arrangements,
cases_springs and lashcheck are run on, and what they must write.

The src/main.rt of each says how a case, a move, a question, a condition and a bay are laid out. A field is the size of a number of the
answer and the least and the most that it may be; a racking to windward lies in two's complement.
"""

import struct
import sys
from dataclasses import astuple
from math import ceil
from pathlib import Path

ROOT = Path(__file__).resolve().parent.parent
sys.path.insert(0, str(ROOT))

from reference import arrangements, arrangements_asked, bay, bay_asked, chains, forecast, forecast_asked, side
from reference.cases import CASES, may_be_named, reported_range, stands
from reference.judge import MARGIN, figures
from reference.preview import previewed, with_mass
from reference.preview_asked import FIGURES as MOVES
from reference.roll import Accelerations, accelerations
from reference.roll_asked import FIGURES as CONDITIONS
from reference.script import finish
from reference.side_asked import FIGURES as SIDES
from reference.stack import exact
from reference.twenties import Verdict, judge
from reference.twenties_asked import FIGURES
from sheets.answer import counts
from sheets.bay import LENGTH, TOTALS
from sheets.sheet import Refused, parse
from sheets.side import read_side

HEAD = struct.Struct("<BHHH")
FIELD = struct.Struct("<BII")
QUESTION = struct.Struct("<16I")  # table, acceleration, count, and thirteen masses of which so many count
MOVE = struct.Struct("<IHHHH250s250s")  # tier, mass, room, lengths of the sheet and of the copy, and these
FORECAST = struct.Struct("<HHIHIIH")  # wave height, breadth, hours, room, least and most of a racking, length of the sheet
TWO_SHEETS = struct.Struct("<3H")  # room, lengths of the stack sheet and of the short sheet or the gear section
CONDITION = struct.Struct("<6I4i")
BAY = struct.Struct("<HIIH")  # room, least and most of the greatest racking, length of the bay sheet
ROOM_LIMIT = 1_024
INPUT_LIMIT = 65_536

# Its 452 bytes are as many as lashcheck reads.
LASHCHECK_CASE = "longest-and-one"


class Undecided(Exception):
    """A case whose answer's bytes hang on the last 100 N by more than single figures."""


def byte(value):
    return 1, value, value


def figure(kind, force):
    least, most, either = reported_range(kind, force)
    if either:
        raise Undecided(f"the way of a racking of {float(force)} N is open")
    return 4, least % 2**32, most % 2**32


def end_fields(end):
    """An end's counts and forces, in the answer's order."""
    tiers, levels, tensions, lashes = counts(end)
    forces = iter([figure(kind, force) for kind, _, force in figures(end)])
    for count, each in ((tiers, 1), (levels, 1), (tensions, 1), (lashes, 3)):
        yield byte(count)
        yield from (next(forces) for _ in range(count * each))


def findings_due(sheet, ends):
    """The findings that stand in every right answer."""
    for check in may_be_named(sheet, ends):
        if not stands(check):
            raise Undecided(f"a finding of kind {check.kind} is open at {float(check.size)} N")
        yield check.end, check.kind, check.index


def fields(sheet, factor=None):
    """What the answer of a taken sheet holds: (size, least, most) of each of its numbers."""
    ends = exact(sheet, factor)
    found = list(findings_due(sheet, ends))
    yield byte(1 if found else 0)
    for end in ends:
        yield from end_fields(end)
    yield byte(len(found))
    for finding in found:
        yield from map(byte, finding)


def given(read, factor=None):
    """What a call must return that reads its sheet so, and the fields of its answer."""
    try:
        sheet = read()
    except Refused as refused:
        return refused.number, refused.second, []
    listed = list(fields(sheet, factor))
    return 0, sum(size for size, _, _ in listed), listed


def due(case):
    """What the check must return for a case, and the fields of its answer."""
    return given(lambda: parse(case.data, case.room))


def packed(case):
    """The bytes of a case."""
    name, (_, _, listed) = case.name.encode(), due(case)
    if case.room > ROOM_LIMIT:
        raise ValueError(f"{case.name}: an answer buffer of more than {ROOM_LIMIT} bytes")
    head = HEAD.pack(len(name), len(case.data), case.room, len(listed))
    return head + name + case.data + b"".join(FIELD.pack(*field) for field in listed)


def line(case):
    """What the program cases must write of a case."""
    number, second, listed = due(case)
    return f"{case.name} {number} {second}{' inside' if listed else ''} untouched\n"


def put_in(data, move):
    """The copy that the check answers for, or none where the move is turned back before."""
    try:
        previewed(data, move.tier, move.mass, move.room)
    except Refused:
        return b""
    return with_mass(data, move.tier, move.mass)


def move_bytes(name, data, move):
    copy = put_in(data, move)
    if max(len(data), len(copy)) > 250:
        raise ValueError(f"{name}: a sheet of more than 250 bytes")
    return MOVE.pack(move.tier, move.mass, move.room, len(data), len(copy), data, copy)


def answer_length(sheet):
    """Of every right answer to a taken sheet."""
    ends = exact(sheet)
    lists = sum(4 + 4 * (tiers + levels + tensions) + 12 * lashes for tiers, levels, tensions, lashes in map(counts, ends))
    return 2 + lists + 3 * len(list(findings_due(sheet, ends)))


def move_line(name, data, move):
    """What the program cases_preview must write of a move."""
    try:
        number, second = 0, answer_length(previewed(data, move.tier, move.mass, move.room))
    except Refused as refused:
        number, second = refused.number, refused.second
    return f"{move.tier} {move.mass} {move.room} {number} {second} same\n"


def question(table, acceleration, masses):
    """The bytes of a question on twenties; behind its masses stand ones, which would show if they were counted."""
    return QUESTION.pack(table, acceleration, len(masses), *masses, *(1,) * (13 - len(masses)))


def question_line(table, acceleration, masses):
    """What the program cases_twenties must write of a question."""
    said = judge(table, acceleration, masses)
    if isinstance(said, Verdict):
        words = f"{'yes' if said.yes else 'no'} {said.total} {said.permitted}"
    else:
        words = f"refused {said.number} {said.second}"
    return f"{table} {acceleration} {len(masses)} {words}\n"


def forecast_due(asked):
    """The same of a check by a forecast."""
    factor = forecast.factor(asked.wave_height, asked.breadth) if asked.breadth else None
    return given(lambda: forecast.taken(asked.data, asked.breadth, asked.hours, asked.room), factor)


def forecast_question(asked):
    """The bytes of a question by a forecast; behind verdict and count the third field is the racking of tier 1 at the door end."""
    _, _, listed = forecast_due(asked)
    _, least, most = listed[2] if listed else byte(0)
    return FORECAST.pack(*asked.forecast, asked.room, least, most, len(asked.data)) + asked.data


def forecast_line(asked):
    """What the program cases_forecast must write of a question."""
    number, second, listed = forecast_due(asked)
    words = f"taken {second} {listed[0][1]} inside" if listed else f"refused {number} {second}"
    factor = f" factor {forecast.factor(asked.wave_height, asked.breadth)}" if asked.breadth else ""
    return f"{asked.wave_height} {asked.breadth} {asked.hours}{factor} {words}\n"


def two_sheets(room, sheet, second):
    """The bytes of a question with a second sheet: on side walls or on arrangements."""
    return TWO_SHEETS.pack(room, len(sheet), len(second)) + sheet + second


def side_line(asked):
    """What the program cases_side must write of a question."""
    due = side.expected(asked.sheet, asked.pitch, asked.room)
    if due.number:
        return f"refused {due.number} {due.second}\n"
    answer = read_side(due.data)
    figures = (f" {racking} {shift}" for racking, shift in zip(answer.racking, answer.shift))
    return f"taken {due.second} {answer.verdict}{''.join(figures)}\n"


def arrangements_line(asked):
    """What the program cases_arrangements must write of a question."""
    due = arrangements.expected(asked.sheet, asked.gear, asked.room)
    if due.refusal:
        return f"refused {due.refusal[0]} {due.refusal[1]}\n"
    judged = list(arrangements.by_fractions(due, MARGIN))
    if any(right is None for _, right in judged):
        raise Undecided("a choice is open")
    accepted = [choice for choice, right in judged if right]
    return f"taken {LENGTH.size + len(accepted)} {' '.join(map(str, (len(accepted), *accepted)))}\n"


def condition_line(given):
    """What the program cases_roll must write of a condition."""
    said = accelerations(given)
    return f"{'given' if isinstance(said, Accelerations) else 'refused'} {' '.join(map(str, astuple(said)))}\n"


def bay_question(asked):
    """The bytes of a bay, with the bounds of the greatest racking in size."""
    rows = bay.expected(asked.data, asked.room).rows
    sizes = [ceil(abs(force)) for row in rows if row for end in row.ends for force in end.racking]
    least, most = (max(sizes), max(sizes) + MARGIN - 1) if sizes else (0, 0)
    return BAY.pack(asked.room, least, most, len(asked.data)) + asked.data


def bay_line(asked):
    """What the program cases_bay must write of a bay."""
    due = bay.expected(asked.data, asked.room)
    if due.refusal:
        return f"refused {' '.join(map(str, due.refusal))}\n"
    rows = [row and (answer_length(row.sheet), int(any(findings_due(row.sheet, row.ends)))) for row in due.rows]
    length = TOTALS.size + sum(LENGTH.size + (row[0] if row else 0) for row in rows)
    accepted = sum(1 for row in rows if row and row[1] == 0)
    words = " ".join(f"{row[0]}:{row[1]}" if row else "0" for row in rows)
    return f"taken {length} {accepted} {due.mass} inside {words}\n"


def stored():
    """The bytes of each file, by its path from the top."""
    data = b"".join(map(packed, CASES))
    if len(data) > INPUT_LIMIT:
        raise ValueError(f"{len(data)} bytes of cases; the program reads {INPUT_LIMIT}")
    sample = next(case for case in CASES if case.name == LASHCHECK_CASE)
    number, second, _ = due(sample)
    return {
        "crates/cases/stdin": data,
        "crates/cases/stdout": "".join(map(line, CASES)).encode(),
        "crates/cases_preview/stdin": b"".join(move_bytes(*moved) for moved in MOVES),
        "crates/cases_preview/stdout": "".join(move_line(*moved) for moved in MOVES).encode(),
        "crates/cases_twenties/stdin": b"".join(question(*asked) for asked in FIGURES),
        "crates/cases_twenties/stdout": "".join(question_line(*asked) for asked in FIGURES).encode(),
        "crates/cases_forecast/stdin": b"".join(map(forecast_question, forecast_asked.FIGURES)),
        "crates/cases_forecast/stdout": "".join(map(forecast_line, forecast_asked.FIGURES)).encode(),
        "crates/cases_side/stdin": b"".join(two_sheets(asked.room, asked.sheet, asked.pitch) for asked in SIDES),
        "crates/cases_side/stdout": "".join(map(side_line, SIDES)).encode(),
        "crates/cases_roll/stdin": b"".join(CONDITION.pack(*astuple(given)) for given in CONDITIONS),
        "crates/cases_roll/stdout": "".join(map(condition_line, CONDITIONS)).encode(),
        "crates/cases_bay/stdin": b"".join(bay_question(asked) for _, asked in bay_asked.FIGURES),
        "crates/cases_bay/stdout": "".join(bay_line(asked) for _, asked in bay_asked.FIGURES).encode(),
        "crates/cases_arrangements/stdin": b"".join(
            two_sheets(asked.room, asked.sheet, asked.gear) for _, asked in arrangements_asked.FIGURES
        ),
        "crates/cases_arrangements/stdout": "".join(arrangements_line(asked) for _, asked in arrangements_asked.FIGURES).encode(),
        "crates/cases_springs/stdin": b"".join(map(chains.question, chains.CHAINS)),
        "crates/cases_springs/stdout": "".join(map(chains.line, chains.CHAINS)).encode(),
        "crates/lashcheck/stdin": sample.data,
        "crates/lashcheck/stdout": b"%d %d\n" % (number, second),
    }


def main():
    for path, data in stored().items():
        (ROOT / path).write_bytes(data)


if __name__ == "__main__":
    finish(main)
