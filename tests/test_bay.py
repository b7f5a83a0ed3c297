"""The whole bay: the second program's wind and refusals by hand, and that the comparison catches each slip."""

import random
import struct
import unittest
from functools import cache

from lashlib.calls import BayReply, Reply
from reference.bay import exposed, expected, in_the_wind, sheets_of, with_winds
from reference.bay_asked import CLOSEST, EMPTY, FAULTY, FIGURES, LOW, PULLED_BACK, TALL, above_third, asked, column, drawn, edges, even
from reference.bay_held import by_the_check, judge_bay
from reference.stored import BAY, bay_line, bay_question
from sheets.answer import read_answer
from sheets.bay import REPORT_ROOM, BadReport, pack_bay, read_report
from sheets.sheet import parse
from tests.support import B_ANSWER, fails_by
from tests.test_compare import StandIn

CHECK = StandIn()


def in_wind(*rows):
    """For each row the numbers of its tiers that the wind reaches; rows are bytes."""
    sheets = [row and parse(row) or None for row in rows]
    return [
        [number for number in range(1, len(sheet.tiers) + 1) if exposed(sheets, index, number)] if sheet else None
        for index, sheet in enumerate(sheets)
    ]


class Wind(unittest.TestCase):
    def test_by_hand(self):
        three, two, twenties = even(40, 3), even(40, 2), even(20, 4)
        for rows, due in (
            ([three], [[1, 2, 3]]),
            ([three] * 3, [[1, 2, 3], [], [1, 2, 3]]),
            ([TALL, three, two, TALL], [[*range(1, 11)], [3], [], [*range(1, 11)]]),
            ([TALL, three, EMPTY, EMPTY, TALL], [[*range(1, 11)], [], None, None, [*range(1, 11)]]),
            ([TALL, three, EMPTY, EMPTY, EMPTY, TALL], [[*range(1, 11)], [1, 2, 3], None, None, None, [*range(1, 11)]]),
            ([TALL, three, EMPTY, EMPTY, LOW, TALL], [[*range(1, 11)], [2, 3], None, None, [], [*range(1, 11)]]),
            ([TALL, three, twenties, TALL], [[*range(1, 11)], [1, 2, 3], [4], [*range(1, 11)]]),
            ([EMPTY, two, EMPTY], [None, [1, 2], None]),
            ([EMPTY, EMPTY], [None, None]),
        ):
            with self.subTest(rows=len(rows)):
                self.assertEqual(in_wind(*rows), due)

    def test_a_third_by_hand(self):
        # beside three boxes of 2,591 three of which the upper is 2,896: 305 mm show of 2,896. With all three: 915 mm, a third is
        # 965.3; of a top box of 2,591 on three high ones 915 mm show beside four, a third is 863.7.
        for own, beside, due in (
            ((2_591, 2_591, 2_896), (2_591,) * 3, []),
            ((2_896, 2_896, 2_896), (2_591,) * 3, []),
            ((2_896, 2_896, 2_896, 2_591), (2_591,) * 4, [4]),
            ((2_896, 2_896, 2_896, 2_896), (2_591,) * 4, [4]),
        ):
            with self.subTest(own=own):
                self.assertEqual(in_wind(TALL, column(40, own), column(40, beside), TALL)[1], due)

    def test_a_box_of_twenty_feet_beside_forty_goes_by_height(self):
        self.assertEqual(in_wind(TALL, even(20, 3), even(40, 2), TALL)[1], [3])
        self.assertEqual(in_wind(TALL, even(20, 3), even(20, 2), TALL)[1], [3])

    def test_the_closest_columns_lie_on_either_side_of_a_third(self):
        found = {(size, beside, own[-1], above_third(own, heights) > 0) for size, own, beside, heights in CLOSEST}
        self.assertEqual(len(found), len(CLOSEST))
        self.assertEqual(len(found), 12)
        self.assertTrue(all(0 < abs(above_third(own, heights)) < 320 for _, own, _, heights in CLOSEST))

    def test_bit_0_alone_is_replaced(self):
        rows = [even(40, 2, wind=wind) for wind in range(4)]
        sheets = in_the_wind(sheets_of(pack_bay(rows)))
        self.assertEqual([[tier.wind for tier in sheet.tiers] for sheet in sheets], [[1, 1], [0, 0], [2, 2], [3, 3]])
        copies = [parse(with_winds(row, sheet)) for row, sheet in zip(rows, sheets)]
        self.assertEqual(copies, sheets)

    def test_a_racking_to_windward_is_the_greatest(self):
        due = expected(pack_bay([PULLED_BACK])).rows[0]
        rackings = [force for end in due.ends for force in end.racking]
        self.assertGreater(-min(rackings), max(rackings) + 1_000)


class Refusals(unittest.TestCase):
    def test_order(self):
        good, faulty = LOW, even(40, 1, route=13)
        for data, room, due in (
            (b"", REPORT_ROOM, (16, 0, 0)), (b"\0", REPORT_ROOM, (16, 0, 0)), (pack_bay([EMPTY] * 25), REPORT_ROOM, (16, 0, 0)),
            (pack_bay([good])[:-1], REPORT_ROOM, (16, 0, 0)), (pack_bay([good]) + b"\0", REPORT_ROOM, (16, 0, 0)),
            (pack_bay([faulty]) + b"\0", 0, (16, 0, 0)), (pack_bay([good, faulty]), 0, (4, 1, 2)),
            (pack_bay([good, good + b"\0", faulty]), REPORT_ROOM, (2, 23, 2)), (pack_bay([b"\0"]), REPORT_ROOM, (1, 1, 1)),
            (pack_bay([good]), 20_072, (13, 20_073, 0)), (pack_bay([good]), 20_073, None), (pack_bay([EMPTY] * 24), 20_073, None),
        ):
            with self.subTest(data=data[:40], room=room):
                self.assertEqual(expected(data, room).refusal, due)

    def test_faulty_rows_have_every_number(self):
        numbers = {expected(pack_bay([row])).refusal[0] for row in FAULTY}
        self.assertEqual(numbers, set(range(1, 13)))


# A stand-in over the check in floating point, on bytes, with a method or a value for each thing that a slip changes


class Bay:
    most_rows = 24
    room = told_room = 20_073
    far = 3
    thirds = 1
    beyond = True  # whether a side without a loaded row is open
    short_row = 20  # of feet: beside such a row
    long_box = 40  # such a box is exposed
    order = ("lengths", "rows", "room")
    early = False  # a report is begun before all rows are tested
    spare = False  # bytes behind the last row are taken
    kept_bits = 2  # of a tier's wind byte
    either = staticmethod(any)
    sides = (-1, 1)
    racking_size = staticmethod(abs)
    ends = (0, 1)

    def __init__(self, **changed):
        vars(self).update(changed)

    # Refusals

    def framed(self, data):
        """The rows as far as they are there, and whether they are all and end with the bytes."""
        rows, place = [], 1
        for _ in range(data[0] if data else 0):
            length = int.from_bytes(data[place : place + 2], "little")
            if len(data) < place + 2 + length:
                return rows, False
            rows.append(data[place + 2 : place + 2 + length])
            place += 2 + length
        return rows, 1 <= len(rows) <= self.most_rows and (self.spare or place == len(data))

    def first(self, faults):
        return faults[0]

    def told(self, number, second, row, rows):
        return number, second, row

    def refusal(self, rows, whole, room):
        faults = {"lengths": None if whole else (16, 0, 0)}
        found = [(row, CHECK.refusal(each)) for row, each in enumerate(rows, 1) if each]
        found = [self.told(*fault, row, rows) for row, fault in found if fault]
        faults["rows"] = self.first(found) if found else None
        faults["room"] = (13, self.told_room, 0) if room < self.room else None
        return next((faults[name] for name in self.order if faults[name]), None)

    # Wind

    def nearest(self, rows, index, side):
        places = range(index + side, -1 if side < 0 else len(rows), side)
        return next((place for place in places if rows[place]), None)

    def heights(self, row):
        return [int.from_bytes(row[11 + 12 * tier : 13 + 12 * tier], "little") for tier in range(row[8])]

    def shows(self, top, own, beside):
        """Whether enough of a box shows beside a row: heights of the boxes up to it, and of the row's."""
        return 3 * (sum(own) - sum(beside)) > self.thirds * own[-1]

    def open(self, rows, index, tier, side):
        place = self.nearest(rows, index, side)
        if place is None:
            return self.beyond
        row, beside = rows[index], rows[place]
        if abs(place - index) > self.far:
            return True
        if (row[9], beside[9]) == (self.long_box, self.short_row):
            return True
        return self.shows(sum(self.heights(row)), self.heights(row)[: tier + 1], self.heights(beside))

    def code(self, wind, blown):
        return wind & self.kept_bits | blown

    def blown(self, rows, index):
        """A row's bytes with the wind put in."""
        copy = bytearray(rows[index])
        for tier in range(copy[8]):
            found = self.either(self.open(rows, index, tier, side) for side in self.sides)
            copy[10 + 12 * tier] = self.code(copy[10 + 12 * tier], found)
        return bytes(copy)

    # Report

    def counted(self, answers):
        return [read_answer(answer) for answer in answers if answer]

    def accepted(self, answers):
        return sum(answer.verdict == 0 for answer in self.counted(answers))

    def massed(self, rows, answers):
        return [row for row in rows if row]

    def racked(self, answers):
        return self.counted(answers)

    def mass(self, rows, answers):
        loaded = self.massed(rows, answers)
        return sum(int.from_bytes(row[13 + 12 * tier : 15 + 12 * tier], "little") for row in loaded for tier in range(row[8]))

    def racking(self, answers):
        forces = (force for answer in self.racked(answers) for end in self.ends for force in answer.ends[end].racking)
        return max(map(self.racking_size, forces), default=0)

    def row_part(self, answer):
        return len(answer).to_bytes(2, "little") + answer

    def report(self, rows):
        answers = [CHECK(self.blown(rows, index)) if row else b"" for index, row in enumerate(rows)]
        totals = struct.pack("<BII", self.accepted(answers), self.mass(rows, answers), max(0, self.racking(answers)))
        return totals + b"".join(map(self.row_part, answers))

    def __call__(self, data, room):
        rows, whole = self.framed(data)
        refusal = self.refusal(rows, whole, room)
        if refusal:
            number, second, row = refusal
            begun = b"\1" if self.early and row > 1 and room else b""
            return BayReply(number | second << 8 | row << 32, begun.ljust(room, b"\0"))
        report = self.report(rows)
        return BayReply(len(report) << 8, report.ljust(room, b"\0"))


def second_nearest(self, rows, index, side):
    """The row behind the nearest one, where there is one."""
    first = Bay.nearest(self, rows, index, side)
    return first if first is None else Bay.nearest(self, rows, first, side) or first


def next_row(self, rows, index, side):
    """The row right beside, and open if it is empty."""
    place = index + side
    return place if 0 <= place < len(rows) and rows[place] else None


def changed(**methods):
    """A stand-in with these in place of its own: methods take the stand-in first."""
    return type("Slip", (Bay,), methods)()


def by_verdict(self, rows, answers):
    return [row for row, answer in zip(rows, answers) if row and answer[0] == 0]


def accepted_shelter_only(self, rows, index, side):
    """A row that is not accepted as it stands gives no shelter."""
    place = Bay.nearest(self, rows, index, side)
    while place is not None and CHECK(rows[place])[0]:
        place = Bay.nearest(self, rows, place, side)
    return place


def of_accepted(self, answers):
    return [answer for answer in self.counted(answers) if answer.verdict == 0]


SLIPS = {
    "the second-nearest row taken": {"nearest": second_nearest},
    "the row right beside alone": {"nearest": next_row},
    "empty rows not counted": {"open": lambda s, rows, i, t, side: Bay.open(s, [r for r in rows if r], sum(map(bool, rows[:i])), t, side)},
    "two empty rows counted as open": {"far": 2},
    "three empty rows counted as closed": {"far": 4},
    "rows not accepted give no shelter": {"nearest": accepted_shelter_only},
    "one third of the neighbour's top box": {"shows": lambda s, top, own, beside: 3 * (sum(own) - sum(beside)) > beside[-1]},
    "one third of the lowest box": {"shows": lambda s, top, own, beside: 3 * (sum(own) - sum(beside)) > own[0]},
    "one third of the whole stack": {"shows": lambda s, top, own, beside: 3 * (sum(own) - sum(beside)) > top},
    "any part that shows": {"thirds": 0},
    "two thirds": {"thirds": 2},
    "half of the box": {"thirds": 1.5},
    "the stack's top for the box's": {"shows": lambda s, top, own, beside: 3 * (top - sum(beside)) > own[-1]},
    "the box's bottom for its top": {"shows": lambda s, top, own, beside: 3 * (sum(own[:-1]) - sum(beside)) > own[-1]},
    "heights by tier counts": {"shows": lambda s, top, own, beside: len(own) > len(beside)},
    "the outer side forgotten": {"beyond": False},
    "the port side alone": {"sides": (-1,)},
    "the starboard side alone": {"sides": (1,)},
    "both sides needed": {"either": staticmethod(all)},
    "20 feet beside 40 by its height": {"long_box": 0},
    "a 20-ft box beside 40 exposed": {"long_box": 20, "short_row": 40},
    "a 20-ft box beside 20 exposed too": {"open": lambda s, rows, i, t, side: Bay.open(s, rows, i, t, side)
                                          or rows[s.nearest(rows, i, side)][9] == 20},
    "the wind of the row's bytes": {"code": lambda s, wind, blown: wind},
    "the wind of the row's bytes kept too": {"kept_bits": 3},
    "turned boxes turned back": {"kept_bits": 0},
    "rows from starboard to port": {"blown": lambda s, rows, i: Bay.blown(s, rows[::-1], i) if rows[::-1][i] else rows[i]},
    "a report begun before a later row's refusal": {"early": True},
    "mass of accepted rows only": {"massed": by_verdict},
    "racking of accepted rows only": {"racked": of_accepted},
    "rackings to leeward only": {"racking_size": staticmethod(int)},
    "rackings of the door end only": {"ends": (0,)},
    "rackings of the closed end only": {"ends": (1,)},
    "empty rows accepted": {"accepted": lambda s, answers: Bay.accepted(s, answers) + answers.count(b"")},
    "rows not accepted counted": {"accepted": lambda s, answers: len(s.counted(answers))},
    "mass in two bytes": {"mass": lambda s, rows, answers: Bay.mass(s, rows, answers) % 2**16},
    "no length of an empty row": {"row_part": lambda s, answer: Bay.row_part(s, answer) if answer else b""},
    "lengths with the greater byte first": {"row_part": lambda s, answer: len(answer).to_bytes(2, "big") + answer},
    "the last refused row": {"first": lambda s, faults: faults[-1]},
    "the lowest number of all rows": {"first": lambda s, faults: min(faults)},
    "rows counted from 0": {"told": lambda s, number, second, row, rows: (number, second, row - 1)},
    "no row told": {"told": lambda s, number, second, row, rows: (number, second, 0)},
    "offsets in the bay": {"told": lambda s, number, second, row, rows: (number, second + 1 + sum(2 + len(r) for r in rows[:row]), row)},
    "only loaded rows counted": {"told": lambda s, number, second, row, rows: (number, second, sum(map(bool, rows[:row])))},
    "16 behind the rows": {"order": ("rows", "lengths", "room")},
    "13 before the rows": {"order": ("lengths", "room", "rows")},
    "13 first": {"order": ("room", "lengths", "rows")},
    "20,072 bytes taken": {"room": 20_072},
    "13 with 834": {"told_room": 834},
    "25 rows taken": {"most_rows": 25},
    "23 rows the most": {"most_rows": 23},
    "a spare byte taken": {"spare": True},
}


IN_PROGRAM = (
    "the second-nearest row taken", "empty rows not counted", "two empty rows counted as open", "three empty rows counted as closed",
    "one third of the neighbour's top box", "half of the box", "the outer side forgotten", "the port side alone",
    "the starboard side alone", "both sides needed", "20 feet beside 40 by its height", "a 20-ft box beside 40 exposed",
    "the wind of the row's bytes", "the wind of the row's bytes kept too", "turned boxes turned back", "mass of accepted rows only",
    "racking of accepted rows only", "rackings to leeward only", "rackings of the door end only", "the last refused row",
    "rows counted from 0", "16 behind the rows", "13 before the rows", "20,072 bytes taken", "25 rows taken", "a spare byte taken",
)


def stored_line(bay, each):
    """What the program cases_bay would write with a stand-in."""
    reply = bay(each.data, each.room)
    if reply.number:
        return f"refused {reply.number} {reply.second} {reply.row}\n"
    _, least, most, _ = BAY.unpack_from(bay_question(each))
    report = read_report(reply.answer, each.data[0])
    inside = "inside" if least <= report.racking <= most else "outside"
    rows = " ".join(f"{len(answer)}:{answer[0]}" if answer else "0" for answer in report.answers)
    return f"taken {reply.second} {report.accepted} {report.mass} {inside} {rows}\n"


@cache
def due(each):
    return expected(each.data, each.room)


class Comparison(unittest.TestCase):
    @classmethod
    def setUpClass(cls):
        mixed = [*edges(), *map(drawn, range(60))]
        random.Random(1).shuffle(mixed)  # so that a slip is met soon
        cls.asked = [*(each for _, each in FIGURES), *mixed]

    def faults(self, bay, part=1):
        """The bays that show a stand-in, of every so many."""
        return (each for each in self.asked[::part] if judge_bay(due(each), bay(each.data, each.room)).faults)

    def test_a_right_one_passes(self):
        self.assertEqual(list(self.faults(Bay(), 4)), [])

    def test_each_slip_is_caught(self):
        for name, slip in SLIPS.items():
            with self.subTest(name):
                self.assertIsNotNone(next(self.faults(changed(**slip)), None))

    def test_what_the_program_is_run_on_shows_the_slips_that_keep_its_lines_apart(self):
        """Those in the wind, the totals and the order of refusals, by what cases_bay writes."""
        self.assertEqual([stored_line(Bay(), each) for _, each in FIGURES], [bay_line(each) for _, each in FIGURES])
        for name in IN_PROGRAM:
            with self.subTest(name):
                slip = changed(**SLIPS[name])
                self.assertTrue(any(stored_line(slip, each) != bay_line(each) for _, each in FIGURES))

    def test_bytes_beside_the_report_are_seen(self):
        """One byte behind a report, and a row told with a report."""
        each = asked("any", [LOW, EMPTY])
        right = Bay()(each.data, REPORT_ROOM)
        self.assertEqual(judge_bay(due(each), right).faults, [])
        for wrong in (
            BayReply(right.result, right.buffer[:-1] + b"\1"), BayReply(right.result | 1 << 32, right.buffer),
            BayReply(right.result + 256, right.buffer), BayReply(right.result - 256, right.buffer),
        ):
            self.assertTrue(judge_bay(due(each), wrong).faults)

    def test_another_answer_than_the_checks_is_seen(self):
        """A newton more, within the margin, in the check of the row with its wind; the same with the wind left as it was."""
        data = pack_bay([LOW] * 3)
        more = type("More", (StandIn,), {"pad": 1.5})()
        for check, faulty in ((CHECK, 0), (more, 3), (lambda row: CHECK(LOW), 2)):
            found = by_the_check(expected(data), Bay()(data, REPORT_ROOM), data, lambda row: whole(check(row)))
            self.assertEqual(len(list(found)), faulty)

    def test_the_script_fails_on_another_library(self):
        """One that gives the answer of box B for every bay."""
        fails_by(self, "compare_bay", "FAULT: third: room ", B_ANSWER)


def whole(answer):
    return Reply(len(answer) << 8, answer)


class Reports(unittest.TestCase):
    def test_bytes_that_are_no_report(self):
        report = Bay()(pack_bay([LOW, EMPTY]), REPORT_ROOM).answer
        self.assertEqual(read_report(report, 2).answers[1], b"")
        cut = ((report[:8], 0), (report[:10], 1), (report[:30], 1), (report[:-1], 2))
        for data, rows in (*cut, (report + b"\0", 2), (report, 1), (report, 3)):
            with self.assertRaises(BadReport):
                read_report(data, rows)


if __name__ == "__main__":
    unittest.main()
