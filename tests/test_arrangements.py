"""Every arrangement of the gear aboard: the second program's order, refusals and figures by hand, and that its comparison catches each
slip."""

import hashlib
import unittest
from dataclasses import replace
from fractions import Fraction
from functools import cache
from itertools import combinations
from unittest import mock

from lashlib.calls import Reply
from reference.arrangements import accepted, arranged, by_fractions, choices, expected
from reference.arrangements_asked import BARE, FAULTY, FIGURES, HOPELESS, ROUGH, Asked, drawn, edges
from reference.arrangements_held import fault, faults_by_fractions, with_choice
from reference.cases import BOX_B, ROD_S, box, rod, rods, stack
from reference.judge import MARGIN
from reference.preview_held import own_refusal
from reference.stack import exact
from reference.stored import arrangements_line
from sheets.gear import LIST_ROOM, chosen, pack_gear, pack_list, read_gear, read_list, uses
from sheets.sheet import ANSWER_ROOM, BOTTOM, SIDE, Refused, pack, parse
from tests.support import B_ANSWER, fails_by


def refused(sheet, gear, room=LIST_ROOM):
    return expected(sheet, gear, room).refusal


class Order(unittest.TestCase):
    def test_of_four_lashes(self):
        """As the request's reading has it: pairs run 3, 5, 9, 6, 10, 12."""
        self.assertEqual(choices(4), [0, 1, 2, 4, 8, 3, 5, 9, 6, 10, 12, 7, 11, 13, 14, 15])
        self.assertEqual([choices(count) for count in range(3)], [[0], [0, 1], [0, 1, 2, 3]])

    def test_is_that_of_combinations(self):
        """By size, then by the places of the lashes used, as a dictionary has words."""
        for count in range(9):
            sets = [each for size in range(count + 1) for each in combinations(range(count), size)]
            self.assertEqual(choices(count), [sum(1 << lash for lash in each) for each in sets])

    def test_each_choice_once_and_in_the_words_order(self):
        for count in range(9):
            found = choices(count)
            self.assertEqual(sorted(found), list(range(2**count)))
            for earlier, later in zip(found, found[1:]):
                differ = [lash for lash in range(count) if uses(earlier, lash) != uses(later, lash)]
                fewer = earlier.bit_count() < later.bit_count()
                self.assertTrue(fewer or earlier.bit_count() == later.bit_count() and uses(earlier, differ[0]))

    def test_smaller_gears_are_parts_of_the_whole(self):
        for count in range(9):
            self.assertEqual(choices(count), [choice for choice in choices(8) if choice < 2**count])


class Gear(unittest.TestCase):
    def test_what_a_choice_uses(self):
        lashes = rods(4)
        self.assertEqual(chosen(0b1010, lashes), (lashes[1], lashes[3]))
        sheet = arranged(parse(BARE), lashes, 0b1010)
        self.assertEqual((sheet.door, sheet.closed), ((lashes[1], lashes[3]),) * 2)

    def test_bytes_with_a_choice_are_those_of_the_sheet_with_it(self):
        for count in (0, 1, 5):
            lashes = rods(count)
            for choice in choices(count):
                self.assertEqual(with_choice(BARE, pack_gear(lashes), choice), pack(arranged(parse(BARE), lashes, choice)))

    def test_no_choice_is_refused(self):
        """Lashes of an ordered section that are left out leave the rest in order."""
        gear = pack_gear(rods(8))
        for choice in choices(8):
            parse(with_choice(BARE, gear, choice))

    def test_sections(self):
        self.assertEqual(read_gear(pack_gear(rods(8)), 3), tuple(rods(8)))
        self.assertEqual(pack_gear([ROD_S])[:4], bytes([1, 1, 0, 0]))
        self.assertEqual(len(pack_gear(rods(8))), 161)

    def test_lists(self):
        self.assertEqual(pack_list([0, 5, 255]), bytes.fromhex("0300 00 05 ff"))
        self.assertEqual(pack_list(choices(8))[:3], bytes.fromhex("0001 00"))
        self.assertEqual(len(pack_list(choices(8))), LIST_ROOM)
        self.assertEqual(read_list(pack_list([0, 5, 255])), (0, 5, 255))
        for data in (b"", b"\0", b"\1\0", b"\0\0\0", b"\1\0\0\0", b"\0\1" + bytes(255)):
            with self.assertRaises(ValueError):
                read_list(data)


class Figures(unittest.TestCase):
    def test_order_of_refusals(self):
        lashed, spare = stack([BOX_B] * 3, [rod()]), BARE + b"\0"
        for sheet, gear, room, due in (
            (FAULTY, b"", 0, (3, 0)), (b"", b"\x09", 0, (1, 0)), (spare, b"\x09", 0, (2, len(BARE))), (lashed + b"\0", b"", 0, (2, 67)),
            (stack([BOX_B] * 3, [rod(), rod()]), b"", 0, (12, 66)),
            (lashed, b"", 0, (24, 0)), (stack([BOX_B] * 3, closed=[rod()]), b"\x09", 0, (24, 0)),
            (BARE, b"", 0, (1, 0)), (BARE, b"\x08", 0, (1, 1)), (BARE, b"\x09", 0, (9, 0)), (BARE, b"\xff" + bytes(400), 0, (9, 0)),
            (BARE, pack_gear(rods(2))[:-1], 0, (1, 40)), (BARE, pack_gear(rods(2))[:21], 0, (1, 21)),
            (BARE, pack_gear([rod(), rod(2, ly=499)]), 0, (10, 21)), (BARE, pack_gear([rod(ly=499)], 2), 0, (10, 1)),
            (BARE, pack_gear([rod(), rod(4)]), 0, (11, 21)), (stack([BOX_B] * 4), pack_gear([rod(), rod(4)]), 0, (13, 258)),
            (BARE, pack_gear([rod(1, BOTTOM)]), 0, (11, 1)), (BARE, pack_gear([rod(0, ly=499)]), 0, (10, 1)),
            (BARE, pack_gear([rod(2), rod(), rod(3)])[:-1], 0, (12, 21)), (BARE, pack_gear([rod(2), rod(2)]), 0, (12, 21)),
            (BARE, pack_gear([rod(kind=SIDE), rod()]) + b"\0", 0, (12, 21)),
            (BARE, pack_gear(rods(2)) + b"\0", 0, (2, 41)), (BARE, b"\0\0", 257, (2, 1)),
            (BARE, pack_gear(rods(2)), 257, (13, 258)), (BARE, b"\0", 0, (13, 258)), (BARE, b"\0", 258, None),
        ):
            with self.subTest(gear=gear.hex(), room=room):
                self.assertEqual(refused(sheet, gear, room), due)

    def test_by_hand(self):
        """Five boxes B at 0.6 g: F is 58,860 N each, so tier 1 bears 4.45 F = 261,927 N without lashes, above 150,000."""
        due = expected(stack(ROUGH), pack_gear(rods(4)))
        self.assertEqual(exact(due.sheet)[0].racking[0], Fraction("261927"))
        self.assertEqual([choice for choice, right in by_fractions(due, MARGIN) if right], [12, 11, 13, 14, 15])
        self.assertEqual([choice for choice, right in by_fractions(due, MARGIN) if right is None], [])

    def test_the_lash_counts_at_both_ends(self):
        """Used at one end alone, no choice holds five boxes B at 0.6 g."""
        sheet, lashes = parse(stack(ROUGH)), rods(4)
        for choice in choices(4):
            used = chosen(choice, lashes)
            for end in ("door", "closed"):
                self.assertFalse(accepted(replace(sheet, **{end: used})))

    def test_margin(self):
        """Only a force up to 9 N short of its limit leaves open what the check says."""
        sheet = parse(BARE)
        ends = exact(sheet)
        for racking, right in (("150000.1", False), ("150000", None), ("149991.1", None), ("149991", True), ("-150000.1", False)):
            def racked(sheet, end, borne):
                return replace(ends[end], racking=(ends[end].racking[0], Fraction(racking), 0))

            with self.subTest(racking), mock.patch("reference.arrangements.exact_end", racked):
                self.assertEqual(accepted(sheet), right)

    def test_gear_without_use(self):
        for tiers, right in (([BOX_B] * 3, True), (HOPELESS, False)):
            self.assertEqual(list(by_fractions(expected(stack(tiers), b"\0"))), [(0, right)])

    def test_names_of_figures(self):
        self.assertEqual(len({name for name, _ in FIGURES}), len(FIGURES))


# Slips: a call by steps, each of which may be another. Its check is one of its own, whose verdict is a bit of a sum over the sheet's
# bytes, so that any other sheet shows; of one stack it accepts every choice.


LIGHT = stack([box(mass=1)] * 3)


@cache
def check(data, room=ANSWER_ROOM):
    try:
        parse(data, room)
    except Refused as found:
        return Reply(found.number + 256 * found.second, bytes(room))
    verdict = 0 if data.startswith(LIGHT[:-2]) else hashlib.sha256(data).digest()[0] & 1
    return Reply(256 * 2, bytes([verdict, 0]))


class Call:
    """The call as it is due; a slip has other methods or numbers."""

    tests = ("own", "held", "gear", "room")
    needed, told_room = LIST_ROOM, LIST_ROOM
    most, ends = 8, (0, 1)
    first_bit = 0

    # What is refused: (number, second number), or none

    def own(self, sheet, gear, room):
        return own_refusal(sheet)

    def held(self, sheet, gear, room):
        return (24, 0) if any(self.counts(sheet)) else None

    def counts(self, sheet):
        """The lash counts of the ends that are looked at."""
        stack = parse(sheet)
        return [len(stack.lashes(end)) for end in self.ends]

    def gear(self, sheet, gear, room):
        """By reading: the count, each lash, the end."""
        if not gear:
            return 1, 0
        if gear[0] > self.most:
            return 9, 0
        for place in range(gear[0]):
            found = self.lash(sheet, gear, place)
            if found:
                return found
        return self.spare(gear)

    def spare(self, gear):
        return (2, 1 + 20 * gear[0]) if len(gear) > 1 + 20 * gear[0] else None

    def lash(self, sheet, gear, place):
        at = 1 + 20 * place
        if len(gear) < at + 20:
            return 1, self.short(gear, at)
        try:
            read_gear(bytes([place + 1]) + gear[1 : at + 20], self.tiers(sheet))
        except Refused as found:
            return self.lash_told(sheet, found.number, at)
        return None

    def lash_told(self, sheet, number, at):
        return number, self.offset(sheet, at)

    def tiers(self, sheet):
        return sheet[8]

    def short(self, gear, at):
        return len(gear)

    def offset(self, sheet, at):
        return at

    def room(self, sheet, gear, room):
        return (13, self.told_room) if room < self.needed else None

    # The list

    def order(self, count):
        return choices(count)

    def bytes_of(self, sheet, gear, choice):
        return with_choice(sheet, gear, choice)

    def accepts(self, reply):
        return reply.number == 0 and reply.answer[0] == 0

    def kept(self, found, count):
        return found

    def number(self, choice, count):
        return choice

    def listed(self, found, count):
        return len(found).to_bytes(2, "little") + bytes(found)

    def length(self, data):
        return len(data)

    def behind(self, sheet, gear):
        """What is left behind the list."""
        return b""

    def when_refused(self, room):
        return bytes(room)

    def __call__(self, sheet, gear, room):
        for test in self.tests:
            found = getattr(self, test)(sheet, gear, room)
            if found:
                return Reply(found[0] + 256 * found[1], self.when_refused(room))
        count = gear[0]
        found = [choice for choice in self.order(count) if self.accepts(check(self.bytes_of(sheet, gear, choice)))]
        numbers = [self.number(choice, count) % 256 for choice in self.kept(found, count)]
        data = self.listed(numbers, count)
        return Reply(256 * self.length(data), (data + self.behind(sheet, gear)).ljust(room, b"\0")[: max(room, len(data))])


def changed(**methods):
    return type("Slip", (Call,), methods)()


def by_key(key):
    return lambda self, count: sorted(range(2**count), key=lambda choice: key(choice, count))


def mirrored(choice, count):
    """Lash 0 as the highest bit."""
    return sum(1 << count - 1 - lash for lash in range(count) if uses(choice, lash))


def at_end(end):
    """The choice's lashes at one end only."""
    def made(self, sheet, gear, choice):
        both = with_choice(sheet, gear, choice)
        used = both[len(sheet) - 2 : len(sheet) - 1 + 20 * choice.bit_count()]
        return sheet[:-2] + (used + b"\0" if end == "door" else b"\0" + used)

    return made


def least_sets(self, found, count):
    """Without choices of which a part is listed."""
    return [choice for choice in found if not any(each != choice and each & choice == each for each in found)]


def fewest(self, found, count):
    return [choice for choice in found if choice.bit_count() == found[0].bit_count()]


def cut_first(self, sheet, gear, room):
    """A section too short for its count is refused before its lashes are looked at."""
    if gear and gear[0] <= 8 and len(gear) < 1 + 20 * gear[0]:
        return 1, len(gear)
    return Call.gear(self, sheet, gear, room)


def spare_first(self, sheet, gear, room):
    """Spare bytes are refused before the lashes are looked at."""
    return gear and gear[0] <= 8 and self.spare(gear) or Call.gear(self, sheet, gear, room)


def count_behind(self, sheet, gear, room):
    """A count above 8 is refused only if its lashes are there."""
    if gear and gear[0] > 8 and len(gear) < 1 + 20 * gear[0]:
        return 1, len(gear)
    return Call.gear(self, sheet, gear, room)


def untested(number):
    """A refusal of a lash less."""
    def lash(self, sheet, gear, place):
        found = Call.lash(self, sheet, gear, place)
        return None if found and found[0] == number else found

    return lash


def other_number(due, told):
    return lambda self, sheet, number, at: (told if number == due else number, at)


SLIPS = {
    "numeric order": {"order": by_key(lambda choice, count: choice)},
    "choices of one size in the opposite order": {
        "order": by_key(lambda choice, count: (choice.bit_count(), [uses(choice, lash) for lash in range(count)]))
    },
    "choices of one size in numeric order": {"order": by_key(lambda choice, count: (choice.bit_count(), choice))},
    "more lashes first": {"order": lambda self, count: choices(count)[::-1]},
    "by the first lash used, not by size": {"order": by_key(lambda choice, count: [not uses(choice, lash) for lash in range(count)])},
    "the last lash where they differ decides": {
        "order": by_key(lambda choice, count: (choice.bit_count(), [not uses(choice, lash) for lash in reversed(range(count))]))
    },
    "the empty choice left out": {"order": lambda self, count: choices(count)[1:]},
    "the whole gear left out": {"order": lambda self, count: choices(count)[:-1]},
    "the empty choice alone left out of no gear": {"order": lambda self, count: choices(count) if count else []},
    "choices of at most seven lashes": {"order": lambda self, count: [choice for choice in choices(count) if choice < 255]},
    "the first lash as the highest bit": {"number": lambda self, choice, count: mirrored(choice, count)},
    "bits from 1": {"number": lambda self, choice, count: choice << 1},
    "the lashes left out in place of those used": {"number": lambda self, choice, count: 2**count - 1 - choice},
    "used at the door end only": {"bytes_of": at_end("door")},
    "used at the closed end only": {"bytes_of": at_end("closed")},
    "judged without lashes": {"bytes_of": lambda self, sheet, gear, choice: sheet},
    "judged with the whole gear": {"bytes_of": lambda self, sheet, gear, choice: with_choice(sheet, gear, 2 ** gear[0] - 1)},
    "judged with the mirror image of a choice": {
        "bytes_of": lambda self, sheet, gear, choice: with_choice(sheet, gear, mirrored(choice, gear[0]))
    },
    "listed where the check does not accept": {"accepts": lambda self, reply: reply.number == 0 and reply.answer[0] == 1},
    "listed without a check": {"accepts": lambda self, reply: True},
    "no choice of which a part is accepted": {"kept": least_sets},
    "choices of the fewest lashes only": {"kept": fewest},
    "each choice twice": {"kept": lambda self, found, count: [choice for choice in found for _ in "ab"]},
    "the last choice lost": {"kept": lambda self, found, count: found[:-1]},
    "a count of all choices": {"listed": lambda self, found, count: (2**count).to_bytes(2, "little") + bytes(found)},
    "a count one too great": {"listed": lambda self, found, count: (len(found) + 1).to_bytes(2, "little") + bytes(found)},
    "a count in one byte": {"listed": lambda self, found, count: bytes([len(found) % 256]) + bytes(found)},
    "a count without its upper byte": {"listed": lambda self, found, count: bytes([len(found) % 256, 0]) + bytes(found)},
    "a count with the greater byte first": {"listed": lambda self, found, count: len(found).to_bytes(2, "big") + bytes(found)},
    "a count behind the choices": {"listed": lambda self, found, count: bytes(found) + len(found).to_bytes(2, "little")},
    "a length without the count's bytes": {"length": lambda self, data: len(data) - 2},
    "a length of 258 always": {"length": lambda self, data: 258},
    "the gear left behind the list": {"behind": lambda self, sheet, gear: gear},
    "the gear's offsets taken in the sheet": {"offset": lambda self, sheet, at: at + len(sheet) - 2},
    "the gear's offsets taken behind the sheet": {"offset": lambda self, sheet, at: at + len(sheet)},
    "offsets without the count": {"offset": lambda self, sheet, at: at - 1},
    "1 with the lash's place": {"short": lambda self, gear, at: at},
    "24 behind the gear": {"tests": ("own", "gear", "held", "room")},
    "24 before the sheet's own": {"tests": ("held_first", "own", "held", "gear", "room"),
                                  "held_first": lambda self, sheet, gear, room: (24, 0) if len(sheet) > 60 else None},
    "24 for the door end only": {"ends": (0,)},
    "24 for the closed end only": {"ends": (1,)},
    "24 with the number of lashes": {
        "held": lambda self, sheet, gear, room: (24, sum(self.counts(sheet))) if any(self.counts(sheet)) else None
    },
    "13 before the gear": {"tests": ("own", "held", "room", "gear")},
    "13 before 24": {"tests": ("own", "room", "held", "gear")},
    "13 first": {"tests": ("room", "own", "held", "gear")},
    "257 bytes taken": {"needed": 257},
    "259 bytes needed": {"needed": 259},
    "13 by the choices that there are": {"room": lambda self, sheet, gear, room: (13, 258) if room < 2 + 2 ** gear[0] else None},
    "13 with 834": {"told_room": 834},
    "the gear before the sheet": {"tests": ("gear_first", "own", "held", "gear", "room"),
                                  "gear_first": lambda self, sheet, gear, room: (1, 0) if not gear else None},
    "9 behind 1": {"gear": count_behind},
    "9 from 8 on": {"most": 7},
    "1 before the lashes": {"gear": cut_first},
    "2 before the lashes": {"gear": spare_first},
    "11 by ten tiers": {"tiers": lambda self, sheet: 10},
    "11 from the top tier on": {"tiers": lambda self, sheet: sheet[8] - 1},
    "12 told as 11": {"lash_told": other_number(12, 11)},
    "the buffer written where it is refused": {"when_refused": lambda self, room: b"\1" * room},
}
# A refusal less: what such a call would go on to list is not looked at.
LESS = {
    "spare bytes taken": {"spare": lambda self, gear: None},
    "10 not tested": {"lash": untested(10)},
    "11 not tested": {"lash": untested(11)},
    "12 not tested": {"lash": untested(12)},
    "24 not tested": {"held": lambda self, sheet, gear, room: None},
}


@cache
def due(asked):
    return expected(asked.sheet, asked.gear, asked.room)


class Comparison(unittest.TestCase):
    @classmethod
    def setUpClass(cls):
        drawn_ = [each for each in map(drawn, range(120)) if len(each.gear) < 150]  # gears of 8 are among the figures
        light = Asked("any", LIGHT, pack_gear(rods(8)))
        cls.asked = [light, *(each for _, each in FIGURES), *list(edges())[len(FIGURES) :: 3], *drawn_]

    def faults(self, call):
        """What shows a stand-in."""
        return (each for each in self.asked if fault(due(each), each, call(each.sheet, each.gear, each.room), check))

    def test_a_right_one_passes(self):
        self.assertEqual(list(self.faults(Call())), [])

    def test_each_slip_is_caught(self):
        for name, slip in SLIPS.items():
            with self.subTest(name):
                self.assertIsNotNone(next(self.faults(changed(**slip)), None))

    def test_each_refusal_is_asked_for_alone(self):
        for name, slip in LESS.items():
            with self.subTest(name):
                call = changed(**slip)
                found = [each for each in self.asked if due(each).refusal and not any(
                    getattr(call, test)(each.sheet, each.gear, each.room) for test in call.tests)]
                self.assertTrue(found)

    def test_the_fractions_catch_a_list_of_another_check(self):
        """A list in its order and by a check's verdict, but of a check that is wrong of one choice."""
        sheet, gear = stack(ROUGH), pack_gear(rods(4))
        for listed, faulty in (((12, 11, 13, 14, 15), 0), ((12, 11, 13, 14), 1), ((8, 12, 11, 13, 14, 15), 1), ((), 5)):
            data = pack_list(listed)
            found = faults_by_fractions(expected(sheet, gear), Reply(256 * len(data), data), choices(4))
            self.assertEqual(sum(words is not None for _, _, words in found), faulty)

    def test_what_the_program_is_run_on(self):
        """Choices that hang on the last 100 N are among no figure; the lines are those of the fractions."""
        lines = {name: arrangements_line(each) for name, each in FIGURES}
        self.assertEqual(lines["order-of-4"], "taken 18 16 0 1 2 4 8 3 5 9 6 10 12 7 11 13 14 15\n")
        self.assertEqual(lines["none-accepted"], "taken 2 0\n")
        self.assertEqual(lines["no-gear"], "taken 3 1 0\n")
        self.assertEqual(lines["rough"], "taken 7 5 12 11 13 14 15\n")
        self.assertEqual(lines["short-list"], "refused 13 258\n")
        self.assertEqual(len({lines[name] for name in ("some-accepted", "fleet-standard", "turned-in-turn", "route-7", "weak-lock")}), 5)

    def test_the_script_fails_on_another_library(self):
        """One that lists the empty choice alone for all."""
        fails_by(self, "compare_arrangements", "FAULT: figure: ", B_ANSWER, arrangements=pack_list([0]))


class Words(unittest.TestCase):
    def test_what_is_asked_in_words(self):
        self.assertEqual(str(Asked("figure", b"\1", b"\2", 3)), "figure: room 3, sheet 01, gear 02")


if __name__ == "__main__":
    unittest.main()
