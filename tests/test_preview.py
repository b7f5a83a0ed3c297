"""Preview of a move: the second program's figures and order of refusals, and that its comparison catches each slip."""

import hashlib
import unittest

from lashlib.calls import Reply
from reference.making import make
from reference.preview import expected, previewed, tier_place, with_mass
from reference.preview_asked import FIGURES, GREATEST, KINDS, STACK, TIERS, Move, moves
from reference.preview_held import held, own_refusal, refusal
from sheets.sheet import ANSWER_ROOM, Refused, pack, parse
from tests.support import fails_by

STACK_BYTES = pack(STACK)
SEEDS = range(1, 41)


def refused(data, tier, mass, room=ANSWER_ROOM):
    """The two numbers of a preview's refusal, or none."""
    return expected(data, tier, mass, room).refusal


class Figures(unittest.TestCase):
    def test_the_copy(self):
        copy = with_mass(STACK_BYTES, 2, 0x1234)
        self.assertEqual([i for i, (a, b) in enumerate(zip(STACK_BYTES, copy, strict=True)) if a != b], [25, 26])
        self.assertEqual(copy[25:27], b"\x34\x12")
        self.assertEqual([tier.mass for tier in parse(copy).tiers], [20_000, 0x1234, 20_000])

    def test_forces_are_those_of_the_copy(self):
        """Racking of the top box B is 22,072.5 N, as in (a) of document 01's table; half of it at half the mass."""
        for mass, due in ((20_000, 22_072.5), (10_000, 11_036.25)):
            self.assertEqual(expected(STACK_BYTES, 3, mass).ends[0].racking[2], due)

    def test_order_of_refusals(self):
        spare, faulty = STACK_BYTES + b"\0", with_mass(STACK_BYTES, 2, 0)
        for due, given in (
            ((2, 87), (spare, 0, 0, 0)), ((2, 87), (spare, 2, 20_000)),
            ((7, 21), (faulty, 2, 20_000)), ((7, 21), (faulty, 4, 20_000)), ((7, 21), (faulty, 1, 0)),
            ((17, 0), (STACK_BYTES, 0, 0, 0)), ((17, 4), (STACK_BYTES, 4, 30_481, 833)), ((17, GREATEST), (STACK_BYTES, GREATEST, 1)),
            ((7, 9), (STACK_BYTES, 1, 0, 0)), ((7, 33), (STACK_BYTES, 3, 30_481, 833)), ((7, 33), (STACK_BYTES, 3, 65_535)),
            ((13, 834), (STACK_BYTES, 3, 30_480, 833)), (None, (STACK_BYTES, 3, 30_480, 834)), (None, (STACK_BYTES, 1, 1)),
        ):
            with self.subTest(due=due, given=given[1:]):
                self.assertEqual(refused(*given), due)

    def test_a_preview_of_the_mass_that_is_there(self):
        self.assertEqual(previewed(STACK_BYTES, 2, 20_000), parse(STACK_BYTES))

    def test_names_of_figures(self):
        self.assertEqual(len({name for name, _, _ in FIGURES}), len(FIGURES))


# A check of its own: the answer is a sum over the sheet's bytes, so that any other sheet shows.


def reply_of(number, second, room, written=b""):
    return Reply(number + 256 * second, written + bytes(room - len(written)))


def check(data, room=ANSWER_ROOM):
    try:
        parse(data, room)
    except Refused as found:
        return reply_of(found.number, found.second, room)
    answer = hashlib.sha256(data).digest()
    return reply_of(0, len(answer), room, answer)


def steps(data, tier, mass, room, own=own_refusal, lacks=lambda tier, tiers: not 1 <= tier <= tiers, told=lambda tier: (17, tier),
          copy=with_mass):
    """A preview by steps, each of which may be another."""
    fault = own(data)
    if fault:
        return reply_of(*fault, room)
    if lacks(tier, data[8]):
        return reply_of(*told(tier), room)
    return check(copy(data, tier, mass), room)


def step(**other):
    return lambda data, tier, mass, room: steps(data, tier, mass, room, **other)


def mass_first(data, tier, mass, room):
    """The new mass tested before 17."""
    bad = own_refusal(data) is None and not 1 <= mass <= 30_480
    return reply_of(7, tier_place(max(tier, 1)), room) if bad else steps(data, tier, mass, room)


def room_first(data, tier, mass, room):
    """13 before 17."""
    short = own_refusal(data) is None and room < ANSWER_ROOM
    return reply_of(13, ANSWER_ROOM, room) if short else steps(data, tier, mass, room)


def mended(data, tier, mass, room):
    """A fault in the sheet mended by the mass: tests on the copy alone."""
    if len(data) > 8 and 1 <= tier <= data[8] <= 10:
        return check(with_mass(data, tier, mass), room)
    return steps(data, tier, mass, room)


def written_when_refused(data, tier, mass, room):
    reply = steps(data, tier, mass, room)
    return Reply(reply.result, b"\1" * room) if reply.number else reply


def lenient(data, tier, mass):
    return with_mass(data, tier, 30_480 if mass == 30_481 else mass)


def place_of_the_field(data, tier, mass, room):
    """7 at the mass's own place."""
    reply = steps(data, tier, mass, room)
    told = reply.number == 7 and own_refusal(data) is None
    return reply_of(7, reply.second + 4, room) if told else reply


SLIPS = {
    "the new mass tested before 17": mass_first,
    "13 tested before 17": room_first,
    "a fault in the sheet mended by the mass": mended,
    "tiers counted from 0": step(lacks=lambda tier, tiers: tier >= tiers, copy=lambda data, tier, mass: with_mass(data, tier + 1, mass)),
    "the mass put into the tier below": step(copy=lambda data, tier, mass: with_mass(data, max(tier - 1, 1), mass)),
    "the answer made from the old mass": step(copy=lambda data, tier, mass: data),
    "the mass's bytes swapped": step(copy=lambda data, tier, mass: with_mass(data, tier, mass >> 8 | mass << 8 & 0xFF00)),
    "17 without the tier": step(told=lambda tier: (17, 0)),
    "17 with the tier's low byte": step(told=lambda tier: (17, tier % 256)),
    "17 for the top tier too": step(lacks=lambda tier, tiers: not 1 <= tier < tiers),
    "tier 0 taken for tier 1": step(
        lacks=lambda tier, tiers: tier > tiers, copy=lambda data, tier, mass: with_mass(data, max(tier, 1), mass)
    ),
    "a tier above the top taken for the top": step(
        lacks=lambda tier, tiers: not 1 <= tier <= tiers + 1,
        copy=lambda data, tier, mass: with_mass(data, min(tier, data[8]), mass),
    ),
    "tier numbers cut to 8 bits": lambda data, tier, mass, room: steps(data, tier % 256, mass, room),
    "30,481 kg taken": step(copy=lenient),
    "mass 0 taken": step(copy=lambda data, tier, mass: with_mass(data, tier, max(mass, 1))),
    "7 at the field's own place": place_of_the_field,
    "the buffer written where it is refused": written_when_refused,
}


def faults(preview):
    return [
        fault for seed in SEEDS for _, _, fault in held(make(seed, KINDS).data, list(moves(seed)), preview, check) if fault
    ]


class Comparison(unittest.TestCase):
    def test_a_right_preview_has_no_faults(self):
        self.assertEqual(faults(steps), [])

    def test_each_slip_is_caught(self):
        for name, slip in SLIPS.items():
            with self.subTest(name):
                self.assertTrue(faults(slip))

    def test_refusals_without_a_copy_are_those_of_the_papers(self):
        for seed in SEEDS:
            data = make(seed, KINDS).data
            own = own_refusal(data)
            for move in list(moves(seed))[seed % 7 :: 7]:
                self.assertEqual(refusal(own, None if own else data[8], move), refused(data, move.tier, move.mass, move.room))

    def test_every_tier_number_is_asked_with_every_mass(self):
        asked = {(move.tier, move.mass) for move in moves(1)}
        self.assertEqual(TIERS, (0, 1, 2, 3, 4, 5, 6, 7, 8, 9, 10, 11, 255, 4_294_967_295))
        self.assertTrue({(tier, mass) for tier in TIERS for mass in (0, 1, 30_480, 30_481, 65_535)} <= asked)

    def test_some_sheets_have_no_fault_but_a_mass_that_the_preview_would_mend(self):
        mendable = [
            data for data in (make(seed, KINDS).data for seed in SEEDS)
            if own_refusal(data) and own_refusal(data)[0] == 7
            and own_refusal(with_mass(data, (own_refusal(data)[1] - 9) // 12 + 1, 1_000)) is None
        ]
        self.assertGreaterEqual(len(mendable), 4)

    def test_the_script_fails_on_another_library(self):
        """One that answers every sheet and every preview alike."""
        fails_by(self, "compare_preview", "FAULT: seed 1, extreme", b"\0\0", count=20)


class Moves(unittest.TestCase):
    def test_in_words(self):
        self.assertEqual(str(Move(3, 20_000)), "tier 3, mass 20000, buffer of 834 bytes")


if __name__ == "__main__":
    unittest.main()
