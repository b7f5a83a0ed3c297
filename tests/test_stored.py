"""The stored inputs and outputs of the programs are what the fractions give, and show each slip."""

import unittest
from pathlib import Path

from reference.cases import CASES, Case, box, rod, stack
from reference.stored import FIELD, HEAD, Undecided, due, packed, stored
from sheets.sheet import ANSWER_ROOM
from tests.test_compare import SHOWING, SHOWN, StandIn, slipped

ROOT = Path(__file__).resolve().parent.parent
TAKEN = [case for case in CASES if case.room == ANSWER_ROOM and due(case)[2]]


def holds(fields, answer):
    """Whether an answer is numbers within the bounds of these fields and nothing more."""
    place = 0
    for size, least, most in fields:
        number = answer[place : place + size]
        if len(number) < size or not least <= int.from_bytes(number, "little") <= most:
            return False
        place += size
    return place == len(answer)


class Stored(unittest.TestCase):
    def test_files(self):
        for path, data in stored().items():
            with self.subTest(path):
                message = "reference/stored.py writes another file"
                self.assertTrue((ROOT / path).read_bytes() == data, message)

    def test_a_case_read_back(self):
        case = next(case for case in CASES if case.name == "slip-windward")
        data = packed(case)
        name, sheet, room, count = HEAD.unpack_from(data)
        place = HEAD.size + name + sheet
        self.assertEqual(data[HEAD.size : HEAD.size + name], b"slip-windward")
        self.assertEqual((data[HEAD.size + name : place], room), (case.data, case.room))
        self.assertEqual(list(FIELD.iter_unpack(data[place:])), due(case)[2])
        self.assertEqual(len(due(case)[2]), count)

    def test_a_racking_to_windward(self):
        # Figure (e): the rod takes 7,200 × 29,184.75/18,130 = 11,590.19 N; Q is 26,977.5 and 2,207.25.
        fields = due(next(case for case in CASES if case.name == "figure-e"))[2]
        rackings = [(4, 15_388, 15_487), (4, 2**32 - 9_482, 2**32 - 9_383)]
        self.assertEqual(fields[:4], [(1, 0, 0), (1, 2, 2), *rackings])

    def test_right_answers(self):
        for case in TAKEN:
            with self.subTest(case.name):
                self.assertTrue(holds(due(case)[2], StandIn()(case.data)))

    def test_slips(self):
        for case in SHOWING:
            for slip in SHOWN[case.name]:
                with self.subTest(case.name, slip=slip):
                    self.assertFalse(holds(due(case)[2], slipped(slip)(case.data)))

    def test_a_spare_or_missing_byte(self):
        for case in TAKEN:
            answer = StandIn()(case.data)
            self.assertFalse(holds(due(case)[2], answer + b"\0"))
            self.assertFalse(holds(due(case)[2], answer[:-1]))

    def test_undecided(self):
        for name, data in (
            ("no racking to speak of", stack([box(a_t=1)])),
            ("a tension just below the safe working load", self.near_its_load()),
        ):
            with self.subTest(name), self.assertRaises(Undecided):
                due(Case(name, "", data))

    def near_its_load(self):
        """A lash with a safe working load 51 N above its tension: 19,766 kg of B's 24,233.3 N for 20,000 kg."""
        return stack([box(mass=19_766)], [rod(material=0, breaking=48_000)])


if __name__ == "__main__":
    unittest.main()
