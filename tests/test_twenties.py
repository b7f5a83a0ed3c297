"""Twenties in forty-foot guides: the tables of crates and second program beside the printed ones, its figures, and that its comparison
catches each slip."""

import re
import unittest
from dataclasses import replace
from fractions import Fraction
from unittest import mock

from reference import twenties
from reference.twenties import PRINTED, TABLES, USED, Refused, Verdict, judge, packed, permitted, printed, used
from reference.twenties_asked import questions
from reference.twenties_reached import Reached
from tests.support import ROOT, fails_by

DEFINED = (ROOT / "crates" / "twenties" / "specs" / "Tables.antt").read_text(encoding="utf-8")
CODED = (ROOT / "crates" / "twenties" / "src" / "tables.rt").read_text(encoding="utf-8")


def numbers(rows):
    return [list(map(int, re.findall(r"\d+", row))) for row in rows]


def defined(text=DEFINED):
    """The two tables of specs/, in tenths of a tonne."""
    tables = re.findall(r"^table5[23] =\n((?:    \([\d ∷]*\[\]\) ∷\n)+)    \[\]$", text, re.M)
    return [numbers(table.splitlines()) for table in tables]


def coded(text=CODED):
    """The two tables of the code."""
    tables = re.findall(r"^pub const TABLE_5_[23]: \[\[u16; 9\]; 31\] = \[\n((?:    \[[\d, ]*\],\n)+)\];$", text, re.M)
    return [numbers(table.splitlines()) for table in tables]


def tenths(table):
    return [[int(10 * entry) for entry in row.values()] for row in table.values()]


def differences(first, second):
    """(table, row, column, entry, entry) where two pairs of tables differ."""
    return [
        (table, row, column, a, b)
        for table, rows in enumerate(zip(first, second, strict=True))
        for row, entries in enumerate(zip(*rows, strict=True))
        for column, (a, b) in enumerate(zip(*entries, strict=True))
        if a != b
    ]


def rises(table):
    """Places whose entry is above the one before it in its row or column."""
    rows = tenths(table)
    return [
        (i, j) for i, row in enumerate(rows) for j, entry in enumerate(row)
        if (i and entry > rows[i - 1][j]) or (j and entry > row[j - 1])
    ]


class Tables(unittest.TestCase):
    def test_shape(self):
        for number in range(len(TABLES)):
            table = printed(number)
            self.assertEqual(list(table), [Fraction(hundredth, 100) for hundredth in range(35, 66)])
            self.assertEqual({tuple(row) for row in table.values()}, {tuple(range(3, 12))})
            self.assertTrue(all(10 * entry % 1 == 0 for row in table.values() for entry in row.values()))

    def test_sums(self):
        # in tenths of a tonne, added up apart from these files
        sums = [sum(map(sum, tenths(table))) for table in (printed(0), used(0), printed(1), used(1))]
        self.assertEqual(sums, [44_597, 44_582, 49_708, 49_708])

    def test_specs_are_the_printed_tables_but_for_one_entry(self):
        found = differences([tenths(printed(0)), tenths(printed(1))], defined())
        self.assertEqual(found, [(0, 5, 4, 10 * PRINTED, 10 * USED)])

    def test_second_program_has_the_tables_of_specs(self):
        self.assertEqual(differences([tenths(used(0)), tenths(used(1))], defined()), [])

    def test_code_has_the_tables_of_specs(self):
        self.assertEqual(differences(coded(), defined()), [])

    def test_a_changed_entry_shows(self):
        self.assertEqual(differences(defined(DEFINED.replace("403 ∷", "404 ∷", 1)), coded()), [(0, 0, 0, 404, 403)])
        self.assertEqual(differences(defined(), coded(CODED.replace("84]", "85]"))), [(1, 30, 8, 84, 85)])
        with self.assertRaises(ValueError):
            differences(defined(), defined(re.sub(r"\n    \(249.*", "", DEFINED)))

    def test_none_rises_but_the_misprint(self):
        self.assertEqual([rises(table) for table in (printed(0), used(0), printed(1))], [[(5, 4)], [], []])

    def test_the_misprint_must_be_there(self):
        table = printed(0)
        table[Fraction("0.41")][7] = Fraction("15.0")
        with mock.patch.object(twenties, "printed", lambda number: table), self.assertRaises(ValueError):
            used.__wrapped__(0)


class Figures(unittest.TestCase):
    """By hand from the printed pages: entry in tonnes × tiers but the lowest."""

    def test_rows(self):
        for table, acceleration, tiers, due in (
            (0, 412, 4, 74_700),  # row 0.42: 24.9 × 3
            (1, 412, 4, 86_400),  # 28.8 × 3
            (0, 350, 3, 80_600),  # 40.3 × 2
            (0, 351, 3, 79_200),  # row 0.36: 39.6 × 2
            (0, 390, 7, 92_400),  # 15.4 × 6
            (0, 391, 7, 89_400),  # row 0.40, 14.9 for the printed 16.4: × 6
            (0, 400, 7, 89_400),
            (0, 401, 7, 89_400),  # row 0.41: 14.9 × 6
            (0, 411, 7, 88_200),  # row 0.42: 14.7 × 6
            (1, 400, 7, 104_400),  # 17.4 × 6
            (0, 650, 11, 86_000),  # 8.6 × 10
            (1, 641, 11, 84_000),  # row 0.65: 8.4 × 10
        ):
            with self.subTest(table=table, acceleration=acceleration, tiers=tiers):
                self.assertEqual(permitted(table, acceleration, tiers), due)

    def test_verdicts(self):
        masses = (30_480, 24_900, 24_900, 24_900)
        self.assertEqual(judge(0, 412, masses), Verdict(True, 74_700, 74_700))
        self.assertEqual(judge(0, 412, (1, *masses[1:3], 24_901)), Verdict(False, 74_701, 74_700))

    def test_refusals(self):
        for number, table, acceleration, masses in (
            (22, 2, 350, (1, 1, 1)), (22, 0, 349, (1, 1, 1)), (22, 0, 651, (1, 1, 1)),
            (22, 1, 350, (1, 1)), (22, 1, 350, (1,) * 12), (22, 1, 350, ()), (22, 1, 349, (0, 1, 1)), (22, 0, 350, (0, 0)),
            (23, 0, 350, (0, 1, 1)), (23, 1, 650, (1, 1, 30_481)), (23, 1, 650, (30_481, 1, 1)),
        ):
            with self.subTest(table=table, acceleration=acceleration, masses=masses):
                self.assertEqual(judge(table, acceleration, masses), Refused(number, 0))

    def test_packed(self):
        self.assertEqual(packed(Refused(23)), 23)
        self.assertEqual(packed(Verdict(False, 1, 2)), 0x0000020000010000)
        self.assertEqual(packed(Verdict(True, 0xABCDEF, 0x123456)), 0x123456ABCDEF0100)


def lower_row(table, acceleration, masses):
    """The row of lower acceleration."""
    return judge(table, acceleration // 10 * 10 if acceleration <= 650 else acceleration, masses)


def changed(**values):
    """A slip in a verdict, given how each of its fields comes of the question and the right one."""

    def slip(table, acceleration, masses):
        due = judge(table, acceleration, masses)
        if isinstance(due, Refused):
            return due
        new = replace(due, **{name: how(due, masses) for name, how in values.items()})
        return replace(new, yes=new.total <= new.permitted)

    return slip


def misprint_kept(table, acceleration, masses):
    due = judge(table, acceleration, masses)
    if isinstance(due, Refused) or table or not 390 < acceleration <= 400 or len(masses) != 7:
        return due
    return replace(due, permitted=98_400, yes=due.total <= 98_400)


def mass_first(table, acceleration, masses):
    """23 before 22."""
    return Refused(23) if any(mass == 0 or mass > 30_480 for mass in masses) else judge(table, acceleration, masses)


def lowest_untested(table, acceleration, masses):
    return judge(table, acceleration, (1, *masses[1:]) if masses else masses)


def strictly_below(table, acceleration, masses):
    """No at the permitted mass."""
    due = judge(table, acceleration, masses)
    return due if isinstance(due, Refused) else replace(due, yes=due.total < due.permitted)


def heavier_taken(table, acceleration, masses):
    """30,481 kg taken."""
    return judge(table, acceleration, tuple(30_480 if mass == 30_481 else mass for mass in masses))


SLIPS = {
    "the row of lower acceleration": lower_row,
    "the lowest tier counted in the total": changed(total=lambda due, masses: sum(masses)),
    "n in place of n - 1": changed(permitted=lambda due, masses: due.permitted // (len(masses) - 1) * len(masses)),
    "the misprint kept": misprint_kept,
    "the tables swapped": lambda table, acceleration, masses: judge(1 - table if table < 2 else table, acceleration, masses),
    "23 before 22": mass_first,
    "the lowest box not tested": lowest_untested,
    "no at the permitted mass": strictly_below,
    "table 2 taken": lambda table, acceleration, masses: judge(1 if table == 2 else table, acceleration, masses),
    "349 taken": lambda table, acceleration, masses: judge(table, 350 if acceleration == 349 else acceleration, masses),
    "649 the highest": lambda table, acceleration, masses: judge(table, 651 if acceleration == 650 else acceleration, masses),
    "2 tiers taken": lambda table, acceleration, masses: judge(table, acceleration, (*masses, 1) if len(masses) == 2 else masses),
    "11 tiers refused": lambda table, acceleration, masses: judge(table, acceleration, () if len(masses) == 11 else masses),
    "12 tiers taken": lambda table, acceleration, masses: judge(table, acceleration, masses[:11] if len(masses) == 12 else masses),
    "mass 0 taken": lambda table, acceleration, masses: judge(table, acceleration, tuple(max(mass, 1) for mass in masses)),
    "30,481 kg taken": heavier_taken,
    "masses cut to 16 bits": lambda table, acceleration, masses: judge(table, acceleration, tuple(mass % 2**16 for mass in masses)),
}


def caught(slip, asked):
    """Whether a question tells the slip from what is due."""
    words = ((each.table, each.acceleration, each.masses) for each in asked)
    return any(packed(slip(*given)) != packed(judge(*given)) for given in words)


class Comparison(unittest.TestCase):
    @classmethod
    def setUpClass(cls):
        cls.asked = list(questions(count=2_000))

    def test_each_slip_is_caught(self):
        for name, slip in SLIPS.items():
            with self.subTest(name):
                self.assertTrue(caught(slip, self.asked))

    def test_the_script_fails_on_another_library(self):
        """One that says yes to all, with what is due for a single question."""
        said = packed(judge(0, 412, (24_000, 22_000, 20_000, 18_000)))
        fails_by(self, "compare_twenties", "FAULT: near permitted", b"", twenties=said)

    def missed(self, left_out=lambda each: False):
        reached = Reached()
        for each in self.asked:
            if not left_out(each):
                reached.add(each, judge(each.table, each.acceleration, each.masses))
        return reached.missed()

    def test_every_entry_is_reached(self):
        self.assertEqual(self.missed(), [])

    def test_an_entry_left_out_shows(self):
        found = self.missed(lambda each: (each.table, each.acceleration, len(each.masses)) == (1, 480, 9))
        self.assertEqual(found, [(1, 480, 9, False, total) for total in (96_799, 96_800, 96_801)])  # 12.1 × 8

    def test_the_heaviest_boxes_left_out_show(self):
        """Where no boxes weigh what is permitted: other questions on the entry do not stand in for them."""
        def heaviest(each):
            return sum(each.masses[1:]) == (len(each.masses) - 1) * 30_480

        places = {(table, row, tiers): total for table, row, tiers, _, total in self.missed(heaviest)}
        self.assertEqual(len(places), 47)
        self.assertEqual({(tiers, total) for (_, _, tiers), total in places.items()}, {(3, 60_960), (4, 91_440)})
        self.assertEqual(places[0, 350, 3], 60_960)  # 40.3 t are permitted


if __name__ == "__main__":
    unittest.main()
