"""The chains of springs that elimination is run on: their exact shifts, and slips of elimination that their bounds show."""

import unittest
from fractions import Fraction

from reference.chains import CHAINS, LOAD, MOST_HELD, SOFT, STIFFNESS, Chain, bounds, even, exact, line, solvable

# Elimination in whole numbers with one thing wrong.
SLIPS = (
    "no stiffness handed down",
    "no load handed down",
    "own lashes forgotten",
    "shift under it forgotten",
    "load of the level under it",
)


def divided(top, bottom):
    return top * STIFFNESS // bottom


def eliminated(chain, slip=None):
    """The shifts by elimination: from the top down what is handed down, then from the deck up."""
    springs, lashes, loads = chain.springs, chain.lashes, chain.loads
    count = len(springs)
    stiffness, load = [0] * (count + 1), [0] * (count + 1)
    for i in reversed(range(count)):
        held = stiffness[i + 1] + (0 if slip == "own lashes forgotten" else lashes[i])
        whole = springs[i] * STIFFNESS + held
        stiffness[i] = 0 if slip == "no stiffness handed down" else divided(springs[i] * held, whole)
        load[i] = 0 if slip == "no load handed down" else divided(springs[i] * (loads[i] + load[i + 1]), whole)
    shifts, under = [], 0
    for i in range(count):
        own = loads[max(0, i - 1)] if slip == "load of the level under it" else loads[i]
        pushed = own + load[i + 1] + (0 if slip == "shift under it forgotten" else springs[i] * under)
        under = divided(pushed, springs[i] * STIFFNESS + lashes[i] + stiffness[i + 1])
        shifts.append(under)
    return shifts


def inside(chain, slip=None):
    return all(least <= shift <= most for shift, (least, most) in zip(eliminated(chain, slip), bounds(chain)))


class Chains(unittest.TestCase):
    def test_figures(self):
        """Document 01's (d) and (e)."""
        self.assertEqual(exact(CHAINS[0]), [Fraction(220_725, 10) / 10_930])
        self.assertEqual(exact(CHAINS[1])[1], Fraction(2_918_475, 100) / 18_130)

    def test_balance(self):
        """Each level of the exact shifts is in balance."""
        for chain in CHAINS:
            shifts = [0, *exact(chain), 0]
            springs = [*chain.springs, 0]
            for i, (held, load) in enumerate(zip(chain.lashes, chain.loads), 1):
                racking = springs[i - 1] * (shifts[i] - shifts[i - 1]) - springs[i] * (shifts[i + 1] - shifts[i])
                self.assertEqual(racking + Fraction(held, STIFFNESS) * shifts[i], Fraction(load, LOAD))

    def test_every_count_and_all_ranges(self):
        taken = [chain for chain in CHAINS if solvable(chain)]
        self.assertEqual({len(chain.springs) for chain in taken}, set(range(11)))
        self.assertTrue(any(MOST_HELD in chain.lashes and 0 in chain.lashes for chain in taken))
        self.assertEqual([line(chain) for chain in CHAINS if not solvable(chain)], ["not solvable\n"] * 4)

    def test_elimination(self):
        for chain in filter(solvable, CHAINS):
            self.assertTrue(inside(chain), chain)

    def test_slips(self):
        for slip in SLIPS:
            with self.subTest(slip):
                self.assertFalse(all(inside(chain, slip) for chain in filter(solvable, CHAINS)))

    def test_bounds_are_near(self):
        """A shift of one soft tier may be off by 0.05 N over its spring, that of a lashed level by less."""
        least, most = bounds(Chain((SOFT,), (0,), (1_000 * LOAD,)))[0]
        self.assertEqual(most - least, 2 * (5 * 2**28 // (100 * SOFT)))
        least, most = bounds(even(1, SOFT, MOST_HELD, 1_000 * LOAD))[0]
        self.assertLess(most - least, 50)


if __name__ == "__main__":
    unittest.main()
