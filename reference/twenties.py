"""Twenties in forty-foot guides, from document 02, P12, and CR 5.4.6(b)(ii): the printed tables beside this file, in fractions."""

from dataclasses import dataclass
from fractions import Fraction
from functools import lru_cache
from pathlib import Path

TABLES = ("table52.csv", "table53.csv")  # by number: 0 without, 1 with a 40-ft box on top
LEAST_TIERS, MOST_TIERS = 3, 11
LEAST_ACCELERATION, MOST_ACCELERATION = 350, 650  # thousandths of g
MOST_MASS = 30_480  # kg

# Table 5-2 prints 16.4 for seven tiers at 0.40 g, above the 15.4 printed at 0.39 g; the entry of the next row is used.
MISPRINT = (0, Fraction("0.40"), 7)
PRINTED, USED = Fraction("16.4"), Fraction("14.9")

BAD_QUESTION, BAD_MASS = 22, 23


@dataclass(frozen=True)
class Refused:
    number: int
    second: int = 0


@dataclass(frozen=True)
class Verdict:
    yes: bool
    total: int  # kg, all tiers but the lowest
    permitted: int  # kg


def printed(number):
    """Acceleration in g to the entry in tonnes by tier count, as CR prints it."""
    text = (Path(__file__).parent / TABLES[number]).read_text()
    head, *rows = [line.split(",") for line in text.splitlines() if not line.startswith("#")]
    tiers = list(map(int, head[1:]))
    return {Fraction(row[0]): dict(zip(tiers, map(Fraction, row[1:]), strict=True)) for row in rows}


@lru_cache
def used(number):
    """The table as document 02 has it used."""
    table = printed(number)
    misprinted, acceleration, tiers = MISPRINT
    if number == misprinted:
        rows = sorted(table)
        following = table[rows[rows.index(acceleration) + 1]][tiers]
        if (table[acceleration][tiers], following) != (PRINTED, USED):
            raise ValueError("the misprint is not where document 02 has it")
        table[acceleration] = {**table[acceleration], tiers: following}
    return table


@lru_cache(1024)
def row_taken(number, acceleration):
    """The row of this acceleration, in thousandths of g; between two rows the one of higher acceleration."""
    return min(row for row in used(number) if row >= Fraction(acceleration, 1000))


def entry(number, acceleration, tiers):
    return used(number)[row_taken(number, acceleration)][tiers]


def permitted(number, acceleration, tiers):
    """The entry in tonnes times the number of all tiers but the lowest, in kg."""
    return int(entry(number, acceleration, tiers) * 1000 * (tiers - 1))


def judge(number, acceleration, masses):
    """What the call must say of these twenties, lowest first."""
    asked = number < len(TABLES) and LEAST_ACCELERATION <= acceleration <= MOST_ACCELERATION
    if not asked or not LEAST_TIERS <= len(masses) <= MOST_TIERS:
        return Refused(BAD_QUESTION)
    if any(mass == 0 or mass > MOST_MASS for mass in masses):
        return Refused(BAD_MASS)
    total, most = sum(masses[1:]), permitted(number, acceleration, len(masses))
    return Verdict(total <= most, total, most)


def packed(said):
    """The 64 bits that the call for C returns for this."""
    if isinstance(said, Refused):
        return said.number | said.second << 8
    return said.yes << 8 | said.total << 16 | said.permitted << 40
