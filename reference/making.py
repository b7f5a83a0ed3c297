"""Sheets by seed: one number gives one sheet, so that a fault can be had again."""

from dataclasses import dataclass
from random import Random

from reference import faults, samples
from sheets.sheet import pack


@dataclass(frozen=True)
class Made:
    seed: int
    kind: str
    name: str
    data: bytes


def make(seed, kinds=None):
    """The kinds take turns, so a run of seeds has each alike and goes through all edges."""
    kinds = kinds or KINDS
    kind, turn = list(kinds)[seed % len(kinds)], seed // len(kinds)
    name, data = kinds[kind](Random(seed), turn)
    return Made(seed, kind, name, data)


def legal(build):
    return lambda random, turn: ("", pack(build(random, turn)))


KINDS = {
    "realistic": legal(lambda random, turn: samples.realistic(random)),
    "extreme": legal(lambda random, turn: samples.extreme(random)),
    "near a limit": legal(samples.near),
    "by length": legal(lambda random, turn: samples.lengths(random)),
    "edge": faults.edge,
    "damaged": faults.damaged,
}
