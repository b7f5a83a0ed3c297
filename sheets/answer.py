"""The answer sheet: what its bytes hold."""

from dataclasses import dataclass
from fractions import Fraction
from struct import unpack_from


@dataclass(frozen=True)
class LashForces:
    tension: Fraction
    athwart: Fraction
    vertical: Fraction


@dataclass(frozen=True)
class End:
    """The forces of one end in N, exact or reported."""

    racking: tuple  # tiers 1 to n
    compression: tuple  # levels 0 to n
    tension: tuple  # levels 0 to n-1
    lashes: tuple  # LashForces, in sheet order


@dataclass(frozen=True)
class Answer:
    verdict: int
    ends: tuple  # two End, door first, of reported forces
    findings: list  # (end, kind, index)
    length: int  # the bytes that the answer takes


class BadAnswer(Exception):
    """Bytes that are no answer sheet, with the reason."""


class AnswerReader:
    """Hands out an answer's bytes in order."""

    def __init__(self, data):
        self.data = data
        self.place = 0

    def take(self, layout, size, what):
        if self.place + size > len(self.data):
            raise BadAnswer(f"ends after {len(self.data)} bytes, within {what}")
        numbers = unpack_from(layout, self.data, self.place)
        self.place += size
        return numbers

    def byte(self, what):
        return self.take("<B", 1, what)[0]

    def list(self, what, code="I"):
        count = self.byte(f"the count of {what}")
        return self.take(f"<{count}{code}", 4 * count, what)

    def triples(self, what, code, size):
        count = self.byte(f"the count of {what}")
        return [self.take(f"<3{code}", 3 * size, what) for _ in range(count)]


def read_answer(data):
    """The answer that the bytes begin with."""
    reader = AnswerReader(data)
    verdict = reader.byte("the verdict")
    if verdict > 1:
        raise BadAnswer(f"the verdict byte is {verdict}")
    ends = (read_end(reader), read_end(reader))
    findings = reader.triples("findings", "B", 1)
    return Answer(verdict, ends, findings, reader.place)


def read_end(reader):
    racking = reader.list("rackings", "i")
    compression = reader.list("compressions")
    tension = reader.list("tensions")
    lashes = reader.triples("lash forces", "I", 4)
    return End(racking, compression, tension, tuple(LashForces(*forces) for forces in lashes))


def counts(end):
    return len(end.racking), len(end.compression), len(end.tension), len(end.lashes)


def counts_due(sheet, end):
    """The counts that an end of this sheet's answer has."""
    tiers = len(sheet.tiers)
    return tiers, tiers + 1, tiers, len(sheet.lashes(end))
