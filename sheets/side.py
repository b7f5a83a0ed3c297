"""The second short sheet (tier count, then a 2-byte A_L a tier) and the side answer (verdict, tier count, racking and shift a tier)."""

from dataclasses import dataclass
from struct import Struct, error

SIDE_ROOM = 82  # the side buffer that the longest side answer needs
SIDE_LIMIT = 125_000  # N, CR Table 2-3
MOST_LONGITUDINAL = 1_500  # A_L, thousandths of g

HEAD = Struct("<BB")
TIER = Struct("<II")


def pack_pitch(longitudinal):
    """The short sheet of accelerations, lowest tier first."""
    return Struct(f"<B{len(longitudinal)}H").pack(len(longitudinal), *longitudinal)


@dataclass(frozen=True)
class SideAnswer:
    verdict: int
    racking: tuple  # N a tier
    shift: tuple  # thousandths of a millimetre of the level over each tier


def pack_side(answer):
    return HEAD.pack(answer.verdict, len(answer.racking)) + b"".join(map(TIER.pack, answer.racking, answer.shift))


def read_side(data):
    """The side answer of these bytes. Raises ValueError for other bytes than those of one."""
    try:
        verdict, count = HEAD.unpack_from(data)
        pairs = [TIER.unpack_from(data, HEAD.size + TIER.size * tier) for tier in range(count)]
    except error as fault:
        raise ValueError(f"no side answer: {fault}") from None
    answer = SideAnswer(verdict, tuple(racking for racking, _ in pairs), tuple(shift for _, shift in pairs))
    if pack_side(answer) != data:
        raise ValueError("no side answer: bytes follow its last tier")
    return answer
