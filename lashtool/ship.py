"""The ship's roll and a box's place, as the call for accelerations takes them, and what it says of them."""

from dataclasses import dataclass
from math import cos, radians, sin

from lashtool.checking import CheckFailed

ACCELERATIONS = {"a_t": ("A_T", 8, 1_500), "a_vmax": ("A_Vmax", 24, 3_000), "a_vmin": ("A_Vmin", 40, 1_000)}  # name, lowest bit, most
OUTSIDE = 19  # with 1, 2 or 3


class Outside(Exception):
    """Accelerations that no sheet can hold, in words."""


@dataclass(frozen=True)
class Ship:
    """As described: mm, hundredths of a degree and of a second, ten-thousandths of g."""

    length: int
    angle: int
    period: int
    heave: int
    centre: int

    def condition(self, x, y, z):
        """What the call is given for a box."""
        return *unit(self.angle), self.heave, self.angle, self.period, self.length, self.centre, x, y, z

    def words(self):
        return (
            f"roll {self.angle / 100:.2f} degrees in {self.period / 100:.2f} s about {self.centre / 1000:.3f} m, "
            f"a0 {self.heave / 10000:.4f} g, ship's length {self.length / 1000:.3f} m"
        )


def unit(angle):
    """Sine and cosine of an angle in hundredths of a degree, each the nearest ten-thousandth."""
    turn = radians(angle / 100)
    return round(10_000 * sin(turn)), round(10_000 * cos(turn))


def accelerations(roll, condition):
    """A_T, A_Vmax and A_Vmin by attribute of a tier. `roll` is the call; what it says is held to the limits before it is used."""
    reply = roll(*condition)
    if reply.number == OUTSIDE and 1 <= reply.second <= len(ACCELERATIONS):
        name, _, most = list(ACCELERATIONS.values())[reply.second - 1]
        raise Outside(f"{name} worked out from roll is outside 0 to {most:,} thousandths of g")
    found = {attribute: reply.result >> bit & 0xFFFF for attribute, (_, bit, _) in ACCELERATIONS.items()}
    within = all(found[attribute] <= most for attribute, (_, _, most) in ACCELERATIONS.items())
    if reply.number or reply.result >> 56 or not within or found["a_vmin"] > found["a_vmax"]:
        raise CheckFailed(f"the library said {reply.result:#x}, which does not fit the question or itself")
    return found
