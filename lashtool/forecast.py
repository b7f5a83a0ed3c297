"""A short voyage's forecast, given as --forecast H,B,HOURS, and its factor (CR 5.2.4(d)), which takes the place of the route's."""

from dataclasses import dataclass

from lashtool.values import BadValue, number
from lashtool.words import counted

OPTION = "--forecast"
FIELDS = (
    ("wave height", range(2**16), "cm"),
    ("breadth", range(1, 2**16), "cm"),
    ("voyage", range(72), "hours"),
)
HELP = "check by the weather in place of the route: forecast wave height and breadth in cm, voyage in hours, under 72"
FACTORS = range(600, 1001)  # thousandths


@dataclass(frozen=True)
class Forecast:
    wave_height: int  # cm
    breadth: int  # cm
    hours: int

    @property
    def numbers(self):
        return self.wave_height, self.breadth, self.hours

    @property
    def thousandths(self):
        """The factor on A_T: the least with t - 400 at least 1,000 H / (20 root B), by squares; the greatest where none is."""
        enough = (t for t in FACTORS if (t - 400) ** 2 * self.breadth >= (50 * self.wave_height) ** 2)
        return next(enough, FACTORS[-1])

    def __str__(self):
        weather = f"forecast of waves {self.wave_height:,} cm high, breadth {self.breadth:,} cm, {counted(self.hours, 'hour')}"
        return f"{weather}: A_T x {self.thousandths / 1000:.3f}"

    def as_data(self):
        return {
            "wave_height_cm": self.wave_height, "breadth_cm": self.breadth, "hours": self.hours, "A_T_thousandths": self.thousandths,
        }


def forecast(text):
    """The forecast in the option's words; none where it is not given."""
    if text is None:
        return None
    texts = text.split(",")
    if len(texts) != len(FIELDS):
        words = "wave height and breadth in cm and the voyage in hours, as 300,2500,48"
        raise BadValue(f"{OPTION}: {len(texts)} given; it takes {len(FIELDS)} numbers: {words}")
    return Forecast(*(number(f"{OPTION}: {name}", each, *limits) for (name, *limits), each in zip(FIELDS, texts)))


def with_route(route):
    """What refusal 20 means."""
    return f"route {route}; with {OPTION} it has to be 0, since the forecast's factor takes the place of the route's"
