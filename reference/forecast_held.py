"""What a call by a forecast is held to beside the fractions: bytes that it leaves alone, and the check at the greatest factor."""

from reference.forecast import MOST_FACTOR
from reference.forecast_asked import GREATEST


def output(reply):
    """What comes out of a call; a taken one must leave the bytes behind its answer alone."""
    kept = reply.buffer[reply.second if reply.number == 0 else 0 :]
    return reply.output + (b"" if not any(kept) else b"changed")


def at_full_factor(library, asked):
    """What is wrong where the factor is 1,000, the sheet's route 0 and the voyage short: as the check, whatever the bytes."""
    if asked.data[1:2] == b"\0":
        by_forecast = library.forecast(asked.data, GREATEST, 1, 0, asked.room)
        if by_forecast != library.check(asked.data, asked.room):
            yield f"with a factor of {MOST_FACTOR} it differs from the check"
