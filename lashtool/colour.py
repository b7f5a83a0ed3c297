"""Calm, near and over: how they look on a terminal, and in letters where there is no colour."""

import os
from math import ceil

from lashtool.figures import CALM, NEAR, OVER

CODES = {CALM: "36", NEAR: "1;33", OVER: "1;31"}
LETTERS = {CALM: "=", NEAR: "#", OVER: "!"}
CELLS = 10


def wanted(stream, environment=os.environ):
    """Whether to write colours: on a terminal only, and not against NO_COLOR or on one that has none."""
    try:
        terminal = stream is not None and stream.isatty()
    except ValueError:
        return False
    return terminal and not environment.get("NO_COLOR") and environment.get("TERM") != "dumb"


def painted(text, state, colour):
    return f"\x1b[{CODES[state]}m{text}\x1b[0m" if colour else text


def bar(figure):
    """A figure's share of its limit as ten letters; what is above the limit fills them all."""
    full = CELLS if figure.state == OVER else min(CELLS, ceil(figure.share * CELLS))
    return f"|{LETTERS[figure.state] * full:{CELLS}}|"
