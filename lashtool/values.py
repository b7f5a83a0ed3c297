"""Whole numbers given as words of the command line: read within their ranges, and how a bad one is told."""

import json
import re

from lashlib.version import version
from lashtool.description import shown
from lashtool.ending import complain, say


class BadValue(Exception):
    """A value that cannot be asked with, named by its option."""


def number(name, text, allowed, unit):
    """A whole number within its range."""
    words = f"a whole number of {unit} from {allowed[0]:,} to {allowed[-1]:,}"
    if not re.fullmatch(r"[0-9]{1,12}", text.strip()):
        raise BadValue(f"{name} is {shown(text)}; it has to be {words}")
    if int(text) not in allowed:
        raise BadValue(f"{name} is {int(text):,}; it has to be {words}")
    return int(text)


def failed(options, message, status):
    """Says why there is no report; the status."""
    complain(message)
    if options.json:
        return say(json.dumps({"version": version(), "status": status, "error": message}, indent=2), status)
    return status
